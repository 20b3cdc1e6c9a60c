"""Events: from nested names to records, and from records to words."""
import struct

from lib.text import Text, is_number

OPEN, CLOSE = 1, 2
# The limits of a session that a stream alone can pass.
MOST_OPEN, MOST_NODES = 256, 16_777_215
# More than a session can take, and as much as a slip of the pen should cost.
MOST_EVENTS = 40_000_000
# Up to how many events the nested form is shown, and up to which depth a line is indented.
NESTED, INDENTED = 200, 64

# What a document is not written with, by the sign that gives it away.
OTHER_FORMS = {
    "<": "this looks like XML; a document is written here as nested names: r(d c) is r containing d, then c",
    **dict.fromkeys("/[", "this looks like a query; a document is nested names: r(d c) is r containing d, then c"),
    **dict.fromkeys("='\"@", "not supported: attributes and text; a document is nested names alone, as r(d c)"),
}


def event(kind, number):
    return bytes([kind, 0]) + number.to_bytes(2, "big") + bytes(4)


def name_number(text, names):
    """Takes a name; its number."""
    if text.ahead() in OTHER_FORMS:
        raise text.bad(OTHER_FORMS[text.ahead()])
    return text.number_of(text.word("a name"), names)


def document(text, names):
    """The events of one nested document."""
    text = Text(text)
    data = bytearray()
    around = []              # the elements around: name number, and where the open stands in data
    while text.ahead():
        if text.ahead() == ")":
            if not around:
                raise text.bad("this ) closes nothing")
            number, start = around.pop()
            text.take()
        else:
            if data and not around:
                raise text.bad("a document has one outermost element, and this comes after it")
            number, start = name_number(text, names), len(data)
            data += event(OPEN, number)
            if text.taken("("):
                around.append((number, start))
                continue
        data += event(CLOSE, number)
        if text.taken("*"):
            repeat(text, data, start, alone=not around)
        text.taken(",")
    if around:
        raise text.bad(") is missing here; a stream that is cut is written as +r +d -d")
    return bytes(data)


def repeat(text, data, start, alone):
    """Puts what stands in data from start on there as often as the text says."""
    word = text.ahead()
    if not is_number(word):
        raise text.bad("how many must stand here, as in d*3")
    count = int(word[:20])
    if alone and count != 1:
        raise text.bad(f"a document has one outermost element, and this makes {count} of them")
    if start + (len(data) - start) * count > 8 * MOST_EVENTS:
        raise text.bad(f"this makes more than {MOST_EVENTS:,} events; a session takes {2 * MOST_NODES:,} at most")
    text.take()
    if count != 1:
        data[start:] = data[start:] * count


def single(text, names):
    """The events of +name and -name."""
    text = Text(text)
    data = bytearray()
    while text.ahead():
        if text.ahead() not in ("+", "-"):
            raise text.bad(OTHER_FORMS.get(text.ahead(), "+ to open or - to close must stand here"))
        kind = OPEN if text.take() == "+" else CLOSE
        data += event(kind, name_number(text, names))
    return bytes(data)


class Stream:
    """A stream read up to the first fault in it; of its events the first `keep` are kept, and of its nodes those wanted."""

    def __init__(self, data, word=str, keep=0, wanted=()):
        self.word, self.keep, self.wanted = word, keep, frozenset(wanted)
        self.kept = []           # (kind, name number, depth, node number)
        self.found = {}          # of each wanted node: its path from the document element, and the event that opened it
        self.events = self.nodes = 0
        self.open = []           # (name number, node number)
        self.too_deep = self.too_many = None      # the first event past a limit of the session
        whole = len(data) // 8 * 8
        for record in struct.iter_unpack(">BBHL", memoryview(data)[:whole]):
            self.fault = self.fault_of(*record) or self.take(record[0], record[2])
            if self.fault:
                return
        left = len(data) - whole
        self.fault = f"event {self.events + 1} has only {left} bytes (refusal 2)" if left else None

    def fault_of(self, kind, zero, name, rest):
        """Why a record is refused whatever the query, or nothing."""
        number = self.events + 1
        if kind not in (OPEN, CLOSE) or zero or name == 0 or rest:
            return f"event {number} is a bad record: {struct.pack('>BBHL', kind, zero, name, rest).hex(' ')} (refusal 2)"
        if self.events and not self.open:
            return f"event {number} comes after the end of the document (refusal 3)"
        if kind == CLOSE and (not self.open or self.open[-1][0] != name):
            innermost = f"the innermost open element is {self.word(self.open[-1][0])}" if self.open else "nothing is open"
            return f"event {number} closes {self.word(name)}, and {innermost} (refusal 4)"
        return None

    def take(self, kind, name):
        self.events += 1
        if kind == OPEN:
            self.nodes += 1
            if len(self.open) >= MOST_OPEN:
                self.too_deep = self.too_deep or self.events
            if self.nodes > MOST_NODES:
                self.too_many = self.too_many or self.events
            self.open.append((name, self.nodes))
            if self.nodes in self.wanted:
                self.found[self.nodes] = ([around for around, _ in self.open], self.events)
        if self.events <= self.keep:
            self.kept.append((kind, name, len(self.open) - 1, self.open[-1][1]))
        if kind == CLOSE:
            self.open.pop()

    def state(self):
        if self.open:
            return f"{len(self.open)} still open"
        return "the document is finished" if self.events else "no document element yet"

    def notes(self):
        """What the session refuses though the records are right."""
        if self.too_deep:
            yield f"event {self.too_deep} opens an element inside {MOST_OPEN} others: the session will refuse it with 5"
        if self.too_many:
            yield f"event {self.too_many} opens node {MOST_NODES + 1:,}: the session will refuse it with 6"


def nested(kept, word):
    """The document in its nested form; an element that is not closed lacks its bracket."""
    parts = []
    for at, (kind, name, _, _) in enumerate(kept):
        last = kept[at - 1][0] if at else None
        if kind == OPEN:
            parts.append(("" if last is None else "(" if last == OPEN else " ") + word(name))
        elif last == CLOSE:
            parts.append(")")
    return "".join(parts)


def show_events(read, lines):
    """Shows a stream in words."""
    word = read.word
    print(f"{read.events} events, {read.nodes} nodes, {read.state()}")
    if read.fault:
        print(f"then a fault: {read.fault}")
    if 0 < read.events <= NESTED:
        print(nested(read.kept, word))
    for at, (kind, name, depth, node) in enumerate(read.kept[:lines], 1):
        what = f"open {word(name)}  (node {node})" if kind == OPEN else f"close {word(name)}"
        print(f"  {at:>6} {'  ' * min(depth, INDENTED)}{what}")
    if read.events > lines:
        print(f"  ... and {read.events - lines} more events (--lines N shows more)")


def show_nodes(read, wanted):
    """Shows where nodes stand; whether all of them are there."""
    for node in wanted:
        if node not in read.found:
            print(f"node {node}: not in this stream of {read.nodes} nodes")
            continue
        path, opened = read.found[node]
        names = [read.word(name) for name in path]
        print(f"node {node}: {names[-1]}, /{'/'.join(names)}, opened by event {opened}")
    return all(node in read.found for node in wanted)


def notes_on(text, data):
    """What the session will refuse in the events of a text."""
    # With few brackets nothing is deep, and a long stream is then mostly repetition: it need not be read again.
    if text[:1] not in ("+", "-") and text.count("(") < MOST_OPEN and len(data) <= 16 * MOST_NODES:
        return ()
    return Stream(data).notes()


def events_of(text, names):
    """The events of a text in either form."""
    return (single if text[:1] in ("+", "-", "") else document)(text, names)
