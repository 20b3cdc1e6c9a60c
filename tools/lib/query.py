"""Queries: from XPath to records, and from records to words."""
import re

from lib.text import Text, is_number

MOST_STEPS = 32
AXES = {1: "child", 2: "descendant"}
AXIS_BYTES = {axis: byte for byte, axis in AXES.items()}
# The reasons that come with refusal 10, in words.
REASONS = {1: "axis", 2: "role", 3: "what it hangs on", 4: "a byte that must be 0"}
SIGNS = r"//|::|\.\.|!=|<=|>=|'[^']*'|\"[^\"]*\"|"

# What XPath has and a query has not, by the sign that gives it away.
NOT_SUPPORTED = {
    "@": "attributes", "..": "the parent", ".": "the node itself, but for ./ and .// where a predicate begins",
    "|": "unions (|); ask for each path in a query of its own", "$": "variables",
    "+": "numbers and sums", "-": "numbers and sums", "or": "or", "div": "numbers and sums", "mod": "numbers and sums",
    **{sign: f"values and comparisons ({sign})" for sign in ("=", "!=", "<", "<=", ">", ">=")},
}
# The same for what is written with brackets after it.
CALLS = {"text": "text values", "position": "positions", "last": "positions",
         "comment": "a comment is an element here, and its name number is 65535"}


def unsupported(token):
    if token[:1] in ("'", '"'):
        return "values and strings"
    if re.fullmatch(r"[0-9]+\.[0-9.]*", token):
        return "values and numbers"
    return NOT_SUPPORTED.get(token)


class Query:
    """The steps of an XPath, in the order in which they are written: (axis, main, hangs on, name number)."""

    def __init__(self, text, names):
        self.names = names
        self.steps = []
        self.text = Text(text, SIGNS)
        if self.text.ahead() == "<":
            raise self.text.bad("this looks like XML; a query is an XPath, as /descendant::d[child::c]")
        if self.text.ahead() not in ("/", "//"):
            raise self.text.bad("a query begins at the document, with / or //")
        self.path(0, True, self.slash())
        if self.text.ahead():
            raise self.wrong(f"{self.text.ahead()} does not belong here")

    def wrong(self, message):
        """What is wrong with the token ahead."""
        text = self.text
        if text.ahead() == ":" and text.ahead(1) == "*":
            return text.bad("not supported: a prefix with *")
        no = unsupported(text.ahead())
        return text.bad(f"not supported: {no}" if no else message)

    def slash(self):
        """The axis that the slash taken here gives a step that names none."""
        return "descendant" if self.text.take() == "//" else "child"

    def path(self, hangs_on, main, axis):
        while True:
            hangs_on = self.step(hangs_on, main, axis)
            if self.text.ahead() not in ("/", "//"):
                return
            axis = self.slash()

    def test(self):
        """A name, a number or *, that is not the name of something called with brackets."""
        text = self.text
        if text.taken("*"):
            return "*"
        # A step may well be named or, div or mod: only a sign shows that something else is meant.
        if unsupported(text.ahead()) and not text.ahead().isalpha():
            raise self.wrong("")
        word = text.word("a name or *")
        if text.ahead() == "(":
            why = f" ({CALLS[word]})" if word in CALLS else ", only names and *"
            raise text.bad(f"not supported: {word}(){why}", text.place - 1)
        return word

    def step(self, hangs_on, main, axis):
        text, begin = self.text, self.text.place
        word = self.test()
        if text.taken("::"):
            if word not in AXIS_BYTES:
                raise text.bad(f"not supported: the axis {word}, only child and descendant", begin)
            # //descendant::x and //child::x are both the descendants named x: there are no positions to count.
            axis = "descendant" if word == "descendant" else axis
            word = self.test()
        if len(self.steps) == MOST_STEPS:
            raise text.bad(f"a query has at most {MOST_STEPS} steps, and this is one more", begin)
        self.steps.append((axis, main, hangs_on, 0 if word == "*" else text.number_of(word, self.names)))
        number = len(self.steps)
        while text.taken("["):
            self.predicate(number)
        return number

    def predicate(self, hangs_on):
        text = self.text
        if text.ahead() in ("/", "//"):
            raise text.bad(f"a predicate is a path from here: write .{text.ahead()} in place of {text.ahead()}")
        if is_number(text.ahead()):
            what = "positions" if text.ahead(1) in ("]", "") else "values and numbers"
            raise text.bad(f"not supported: {what}; a name number in a predicate needs its axis, as child::1")
        axis = "child"
        if text.taken("."):
            if text.ahead() not in ("/", "//"):
                raise self.wrong("./ or .// must stand here")
            axis = self.slash()
        self.path(hangs_on, False, axis)
        if text.ahead() == "and":
            raise text.bad("and is written as two predicates, [a][b]")
        if not text.taken("]"):
            raise self.wrong("] is missing here")

    def bytes(self):
        return b"".join(bytes([AXIS_BYTES[axis], main, hangs_on, 0]) + name.to_bytes(2, "big") + bytes(2)
                        for axis, main, hangs_on, name in self.steps)


def step_fault(number, record, last_main):
    """The lowest reason that applies to a step, and why, or nothing; last_main is the nearest main-path step before it."""
    axis, role, hangs_on, zero3, _, _, zero6, zero7 = record
    faults = [
        (1, axis not in AXES, f"axis {axis} is neither 1 (child) nor 2 (descendant)"),
        (2, role not in (0, 1), f"byte 1 is {role}, neither 1 (main path) nor 0 (predicate)"),
        (2, number == 1 and role == 0, "step 1 must be on the main path, not in a predicate"),
        (3, number == 1 and hangs_on != 0, f"step 1 must hang on 0, not on {hangs_on}"),
        (3, role == 1 and hangs_on != last_main, f"a main-path step here hangs on {last_main}, not on {hangs_on}"),
        (3, role == 0 and not 1 <= hangs_on < number,
         f"a predicate step here hangs on a step from 1 to {number - 1}, not on {hangs_on}"),
        (4, zero3 or zero6 or zero7, "bytes 3, 6 and 7 must be 0"),
    ]
    return next(((reason, why) for reason, broken, why in faults if broken), None)


def query_fault(data):
    """Why a query is refused, or nothing."""
    if not data or len(data) % 8 or len(data) > 8 * MOST_STEPS:
        return f"refused 9: {len(data)} bytes; a query is whole records of 8 bytes, 1 to {MOST_STEPS} of them"
    last_main = 0
    for number in range(1, len(data) // 8 + 1):
        record = data[8 * number - 8:8 * number]
        fault = step_fault(number, record, last_main)
        if fault:
            reason, why = fault
            return f"refused 10 at {number} reason {reason} ({REASONS[reason]}): {why}"
        last_main = number if record[1] == 1 else last_main
    return None


def query_steps(data):
    """The steps of an admitted query: (axis, main, hangs on, name number), the first at place 1."""
    return [None] + [(AXES[r[0]], r[1] == 1, r[2], int.from_bytes(r[4:6], "big"))
                     for r in (data[place:place + 8] for place in range(0, len(data), 8))]


def xpath(data, word):
    """The XPath of an admitted query; word gives a name number's word."""
    steps = query_steps(data)

    def text(number):
        axis, _, _, name = steps[number]
        hanging = (n for n in range(number + 1, len(steps)) if not steps[n][1] and steps[n][2] == number)
        return f"{axis}::{word(name) if name else '*'}" + "".join(f"[{text(n)}]" for n in hanging)

    return "".join("/" + text(number) for number in range(1, len(steps)) if steps[number][1])


def show_query(data, word):
    """Shows a query in words; whether it is admitted."""
    fault = query_fault(data)
    if fault:
        print(f"a query that is {fault}")
        return False
    print(xpath(data, word))
    steps = query_steps(data)
    listed = max(n for n in range(1, len(steps)) if steps[n][1])
    for number, (axis, main, hangs_on, name) in list(enumerate(steps))[1:]:
        what = f"named {word(name)} ({name})" if name else "of any name"
        where = f"of step {hangs_on}" if hangs_on else "of the document"
        role = "predicate" if not main else "main path, listed" if number == listed else "main path"
        print(f"  step {number}: {axis} {what}, {where}  ({role})")
    return True
