"""The words that queries and documents are written with, and a text read from the left."""
import re
import unicodedata

# The name characters of XML 1.0 (fifth edition), but for the colon: it stands between a prefix and a name.
START = ("A-Z_a-z\u00C0-\u00D6\u00D8-\u00F6\u00F8-\u02FF\u0370-\u037D\u037F-\u1FFF\u200C-\u200D\u2070-\u218F\u2C00-\u2FEF"
         "\u3001-\uD7FF\uF900-\uFDCF\uFDF0-\uFFFD\U00010000-\U000EFFFF")
INSIDE = START + "0-9\u00B7\u0300-\u036F\u203F-\u2040"
PART = f"[{START}][{INSIDE}.-]*"
NAME = re.compile(f"{PART}(?::{PART})?")
NUMBER = re.compile("[0-9]+")
# Whatever stands together as a name or a number would; 1d is one word, and neither.
WORD = f"[{INSIDE}][{INSIDE}.-]*(?::[{INSIDE}][{INSIDE}.-]*)?"

# How much of a long text a message shows, and how much of that stands before the place.
SHOWN, BEFORE = 100, 60


class Bad(Exception):
    """Something the reader of the message can put right."""


def is_name(word):
    return bool(NAME.fullmatch(word))


def is_number(word):
    return bool(NUMBER.fullmatch(word))


def width(text):
    """How many columns a text takes on a terminal."""
    return sum(0 if unicodedata.category(c) in ("Mn", "Me", "Cf") else 2 if unicodedata.east_asian_width(c) in "WF" else 1
               for c in text)


class Text:
    """A text read from the left; messages point at the place."""

    def __init__(self, text, signs=""):
        self.text = text
        self.tokens = [(m.group(), m.start()) for m in re.finditer(rf"{signs}{WORD}|\S", text)]
        self.place = 0

    def ahead(self, further=0):
        place = self.place + further
        return self.tokens[place][0] if place < len(self.tokens) else ""

    def take(self):
        self.place += 1
        return self.tokens[self.place - 1][0]

    def taken(self, token):
        return self.ahead() == token and bool(self.take())

    def bad(self, message, place=None):
        """The message, pointing at the token at that place, else at the one ahead."""
        place = self.place if place is None else place
        at = self.tokens[place][1] if place < len(self.tokens) else len(self.text)
        first = max(0, at - BEFORE)
        return Bad(f"{message}\n  {self.text[first:first + SHOWN]}\n  {' ' * width(self.text[first:at])}^")

    def word(self, what):
        """A name or a number."""
        word = self.ahead()
        if not re.fullmatch(WORD, word):
            raise self.bad(f"{what} must stand here")
        if not is_name(word) and not is_number(word):
            raise self.bad(f"{word} is neither a name nor a number")
        return self.take()

    def number_of(self, word, names):
        """The number of the word that was taken last."""
        try:
            return names.number(word)
        except Bad as problem:
            raise self.bad(str(problem), self.place - 1) from None
