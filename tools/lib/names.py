"""The names list, and the seal beside a record file that says with which names it was made (docs/FORMATS.md)."""
import hashlib
import re
from pathlib import Path

from lib.text import Bad, is_name, is_number

MOST_NAME = 65535
# The last number is what the exporter writes for a comment, so no word gets it.
MOST_WORD = MOST_NAME - 1
SEAL = re.compile(r"file ([0-9a-f]{64})\nnames ([0-9]{1,5})\nlist ([0-9a-f]{64})\n")


class Names:
    """A word a line, its number the line's. New words are added at the end."""

    def __init__(self, path):
        self.path = Path(path)
        self.before = self.path.read_bytes() if self.path.exists() else b""
        try:
            lines = self.before.decode("utf-8-sig").split("\n")
        except UnicodeDecodeError:
            raise Bad(f"{self.path} is not UTF-8 text") from None
        self.words = [line.strip() for line in (lines if lines[-1] else lines[:-1])]
        self.listed = len(self.words)      # those after them are new
        self.used = 0                      # the highest number that a word was given
        self.places = {}
        for number, word in enumerate(self.words, 1):
            self.places.setdefault(word, number)

    def number(self, word):
        if is_number(word):
            # Leading zeros apart, five digits are enough; int() would refuse thousands of them in its own words.
            number = int(word.lstrip("0")[:6] or 0)
            if not 1 <= number <= MOST_NAME:
                raise Bad(f"{word} is not a name number: they go from 1 to {MOST_NAME}")
            return number
        if word not in self.places:
            self.words.append(word)
            self.places[word] = len(self.words)
        number = self.places[word]
        if number > MOST_WORD:
            raise Bad(f"{word} would have the number {number} in {self.path}, and a word's number is at most {MOST_WORD}")
        self.used = max(self.used, number)
        return number

    def word(self, number):
        listed = self.words[number - 1] if 1 <= number <= len(self.words) else ""
        # Shown is only what would be read back: a word that stands twice in the list means its first place.
        return listed if is_name(listed) and self.places[listed] == number else str(number)

    def fresh(self):
        """The new words, with their numbers."""
        return list(enumerate(self.words[self.listed:], self.listed + 1))

    def bytes(self):
        """The list as it was, and the new words after it."""
        cut = self.before and not self.before.endswith(b"\n")
        return self.before + b"\n" * bool(cut) + "".join(f"{word}\n" for _, word in self.fresh()).encode()

    def digest(self, count):
        return digest("".join(f"{word}\n" for word in self.words[:count]).encode())


def digest(data):
    return hashlib.sha256(data).hexdigest()


def seal_path(path):
    path = Path(path)
    return path.with_name(path.name + ".names")


def seal(data, names):
    """The seal of a file with these bytes: it depends on the list as far as its words stand there."""
    return f"file {digest(data)}\nnames {names.used}\nlist {names.digest(names.used)}\n".encode()


def disagreement(path, data, names):
    """Why a sealed file is not known to have been made with these names, or nothing."""
    at = seal_path(path)
    try:
        found = SEAL.fullmatch(at.read_bytes().decode("ascii", "replace"))
    except FileNotFoundError:
        return f"{path} has no seal ({at}), so its names cannot be checked"
    if not found:
        return f"{at} is not a seal: it has not the three lines file, names and list"
    of_file, count, of_list = found[1], int(found[2]), found[3]
    if of_file != digest(data):
        return f"{path} is not the file that {at} was written for: one of the two has changed since"
    if count > len(names.words):
        return f"{path} was made with a longer names list: {names.path} has {len(names.words)} names, and it needs {count}"
    if of_list != names.digest(count):
        return f"{path} was made with another names list: the first {count} names in {names.path} are not those"
    return None
