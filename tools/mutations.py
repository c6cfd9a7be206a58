"""Inputs of the tree with bytes, numbers, words and lines changed, or with another one's end."""

import pathlib
import re
import subprocess

import cases

ROOT = pathlib.Path(__file__).resolve().parents[1]
# A longer input says no more and takes the time of many.
MOST_BYTES = 20_000
MOST_CHANGES = 6
NUMBER = re.compile(rb"\d+")
WORD = re.compile(rb"[^ \n]+")
# Numbers at the limits of a field, and one beyond them.
NUMBERS = [0, 1, 2, 7, 8, 9, 23, 24, 25, 31, 32, 33, 63, 64, 65, 127, 128, 129, 255, 256, 999, 1000]
NUMBERS += [1001, 8191, 8192, 8193, 65535, 65536, 262144, 2**31 - 1, 2**32 - 1, 2**32, 2**63]
NUMBERS += [2**64 - 1, 2**64, 10**20]


def inputs():
    """Each input of cases/ and examples/ that isn't too long, once, in the order of the files."""
    found = {it.input: None for path in cases.all_files() for it in cases.cases_in(path)}
    for path in sorted((ROOT / "examples").iterdir()):
        if path.is_file() and path.suffix in (".history", ".script", ".drive"):
            found[path.read_bytes()] = None
    return [it for it in found if 0 < len(it) <= MOST_BYTES]


def seed_of_commit():
    """A number that another commit changes."""
    words = ["git", "-C", str(ROOT), "rev-parse", "HEAD"]
    found = subprocess.run(words, capture_output=True, text=True, check=False).stdout
    return int(found[:12].strip() or "1", 16)


class Mutator:
    """What changes an input; everything is drawn from the one generator."""

    def __init__(self, sources):
        self.sources = sources
        words = {word for it in sources if it.isascii() for word in WORD.findall(it)}
        self.words = sorted(it for it in words if len(it) <= 100)

    def input(self, drawn):
        """An input, changed in some places."""
        text = bytearray(drawn.choice(self.sources))
        for _ in range(drawn.randint(0, MOST_CHANGES)):
            drawn.choice(self.CHANGES)(self, text, drawn)
        return bytes(text)

    def change_byte(self, text, drawn):
        if text:
            byte = drawn.choice([drawn.randrange(256), *b"\0\t\n\r 019az-?=\x7f\xff"])
            text[drawn.randrange(len(text))] = byte

    def change_bit(self, text, drawn):
        if text:
            text[drawn.randrange(len(text))] ^= 1 << drawn.randrange(8)

    def add_byte(self, text, drawn):
        place = drawn.randint(0, len(text))
        text.insert(place, drawn.choice([drawn.randrange(256), *b"\n\r 09a#"]))

    def drop_bytes(self, text, drawn):
        at = drawn.randint(0, len(text))
        del text[at : at + drawn.choice([1, 1, 2, 3, 8, 40])]

    def cut(self, text, drawn):
        del text[drawn.randint(0, len(text)) :]

    def change_number(self, text, drawn):
        found = list(NUMBER.finditer(text))
        if found:
            place = drawn.choice(found)
            its = int(place[0][:30])
            number = drawn.choice([*NUMBERS, its + 1, max(its - 1, 0)])
            zeros = b"0" * drawn.choice([0, 0, 0, 1, 30])
            text[place.start() : place.end()] = zeros + b"%d" % number

    def change_word(self, text, drawn):
        found = list(WORD.finditer(text))
        if found:
            place = drawn.choice(found)
            text[place.start() : place.end()] = drawn.choice(self.words)

    def add_word(self, text, drawn):
        found = [it.end() for it in WORD.finditer(text)]
        if found:
            at = drawn.choice(found)
            text[at:at] = b" " + drawn.choice(self.words)

    def move_lines(self, text, drawn):
        """Drops, doubles or exchanges lines."""
        lines = bytes(text).split(b"\n")
        at, other = drawn.randrange(len(lines)), drawn.randrange(len(lines))
        kind = drawn.randrange(4)
        if kind == 0:
            del lines[at]
        elif kind == 1:
            lines.insert(other, lines[at])
        elif kind == 2:
            lines[at], lines[other] = lines[other], lines[at]
        else:
            lines[at:at] = [lines[at]] * drawn.choice([2, 24, 25, 64, 128, 1001])
        text[:] = b"\n".join(lines)[: 4 * MOST_BYTES]

    def take_line(self, text, drawn):
        """Puts a line of another input in."""
        lines = bytes(text).split(b"\n")
        place = drawn.randint(0, len(lines))
        lines.insert(place, drawn.choice(drawn.choice(self.sources).split(b"\n")))
        text[:] = b"\n".join(lines)

    def splice(self, text, drawn):
        """Goes on with the end of another input."""
        other = drawn.choice(self.sources)
        text[drawn.randint(0, len(text)) :] = other[drawn.randint(0, len(other)) :]

    CHANGES = [change_byte, change_bit, add_byte, drop_bytes, cut, change_number, change_number]
    CHANGES += [change_word, change_word, add_word, move_lines, move_lines, take_line, splice]
