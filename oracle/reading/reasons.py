"""Why a hex number of a line is none, document 02 b): the texts of a line that are read as hex, and what each reads as."""

import re
from collections import namedtuple

from reading.texts import HEX_DIGITS

LONGEST = 4096
# The keys by their numbers in C, each with its bits.
KEYS = {1: ("route", 64), 2: ("offset", 16), 3: ("error", 8), 4: ("config", 8), 5: ("unplug", 8)}
PIECE_BITS = 32
# A pair, by its key and value: word run, `=`, and a word run or a bracket with bytes in it.
PAIR = re.compile(rb"(\w+)=(\w+|\[[^]]+\])")

# What a text reads as, its number, the place of its first bad digit, where it lies in the line and how long it is; 0 for what there is not.
Answer = namedtuple("Answer", "what value bad at len", defaults=(0, 0, 0, 0))
ABSENT = Answer("absent")


def reads_as(text, bits):
    """A number, or why the text is none of so many bits."""
    if text in (b"", b"0x"):
        return Answer("empty")
    start = 2 if text.startswith(b"0x") else 0
    bad = [place for place in range(start, len(text)) if text[place] not in HEX_DIGITS]
    if bad:
        return Answer("bad digit", bad=bad[0])
    value = int(text[start:], 16)
    return Answer("value", value) if value < 2**bits else Answer("too wide")


def told(line, span, bits):
    """What the part of the line between two places reads as, and where it lies."""
    start, end = span
    return reads_as(line[start:end], bits)._replace(at=start, len=end - start)


def without_payload(line):
    """Why the line has no payload, the first of 1 to 4 that applies; else 0."""
    if line in (b"", b"\n") or line.startswith(b"#"):
        return 1
    if len(line) > LONGEST:
        return 2
    if not line.isascii():
        return 3
    return 0 if b":" in line else 4


def values(line):
    """Where the last value of each key lies in the line. The payload is not stripped: blanks at its ends are in no pair."""
    return {match[1].decode(): match.span(2) for match in PAIR.finditer(line, line.rindex(b":") + 1)}


def pieces(line, span):
    """Where the pieces of a value lie, those between comma-spaces in its brackets; one without brackets has none."""
    start, end = span
    if not line[start:end].startswith(b"["):
        return []
    found, at = [], start + 1
    for piece in line[start + 1:end - 1].split(b", "):
        found.append((at, at + len(piece)))
        at += len(piece) + len(", ")
    return found


class Line:
    """What a line answers when it is asked: the number that says why it has no payload, or a text's answer."""

    def __init__(self, line):
        self.number = without_payload(line)
        found = {} if self.number else values(line)
        self.keys = {number: told(line, found[key], bits) for number, (key, bits) in KEYS.items() if key in found}
        self.pieces = [told(line, span, PIECE_BITS) for span in pieces(line, found.get("data", (0, 0)))]

    def key(self, number):
        return self.number or self.keys.get(number, ABSENT)

    def piece(self, index):
        return self.number or (self.pieces[index] if index < len(self.pieces) else ABSENT)


# Rows of the frozen sample

def printed(answer):
    """An answer as text; README.md has its grammar."""
    if not isinstance(answer, Answer):
        return f"number {answer}"
    if answer.what == "absent":
        return "absent"
    more = {"value": f" {answer.value}", "bad digit": f" {answer.bad}"}.get(answer.what, "")
    return f"{answer.what}{more} at {answer.at}+{answer.len}"


def rows(asked):
    """Each key's row, then each piece's, up to the first that has no text."""
    found = [f"{key} {printed(asked.key(number))}" for number, (key, _) in KEYS.items()]
    for index in range(LONGEST):
        said = printed(asked.piece(index))
        found.append(f"piece {index} {said}")
        if " at " not in said:
            break
    return "\n".join(found)


def answer(line):
    return rows(Line(line))
