"""A line that is lent, and the proved calls that say what its hex numbers read as."""

import ctypes

from judge.native import Calls, HexAnswer
from reading.reasons import Answer

# What a text reads as, by its number in C, and which of value, bad, at and len may then be other than 0.
OWN = {"absent": (), "value": (0, 2, 3), "empty": (2, 3), "bad digit": (1, 2, 3), "too wide": (2, 3)}
WORDS = tuple(OWN)
# What lies behind the line in memory would change most last texts, and close a bracket.
BEHIND = b"1g]"


def heard(said):
    """The reading's answer, or the number; `torn` where the struct has no such form."""
    parts = said.value, said.bad, said.at, said.len
    if said.what >= len(WORDS) or any(part and place not in OWN[WORDS[said.what]] for place, part in enumerate(parts)):
        return "torn"
    if said.number == 0:
        return Answer(WORDS[said.what], *parts)
    return said.number if said.what == 0 else "torn"


class Hexes(Calls):
    """The line that is lent, and what each call answers, in the reading's form."""

    def __init__(self):
        super().__init__()
        for name, asked in ("key", ctypes.c_uint8), ("piece", ctypes.c_size_t):
            call = getattr(self.library, f"ck_hex_{name}")
            call.restype, call.argtypes = HexAnswer, [ctypes.c_char_p, ctypes.c_size_t, asked]
            setattr(self, f"call_{name}", call)
        self.lend(b"")

    def lend(self, line):
        self.text, self.length = line + BEHIND, len(line)

    def key(self, number):
        return heard(self.call_key(self.text, self.length, number))

    def piece(self, index):
        return heard(self.call_piece(self.text, self.length, index))

    def entry(self, name, slots):
        """What a reader of lines says: number, struct and the bytes of the dwords."""
        return self.read(name, self.text[:self.length], slots)
