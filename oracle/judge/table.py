"""A table of requests in memory that C is lent, and the proved calls over it."""

import ctypes
import struct

from judge.native import Calls, CountAnswer, Entry, Lent, PlaceAnswer, StepAnswer

# The fields of a slot; what lies between them is nobody's.
SLOT = struct.Struct("<QIBB2xI4x")
MOST = 66
WORDS = (None, "dropped", "other", "no seq", "taken", "turned away", "answered", "stray")


class Table(Calls):
    """The slots that are lent, and what each call answers; `torn` where an answer has no form or memory behind the slots changed."""

    def __init__(self):
        super().__init__()
        table, count = ctypes.c_void_p, ctypes.c_size_t
        for name, answer, given in (
                ("clear", None, [table, count]), ("step", StepAnswer, [Entry, table, count]),
                ("waiting", CountAnswer, [table, count]), ("oldest", PlaceAnswer, [table, count, ctypes.c_uint32])):
            call = getattr(self.library, f"ck_pending_{name}")
            call.restype, call.argtypes = answer, given
            setattr(self, f"call_{name}", call)
        self.lent, self.count, self.entry = Lent(SLOT.size * MOST), 0, Entry()

    def load(self, slots, bits):
        """Lends these slots, and fills an entry's other fields with any bits."""
        data = b"".join(SLOT.pack(*slot) for slot in slots)
        ctypes.memmove(self.lent.renew(), data, len(data))
        ctypes.memmove(ctypes.addressof(self.entry), bits, ctypes.sizeof(Entry))
        self.count = len(slots)

    def held(self):
        data = self.lent.written(SLOT.size * self.count)
        return None if data is None else list(SLOT.iter_unpack(data))

    def step(self, made):
        """The report's word and its place, or the number."""
        for name, value in made.items():
            setattr(self.entry, name, value)
        said = self.call_step(self.entry, self.lent.start, self.count)
        if said.number != 0:
            return said.number if said.report == 0 == said.place else "torn"
        if not 1 <= said.report < len(WORDS):
            return "torn"
        return WORDS[said.report], said.place

    def waiting(self):
        """How many wait, or the number."""
        said = self.call_waiting(self.lent.start, self.count)
        return ("count", said.count) if said.number == 0 else said.number if said.count == 0 else "torn"

    def oldest(self, k):
        """Where the k-th oldest lies, `nowhere`, or the number."""
        said = self.call_oldest(self.lent.start, self.count, k)
        if said.number == 0 and said.present == 1:
            return "at", said.place
        if said.present or said.place:
            return "torn"
        return "nowhere" if said.number == 0 else said.number

    def clear(self):
        self.call_clear(self.lent.start, self.count)
