"""A rest buffer and slots that C is lent, the proved calls that take a stream, and frozen streams replayed through them."""

import ctypes

from judge.native import GUARD, Calls, Lent, State, StreamAnswer, value
from reading import stream as reading

# What the names of each choice's calls end in.
CHOICES = {"strict": "", "lenient": "_lenient"}
MOST_SLOTS = 300


class Fed(Calls):
    """One stream at a time: its state, and the buffer."""

    def __init__(self):
        super().__init__()
        text, size = ctypes.c_char_p, ctypes.c_size_t
        slots, rest = [ctypes.c_void_p, size], [ctypes.c_void_p, size]
        self.feeds, self.ends = {}, {}
        for choice, behind in CHOICES.items():
            for name, calls, given in (("feed", self.feeds, [State, text, size, *rest, *slots]), ("finish", self.ends, [State, *rest, *slots])):
                call = getattr(self.library, f"ck_stream_{name}{behind}")
                call.restype, call.argtypes = StreamAnswer, given
                calls[choice] = call
        self.rest = Lent(reading.REST * 2)
        self.lent_slots = Lent(4 * MOST_SLOTS)

    def row(self, start, end, said, dwords):
        """An answer in the reading's words; `torn` where the slots have something else than its dwords."""
        if dwords is None or said.at > end - start or said.ended != 1:
            return "torn"
        if said.number:
            return f"{start}+{end - start} refused {said.number}"
        entry = value(self.rest.memory.raw[GUARD:GUARD + reading.REST], said.entry, dwords)
        return reading.entry_row(start, end - start, entry, (said.entry.task_at, said.entry.function_at))

    def answered(self, start, end, said):
        dwords = self.lent_slots.written(4 * said.entry.dwords)
        self.lent_slots.renew()
        return self.row(start, end, said, dwords)

    def rows(self, data, slots, strict, size):
        """The rows of a stream that is fed in parts of so many bytes."""
        choice, state, start, rows = "strict" if strict else "lenient", State(0, 0), 0, []
        rest, lent = self.rest.renew(), self.lent_slots.renew()
        for at in range(0, len(data), size):
            part, place = data[at:at + size], at
            while part:
                said = self.feeds[choice](state, part, len(part), rest, reading.REST, lent, slots)
                part, place, state = part[said.at:], place + said.at, said.state
                # Bytes are left over only behind a unit that was answered.
                if said.at == 0 or part and not said.ended:
                    return rows + [f"stopped with {said.number}"]
                if said.ended:
                    rows.append(self.answered(start, place, said))
                    start = place
        rows.append(reading.kept_row(state.held, state.passed))
        said = self.ends[choice](state, rest, reading.REST, lent, slots)
        if said.ended:
            rows.insert(-1, self.answered(start, len(data), said))
        return rows

    def state(self, held, passed, rest):
        """What feeding nothing and the end say of a state: refused by all with nothing changed, or by none."""
        ctypes.memmove(self.rest.renew(), rest, len(rest))
        before, refused = self.rest.memory.raw, set()
        for choice in CHOICES:
            given = self.rest.start, len(rest), self.lent_slots.renew(), MOST_SLOTS
            said = self.feeds[choice](State(held, passed), b"", 0, *given), self.ends[choice](State(held, passed), *given)
            refused |= {each.number == 53 for each in said}
        torn = len(refused) > 1 or self.rest.memory.raw != before
        return "torn" if torn else reading.state_row(refused == {False})


def replay(fed, data, size):
    """The rows of a frozen stream that is fed in parts of so many bytes, or of a state, as the proved calls give them."""
    if data[0] == reading.STATE:
        return fed.state(*reading.state_of(data))
    return "\n".join(fed.rows(*reading.stream_of(data), size))
