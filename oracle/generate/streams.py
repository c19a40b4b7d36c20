"""Streams of lines and records, the ways to cut them, and states that are kept or broken: streams.py --seed N --count N OUT."""

import argparse
import os
import sys
from collections import Counter, namedtuple
from itertools import islice, product

sys.dont_write_bytecode = True
sys.path.insert(0, os.path.dirname(os.path.dirname(os.path.abspath(__file__))))

from generate import lines, parts, records
from generate.seed import Seed, frame
from reading.line import read_line
from reading.record import DATA, MARK, field, write_record
from reading.stream import HEAD, LONGEST_RECORD, MOST_STATED, REST
from reading.texts import Refused

A1 = bytes([MARK])
SLOTS = (0, 1, 5, 255, 256, 300)
# Classes of lines that are long, of which few are taken.
LONG_LINES = ("hostile", "long", "dwords", "bad among many")
SHORT_LINES = [name for name in lines.CLASSES if name not in LONG_LINES]


# Lines

def ended(text):
    """A line of its own: no newline inside, one at its end, and another first byte than A1."""
    return text.replace(b"\n", b"\t").lstrip(A1) + b"\n"


def kernel_line(seed):
    return ended(parts.line(seed))


def any_line(seed):
    """Of any class, its newlines as they are; now and then without one, so that it goes on as the next unit."""
    text = lines.CLASSES[seed.pick(SHORT_LINES)](seed)
    return text if seed.one_in(4) else text + b"\n"


def idle_line(seed):
    return seed.pick((b"\n", b"\n", b"#\n", b"# tracer: nop\n", b"#" + parts.line(seed) + b"\n", b" \n", b"\r\n", b"\n\n"))


def many_dwords_line(seed):
    return ended(lines.CLASSES[seed.pick(("dwords", "bad among many"))](seed))


def faulty_line(seed):
    """A header without one of its parts, or a key missing or unreadable."""
    return ended(parts.line(seed, seed.pick(lines.FAULTY_HEADS)) if seed.one_in(2) else lines.missing(seed))


def bad_piece_line(seed):
    """Read by lenient alone."""
    return ended(lines.bad_piece(seed))


def marked_line(seed):
    """A1 inside, but not first, and behind it what would be a length."""
    text = bytearray(ended(parts.line(seed)))
    at = seed.within(1, len(text) - 1)
    text[at:at] = A1 + bytes([seed.below(10), seed.below(2)])
    return bytes(text)


def spelled(text):
    """The text as dwords, blanks behind it up to the last."""
    text += b" " * (-len(text) % 4)
    return [int.from_bytes(text[at:at + 4], "little") for at in range(0, len(text), 4)]


def spelling_line(seed):
    """Its dwords spell a line, a newline or a record."""
    inside = seed.pick((kernel_line, idle_line, good_record))(seed)[:400]
    found = parts.pairs(seed)
    found[b"data"] = b"[" + b", ".join(b"0x%08x" % dword for dword in spelled(inside)) + b"]"
    return ended(parts.line(seed, None, found))


def long_line(seed):
    """Around 4,096 bytes, newline counted, and around other bounds; good but for its length, a comment, high bytes, or A1 and newline signs inside."""
    around = seed.pick((4096, 4096, 4096, 4096, LONGEST_RECORD, REST))
    size = seed.within(around - 2, around + 3) if not seed.one_in(20) else seed.pick((10_000, 20_000, 70_000))
    good = b"a-1 [002] 1.2: f: type=t size=3 domain=0 route=0 data=[1] k="
    start = seed.pick((good, good, b"#", b"x", b"#" + good, b"x" + A1 + b"\xff\xff"))
    fill = seed.pick((b"x", b"x", b"x", A1, b"\xff", b" "))
    return start + fill * (size - 1 - len(start)) + b"\n"


# Records

def good_record(seed):
    return records.framed(records.fields(records.entry(seed)))


def record_of_line(seed):
    """The record of a line, lenient; now and then of one that spells a line."""
    for make in (any_line, spelling_line if seed.one_in(4) else kernel_line):
        try:
            return write_record(read_line(make(seed)))
        except Refused:
            continue
    return good_record(seed)


def damaged_record(seed):
    return seed.pick(records.DAMAGES)(seed, records.fields(records.entry(seed)))


def record_with_newlines(seed):
    """Newlines, A1 and lines in its task and dwords."""
    made = records.entry(seed)
    made["task"] = seed.pick((b"\n", b"a\nb", b"\n\n#\n", b"a-1\n"))
    made["data"] = spelled(seed.pick((b"\n" * 8, kernel_line(seed)[:300], A1 + b"\0\0\n" + A1, b"x\n#\n")))
    return records.framed(records.fields(made))


def stated(seed, size):
    """A record that says so many bytes, of anything."""
    fill = seed.pick((b"\0", b"x", A1, b"\1\0\0", b"x" * 60 + b"\n", b"\n" if seed.one_in(8) else b"x"))
    return A1 + (size - HEAD).to_bytes(2, "little") + (fill * size)[:size - HEAD]


def largest_record(seed):
    """A good one of 5,227 or 5,226 bytes, or that much of anything."""
    size = LONGEST_RECORD - seed.below(2)
    if seed.one_in(2):
        return stated(seed, size)
    made = records.entry(seed)
    made = {name: 1 if value is None else value for name, value in made.items()}
    made["data"] = [seed.below(2**32) for _ in range(256)]
    made["task"] = b"t" * (4096 - len(made["function"]) - (LONGEST_RECORD - size))
    return write_record(made)


def overlong_record(seed):
    """It says 5,228 bytes or a few more, or more than the rest buffer holds, or as much as can be said."""
    return stated(seed, seed.pick((5228, 5228, 5228, 5229, 5228 + seed.below(260), REST, REST + 1, 12_000)))


def longest_stated(seed):
    return stated(seed, MOST_STATED - seed.below(2))


def false_length(seed):
    """A good record whose length is not its own, so that it ends too early or takes what follows with it."""
    data = good_record(seed)
    size = seed.pick((len(data) - 4, len(data) - 2, len(data) - 1, len(data) - 3 + seed.below(80), seed.below(len(data)), seed.below(600)))
    return A1 + (size % 2**16).to_bytes(2, "little") + data[HEAD:]


def bad_data_record(seed):
    """Framed, with its data a byte short or with a dword too many."""
    listed = records.fields(records.entry(seed))
    listed[-1] = [DATA, seed.pick((listed[-1][1][:-1], bytes(4 * 257), b"\n"))]
    return field(MARK, b"".join(field(tag, body) for tag, body in listed))


LINES = (kernel_line, kernel_line, any_line, any_line, idle_line, faulty_line, bad_piece_line, marked_line, spelling_line)
RECORDS = (good_record, good_record, record_of_line, damaged_record, record_with_newlines, bad_data_record)


# Streams

class Source(Seed):
    """A seed that also remembers units, so that not every stream pays for new ones."""

    def __init__(self, seed):
        super().__init__(seed)
        self.known = {}

    def unit(self, makes):
        """One of a kind; three times in four one that was made before."""
        make = self.pick(makes)
        known = self.known.setdefault(make, [])
        if len(known) >= 64 and not self.one_in(4):
            return self.pick(known)
        # No unit is empty, though a line or a damaged record may be.
        known.append(make(self) or b"\n")
        if len(known) > 4096:
            del known[:1024]
        return known[-1]

    def units(self, makes, low, high):
        return b"".join(self.unit(makes) for _ in range(self.within(low, high)))


def cut_somewhere(source, stream):
    """Often it ends within its last bytes, so that the end cuts a unit."""
    return stream[:max(len(stream) - source.below(40), 0)] if source.one_in(2) else stream


def kernel(source):
    return cut_somewhere(source, source.units((kernel_line,), 1, 6))


def only_lines(source):
    return cut_somewhere(source, source.units(LINES, 1, 7))


def only_records(source):
    return cut_somewhere(source, source.units(RECORDS, 1, 6))


def both(source):
    return cut_somewhere(source, source.units(LINES + RECORDS, 2, 9))


def newline_behind(source):
    """Records with a newline behind each, as some programs write them."""
    return b"".join(source.unit(RECORDS) + source.pick((b"\n", b"\n", b"\r\n", b"\n\n")) for _ in range(source.within(1, 4)))


def false_lengths(source):
    return source.units(LINES, 0, 1) + source.unit((false_length,)) + source.units(LINES + RECORDS, 1, 4)


def with_long_line(source):
    return source.units(LINES + RECORDS, 0, 2) + cut_somewhere(source, source.unit((long_line,))) + source.units(LINES + RECORDS, 0, 2)


def with_long_record(source):
    longest = source.unit((largest_record, overlong_record, overlong_record))
    return source.units(LINES + RECORDS, 0, 2) + cut_somewhere(source, longest + source.units(LINES + RECORDS, 0, 2))


def with_longest_record(source):
    return source.unit(LINES) + cut_somewhere(source, source.unit((longest_stated,)) + source.units(LINES + RECORDS, 0, 2))


def with_many_dwords(source):
    return source.units(LINES, 0, 1) + source.unit((many_dwords_line,)) + source.units(RECORDS, 0, 2)


def cut_record(source):
    """Some units, then a record of any sort that ends anywhere, often within its first bytes."""
    last = source.unit(RECORDS + (false_length,) * 2 + (largest_record, overlong_record))
    place = source.pick((1, 2, 3, 4, source.within(1, len(last)), len(last) - 1))
    return source.units(LINES + RECORDS, 0, 2) + last[:place]


def cut_line(source):
    """The end cuts a line anywhere, or takes its newline alone."""
    last = source.unit(LINES)
    return source.units(LINES + RECORDS, 0, 2) + last[:source.pick((source.within(1, len(last)), len(last) - 1))]


# Bytes that decide where a unit ends.
LETTERS = (A1, b"\0", b"\1", b"\3", b"\n", b"#", b"x")


def tiny(source):
    return b"".join(source.several(0, 14, lambda seed: seed.pick(LETTERS)))


def any_bytes(source):
    return bytes(source.below(256) for _ in range(source.below(120)))


def begun_and_lost(source):
    """A record whose first bytes are lost falls into lines."""
    lost = source.unit(RECORDS)
    return lost[source.within(1, 4):] + source.units(LINES + RECORDS, 1, 3)


CLASSES = (kernel, only_lines, only_records, both, newline_behind, false_lengths, with_long_line, with_long_record, with_longest_record,
           with_many_dwords, cut_record, cut_line, tiny, any_bytes, begun_and_lost)
# Of the long ones few are made: of so many rounds one has them.
ROUNDS = {with_long_line: 3, with_long_record: 3, with_longest_record: 40, with_many_dwords: 3}


def named(make):
    return make.__name__.replace("_", " ")


def generate(seed):
    """Class and stream, one after the other, each class in turn, without end."""
    source, turn = Source(seed), 0
    while True:
        for make in CLASSES:
            if turn % ROUNDS.get(make, 1) == 0:
                yield named(make), make(source)
        turn += 1


def all_short(length):
    """Every stream of up to so many letters."""
    for size in range(length + 1):
        yield from (b"".join(letters) for letters in product(LETTERS, repeat=size))


def all_ends(source):
    """Every start of a few streams of both kinds; of long units those that end around a bound."""
    for _ in range(4):
        stream = good_record(source)[:200] + b"\n" + kernel_line(source)[:200] + stated(source, 40) + b"#\n" + overlong_record(source)[:9]
        yield from (stream[:end] for end in range(len(stream) + 1))
    bounds = (4096, LONGEST_RECORD, REST, MOST_STATED)
    for unit in (b"#" * 9000, b"x" * 9000, largest_record(source), stated(source, 5228), stated(source, 5229), longest_stated(source)):
        yield from (unit[:bound + near] for bound in bounds for near in range(-3, 4) if bound + near <= len(unit))


# Cuts: which, a number, and a seed for what is left to chance

Cut = namedtuple("Cut", "way number seed")
WHOLE, BYTES, SINGLE, DOUBLE, EVERY, CHANCE, AROUND, RESUMED = range(8)
WAYS = {
    WHOLE: "in one part", BYTES: "byte by byte", SINGLE: "every two parts", DOUBLE: "every three parts", EVERY: "every way",
    CHANCE: "parts of up to `number` bytes", AROUND: "near the ends of units and the bounds", RESUMED: "going on from the state at place `number`"}
# The longest stream that is cut in each way; all others take any.
LONGEST = {EVERY: 11, DOUBLE: 28, SINGLE: 260, BYTES: 1500}


def cuts(source, stream):
    """All ways that its length allows, some parts by chance, and some states to go on from."""
    made = [Cut(way, 0, source.next()) for way in (WHOLE, EVERY, DOUBLE, SINGLE, BYTES) if len(stream) <= LONGEST.get(way, len(stream))]
    if len(stream) > LONGEST[BYTES] and source.one_in(12):
        made.append(Cut(BYTES, 0, source.next()))
    for most in (source.within(1, 9), source.within(10, 300), source.within(1, len(stream) + 1)):
        made.append(Cut(CHANCE, most if len(stream) <= 12_000 else most + 20, source.next()))
    made += [Cut(AROUND, 0, source.next()) for _ in range(2)]
    made += [Cut(RESUMED, source.below(len(stream) + 1), source.next()) for _ in range(3)]
    return made


def lent(source):
    """The choice, and how many slots are lent: mostly enough."""
    return source.one_in(2), 256 if not source.one_in(4) else source.pick(SLOTS)


# States, most of which no stream leaves: held, passed and the buffer

def any_rest(source):
    """A buffer full of units, of one byte, or of anything."""
    fill = source.pick((b"\n", A1, b"x", b"\0", source.units(LINES + RECORDS, 1, 3), bytes(source.below(256) for _ in range(97))))
    return (fill * (REST // max(len(fill), 1) + 1))[:REST]


def over(rest, start):
    return start + rest[len(start):]


def held_line(source):
    """Around the most that is held of a line; a newline in it, or right behind it."""
    held = source.pick((1, 2, 3, 4095, 4096, 4097, 4098, 4099, 8191, 8192, 8193, source.within(1, 300)))
    text = bytearray(over(any_rest(source), source.pick((b"x", b"#", b"\0")) * min(held, REST)))
    place = source.pick((0, held - 1, held, source.below(held), REST - 1))
    if source.one_in(2):
        text[min(place, REST - 1)] = 10
    if source.one_in(3):
        text[source.pick((0, 1, held - 1)) % REST] = MARK
    return held, source.pick((0, 0, 0, 1, 5, 2**64 - 1)), bytes(text)


def held_record(source):
    """A record that says some length, around the bounds of what may be held and passed."""
    says = source.pick((3, 4, 5, 83, 259, 260, 5226, 5227, 5228, 5229, 5483, 8192, 65537, 65538, source.within(3, MOST_STATED)))
    held = source.pick((1, 2, 3, 3, 4, says - 1, says, says + 1, source.within(1, REST)))
    passed = source.pick((0, 0, 0, 1, says - 4, says - 3, says - 2, says, source.below(MOST_STATED + 2), 2**16, 2**32 + 1, 2**64 - 3)) % 2**64
    return held, passed, over(any_rest(source), A1 + (says - HEAD).to_bytes(2, "little"))


def held_nothing(source):
    return 0, source.pick((0, 0, 1, 2, 3, 65535, 2**63, 2**64 - 1)), any_rest(source)


def any_bits(source):
    return source.pick((source.next(), source.below(REST + 2), 3)), source.pick((source.next(), source.below(2**16), 0)), any_rest(source)


STATES = (held_line, held_record, held_nothing, any_bits)
SIZES = (0, 1, 3, 4096, 5227, 8191, 8193, 8194, 16_384)


def states(seed):
    """Sort, held, passed, and a buffer of the right size or another, without end."""
    source = Source(seed)
    while True:
        for make in STATES:
            yield named(make), *make(source)
            held, passed, rest = make(source)
            size = source.pick(SIZES)
            yield f"{named(make)}, another size", held, passed, (rest + rest)[:size]


def line_states():
    """A line around the most that is held: each first byte, a newline or A1 first, last, right behind, or none."""
    for held, first in product((1, 2, 3, 4096, 4097, 4098, REST, REST + 1), (b"x", b"#", b"\n", A1, b"\0", b"\xff")):
        for place, other, passed in product((1, held - 1, held), (b"x", b"\n", A1), (0, 1)):
            rest = first + b"x" * (REST - 1)
            yield held, passed, rest[:place] + other[:REST - place] + rest[place + 1:]


def record_states():
    """A record around each bound: how much it says, how much is held, how much passed; newlines behind its head."""
    for says in (3, 4, 5, 258, 259, 5226, 5227, 5228, 5229, REST, REST + 1, MOST_STATED - 1, MOST_STATED):
        rest = over(b"\n" * REST, A1 + (says - HEAD).to_bytes(2, "little"))
        for held in {1, 2, 3, 4, says - 2, says - 1, says, says + 1}:
            yield from ((held, passed, rest) for passed in (0, 1, 2**64 - 1))
        yield from ((3, passed % 2**64, rest) for passed in (says - 5, says - 4, says - 3, says - 2, says, 2**16, 2**32, 2**32 + 1, 2**63))


def all_states():
    """Every state near a bound."""
    yield from line_states()
    yield from record_states()


# Files

def main():
    parser = argparse.ArgumentParser(description=__doc__)
    parser.add_argument("--seed", type=int, default=1)
    parser.add_argument("--count", type=int, default=1000)
    parser.add_argument("out")
    asked = parser.parse_args()
    classes = Counter()
    with open(asked.out, "wb") as out:
        for name, stream in islice(generate(asked.seed), asked.count):
            classes[name] += 1
            out.write(frame(stream))
    for name, count in sorted(classes.items()):
        print(f"{name}: {count}")


if __name__ == "__main__":
    main()
