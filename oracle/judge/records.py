"""The proved calls beside the readings: lines to records and back, damaged records, entries to be written."""

from generate import lines as line_generator
from generate import records as generator
from generate.seed import Seed
from judge.native import Calls, flat, value
from judge.tally import Tally
from reading import line as line_reading
from reading import record as reading
from reading.texts import Refused

HEAD = b"a-1 [002] 1.2: f: type=t size=3 domain=0 route=0 "


def outcome(call, *given):
    """What a reading answers: the entry or the record, or its number."""
    try:
        return call(*given)
    except Refused as refusal:
        return refusal.number


def ours(calls, name, text, slots):
    number, entry, dwords = calls.read(name, text, slots)
    return number if number != 0 else value(text, entry, dwords)


def many(count):
    return HEAD + b"data=[" + b", ".join([b"1"] * count) + b"]"


def run_cases():
    """Document 01's cases to be run: length and number of dwords at their limits, and few slots. Then document 02's two of a bad piece beyond them."""
    fill = HEAD + b"data=[1] k="
    yield "4,096 bytes", fill + b"x" * (4096 - len(fill)), 256
    yield "4,097 bytes", fill + b"x" * (4097 - len(fill)), 256
    yield "256 dwords", many(256), 256
    yield "256 dwords, 255 slots", many(256), 255
    yield "257 dwords", many(257), 256
    yield "257 dwords, 3 slots", many(257), 3
    yield "257 dwords and a bad piece", many(257)[:-1] + b", z]", 256
    yield "a bad piece, no slot", HEAD + b"data=[1, z]", 0


class Differs(Exception):
    """What was expected, and what came."""


def must_be(expected, got):
    if got != expected:
        raise Differs(expected, got)


# Which calls read a line, and a line or a record, by each choice.
CHOICES = {"lenient": ("ck_parse_lenient", "ck_read_lenient"), "strict": ("ck_parse", "ck_read")}


def trip(calls, line, slots, choice):
    """A line by a choice to its entry, its record, the record's entry and that one's record; what came of it."""
    parse, read = CHOICES[choice]
    expected = outcome(line_reading.read_line, line, slots, choice == "strict")
    number, entry, dwords = calls.read(parse, line, slots)
    must_be(expected, number if number != 0 else value(line, entry, dwords))
    must_be(expected if line[:1] != b"\xa1" else outcome(reading.read_record, line, slots), ours(calls, read, line, slots))
    if number != 0:
        return f"refused {number}"
    must_be((line_reading.adapter(expected), line_reading.unplugged(expected), line_reading.event_name(expected["event"])), calls.questions(entry))
    made = reading.write_record(expected)
    must_be((0, made), calls.write(line, entry, dwords, 5227))
    must_be((36, b""), calls.write(line, entry, dwords, len(made) - 1))
    must_be(expected, ours(calls, "ck_record_read", made, slots))
    # A record has no pieces: either intake reads it, whatever its line was read by.
    for _, intake in CHOICES.values():
        must_be(expected, ours(calls, intake, made, slots))
    _, again, copied = calls.read("ck_record_read", made, slots)
    must_be((0, made), calls.write(made, again, copied, len(made)))
    return "line, record, entry, record"


def judge_trip(calls, tally, name, line, slots):
    try:
        said = [f"{choice}: {trip(calls, line, slots, choice)}" for choice in CHOICES]
    except Differs as found:
        return tally.differ(name, line, *found.args)
    return tally.all_same(name, said)


def trips(seed, count, short):
    """Generated lines with 256 slots, some with fewer."""
    tally, calls, source = Tally(), Calls(), Seed(seed)
    for name, line, slots in run_cases():
        judge_trip(calls, tally, name, line, slots)
    for name, line in line_generator.generate(seed, count, short):
        judge_trip(calls, tally, name, line, source.below(4) if source.one_in(20) else 256)
    tally.must_meet("strict: refused 18")
    return tally


def judge_record(calls, tally, name, data, slots):
    """A record, good or damaged: the reading decides, and what is accepted is written back."""
    expected = outcome(reading.read_record, data, slots)
    number, entry, dwords = calls.read("ck_record_read", data, slots)
    got = number if number != 0 else value(data, entry, dwords)
    if got != expected:
        return tally.differ(name, data, expected, got)
    if number != 0:
        return tally.same(name, f"refused {number}")
    if calls.write(data, entry, dwords, len(data)) != (0, data):
        return tally.differ(name, data, data, "another record from the record")
    return tally.same(name, "entry")


def judge_entry(calls, tally, seed):
    """An entry with one field out of range, now and then with none, into a buffer of any size."""
    made = generator.entry(seed)
    tag = seed.pick((None, *generator.TAGS))
    if tag in (generator.TASK, generator.FUNCTION):
        name = "task" if tag == generator.TASK else "function"
        made[name] = seed.pick((b"", b" ", b"a b", b"\x80", b"f" * 4097, made[name] + b"-"))
    elif tag == generator.DATA:
        made["data"] = [1] * seed.pick((256, 257, 300))
    elif tag is not None:
        name, width, largest = generator.NUMBERS[tag]
        # Only what the struct can hold: an optional field has four bytes there.
        most = NUMBER_TOPS.get(name, 2**(8 * width) - 1)
        made[name] = min(most, seed.pick((largest, largest + 1, most)))
    room = seed.pick((5227, 5227, seed.below(5228), 100))
    expected = outcome(reading.write_record, made, room)
    text, entry, dwords = flat(made)
    number, data = calls.write(text, entry, dwords, room)
    got = number if number != 0 else data
    if got != expected:
        return tally.differ("entry", text, expected, got)
    return tally.same("entry", "record" if number == 0 else f"refused {number}")


# The largest value of an optional field that is not taken for an absent one.
NUMBER_TOPS = {generator.NUMBERS[tag][0]: 2**32 - 2 for tag in generator.OPTIONAL}


def records(seed, count):
    """Good and damaged records, every damage as often, then as many entries to be written."""
    tally, calls, source = Tally(), Calls(), Seed(seed)
    ways = (None, *generator.DAMAGES)
    for index in range(count):
        listed = generator.fields(generator.entry(source))
        way = ways[index % len(ways)]
        data = way(source, listed) if way else generator.framed(listed)
        slots = source.below(4) if source.one_in(10) else 256
        judge_record(calls, tally, way.__name__ if way else "good", data, slots)
    for _ in range(count // 4):
        judge_entry(calls, tally, source)
    return tally
