"""The stream, document 02 g): the units of a whole stream, the answer of each, and what is kept of a unit that is still open."""

import struct

from reading.line import printed, read_line
from reading.record import MARK, NAMES, TAGS, places as record_places, read_record
from reading.texts import Refused, stripped

REST = 8192
LONGEST_LINE = 4096
LONGEST_RECORD = 5227
# Bytes of a record that say its length, and the most that they can say.
HEAD = 3
MOST_STATED = HEAD + 0xFFFF


# Units

def is_record(unit):
    return unit[0] == MARK


def stated(unit):
    """How many bytes a record says it has; none while it has no three bytes."""
    return HEAD + int.from_bytes(unit[1:HEAD], "little") if len(unit) >= HEAD else None


def unit_end(stream, at):
    """Where the unit that starts there ends: a record by its length, any other with its newline, each by the stream's end."""
    if stream[at] == MARK:
        size = stated(stream[at:at + HEAD])
        return len(stream) if size is None else min(at + size, len(stream))
    newline = stream.find(b"\n", at)
    return len(stream) if newline < 0 else newline + 1


def units(stream):
    """The stream in units, one behind the other."""
    found, at = [], 0
    while at < len(stream):
        end = unit_end(stream, at)
        found.append(stream[at:end])
        at = end
    return found


def is_ended(unit):
    """Has it its last byte? If not, the stream's end is its end."""
    return len(unit) == stated(unit) if is_record(unit) else unit.endswith(b"\n")


def is_overlong(unit):
    """A record that says too much; known from its third byte on."""
    return is_record(unit) and len(unit) >= HEAD and stated(unit) > LONGEST_RECORD


# Answers

def read_unit(unit, slots=256, strict=False):
    """The entry as a dictionary, or `Refused`: what the stream adds are 1 and 2 of an overlong line, 55, then 54."""
    if not is_record(unit):
        if len(unit) > LONGEST_LINE:
            raise Refused(1 if unit.startswith(b"#") else 2)
        return read_line(unit, slots, strict)
    if is_overlong(unit):
        raise Refused(55)
    if not is_ended(unit):
        raise Refused(54)
    return read_record(unit, slots)


def places(unit, entry):
    """Where task and function start in the unit. A line's task starts its header and its function ends it."""
    if is_record(unit):
        found = record_places(unit)
        return found["task_at"], found["function_at"]
    before = unit[:unit.rfind(b":")]
    header = stripped(before)
    start = before.find(header)
    return start, start + len(header) - len(entry["function"])


# What is kept

def kept(unit):
    """Of an open unit: its bytes that are kept, and how many passed since. Of a line the byte that makes it overlong is kept too."""
    if not unit:
        return b"", 0
    if not is_record(unit):
        return unit[:LONGEST_LINE + 1], 0
    if is_overlong(unit):
        return unit[:HEAD], len(unit) - HEAD
    return unit, 0


def open_unit(stream):
    """The unit that the stream is in, empty between two."""
    last = units(stream)[-1:]
    return b"" if not last or is_ended(last[0]) else last[0]


def is_left(held, passed, rest):
    """Does a stream leave this state? If one does, so does the shortest that could: the held bytes, and as many more as passed."""
    if len(rest) != REST or held > REST or passed > MOST_STATED:
        return False
    shortest = rest[:held] + bytes(passed)
    return open_unit(shortest) == shortest and kept(shortest) == (rest[:held], passed)


# Frozen streams and states: what it is (0 a stream by lenient, 1 by strict, 2 a state), then how many slots are lent and the stream, or held, passed,
# the buffer's size, its first bytes, and one that fills what is behind them

STATE = 2
STREAM_HEAD = struct.Struct("<BH")
STATE_HEAD = struct.Struct("<BQQIB")


def row(at, unit, slots, strict):
    """A unit's place and length, and its entry with the places of task and function in it, or its number."""
    try:
        entry = read_unit(unit, slots, strict)
    except Refused as refusal:
        return f"{at}+{len(unit)} refused {refusal.number}"
    return entry_row(at, len(unit), entry, places(unit, entry))


def entry_row(at, length, entry, found):
    ordered = {NAMES[tag]: entry[NAMES[tag]] for tag in TAGS}
    return f"{at}+{length} {printed(ordered)} places={found[0]},{found[1]}"


def kept_row(held, passed):
    return f"kept {held} {passed}"


def state_row(left):
    return "state left" if left else "state refused 53"


def state_of(data):
    """Held, passed and the buffer of a frozen state."""
    _, held, passed, size, fill = STATE_HEAD.unpack_from(data)
    return held, passed, data[STATE_HEAD.size:].ljust(size, bytes([fill]))[:size]


def stream_of(data):
    """The stream of a frozen one, how many slots are lent, and whether it is read strictly."""
    strict, slots = STREAM_HEAD.unpack_from(data)
    return data[STREAM_HEAD.size:], slots, strict != 0


def stream_answer(stream, slots, strict):
    """A row a unit, and what is kept where the stream stops: how many bytes, and how many passed."""
    rows, at = [], 0
    for unit in units(stream):
        rows.append(row(at, unit, slots, strict))
        at += len(unit)
    held, passed = kept(open_unit(stream))
    return "\n".join(rows + [kept_row(len(held), passed)])


def answer(data):
    """The rows of a frozen stream, or the one of a state."""
    return state_row(is_left(*state_of(data))) if data[0] == STATE else stream_answer(*stream_of(data))
