"""The record: bytes to an entry, or the number of the refusal, and an entry to its bytes."""

from reading.line import printed
from reading.texts import WORDS, Refused

MARK = 0xA1
MOST_DWORDS = 256
MOST_TEXT = 4096

# Number fields: tag to name, bytes, and the largest value.
NUMBERS = {
    0x02: ("pid", 4, 2**32 - 1), 0x03: ("cpu", 2, 999), 0x04: ("sec", 8, 2**63 - 1),
    0x05: ("usec", 8, 2**63 - 1), 0x07: ("kind", 1, 12), 0x08: ("size", 2, 2**16 - 1),
    0x09: ("dropped", 1, 1), 0x0A: ("domain", 4, 2**32 - 1), 0x0B: ("route", 8, 2**64 - 1),
    0x0C: ("offset", 2, 2**16 - 1), 0x0D: ("event", 1, 255), 0x0E: ("len", 2, 2**16 - 1),
    0x0F: ("port", 1, 255), 0x10: ("config", 1, 255), 0x11: ("seq", 1, 255),
    0x12: ("unplug", 1, 255),
}
TASK, FUNCTION, DATA = 0x01, 0x06, 0x13
TAGS = sorted([TASK, FUNCTION, DATA, *NUMBERS])
OPTIONAL = range(0x0C, 0x13)
NAMES = {TASK: "task", FUNCTION: "function", DATA: "data", **{tag: row[0] for tag, row in NUMBERS.items()}}


def demand(holds, number):
    if not holds:
        raise Refused(number)


def is_task(text):
    """One or more bytes below 128, none 32."""
    return len(text) > 0 and all(byte < 128 and byte != 32 for byte in text)


def is_function(text):
    """One or more word bytes."""
    return len(text) > 0 and all(byte in WORDS for byte in text)


def read_body(entry, tag, body):
    """Puts a body into the entry, or refuses it with 34."""
    if tag == TASK:
        demand(is_task(body), 34)
        entry["task"] = body
    elif tag == FUNCTION:
        demand(is_function(body) and len(entry.get("task", b"")) + len(body) <= MOST_TEXT, 34)
        entry["function"] = body
    elif tag == DATA:
        demand(len(body) % 4 == 0 and len(body) // 4 <= MOST_DWORDS, 34)
        entry["data"] = [
            int.from_bytes(body[at:at + 4], "little") for at in range(0, len(body), 4)]
    else:
        name, width, largest = NUMBERS[tag]
        value = int.from_bytes(body, "little")
        demand(len(body) == width and value <= largest, 34)
        entry[name] = value


def read_record(text, slots=MOST_DWORDS):
    """The entry as a dictionary, or `Refused`: 30; field by field 31, 32, 34; then 33; then 35."""
    demand(len(text) >= 3 and text[0] == MARK, 30)
    demand(int.from_bytes(text[1:3], "little") == len(text) - 3, 30)
    entry = {NUMBERS[tag][0]: None for tag in OPTIONAL}
    at, seen = 3, []
    while at < len(text):
        demand(at + 3 <= len(text), 31)
        tag, start = text[at], at + 3
        end = start + int.from_bytes(text[at + 1:start], "little")
        demand(end <= len(text), 31)
        demand(tag in TAGS and tag > max(seen, default=0), 32)
        read_body(entry, tag, text[start:end])
        seen.append(tag)
        at = end
    demand(all(tag in seen or tag in OPTIONAL for tag in TAGS), 33)
    demand(len(entry["data"]) <= slots, 35)
    return entry


def body_of(entry, tag):
    """The body of a tag, none for an optional field that is absent."""
    if tag == TASK:
        return entry["task"]
    if tag == FUNCTION:
        return entry["function"]
    if tag == DATA:
        return b"".join(dword.to_bytes(4, "little") for dword in entry["data"])
    name, width, _ = NUMBERS[tag]
    return None if entry[name] is None else entry[name].to_bytes(width, "little")


def field(tag, body):
    return bytes([tag]) + len(body).to_bytes(2, "little") + body


def write_record(entry, room=5227):
    """The record's bytes, or `Refused`: 37, then 36."""
    demand(is_task(entry["task"]) and is_function(entry["function"]), 37)
    demand(len(entry["task"]) + len(entry["function"]) <= MOST_TEXT, 37)
    demand(len(entry["data"]) <= MOST_DWORDS, 37)
    for name, _, largest in NUMBERS.values():
        demand(entry[name] is None or entry[name] <= largest, 37)
    bodies = [(tag, body_of(entry, tag)) for tag in TAGS]
    rest = b"".join(field(tag, body) for tag, body in bodies if body is not None)
    demand(len(rest) + 3 <= room, 36)
    return field(MARK, rest)


# Where an entry's parts lie: task and function in the text, its dwords from the first slot.
PLACES = ("task_at", "task_len", "function_at", "function_len", "dwords")
# What a caller may set in an entry before it is written, by number; 0 for nothing.
SET = (None, *PLACES, "cpu", "sec", "usec", "kind")


def places(record):
    """The places of a record that was accepted."""
    found, at = {}, 3
    while at < len(record):
        size = int.from_bytes(record[at + 1:at + 3], "little")
        found[record[at]] = at + 3, size
        at += 3 + size
    return dict(zip(PLACES, (*found[TASK], *found[FUNCTION], found[DATA][1] // 4)))


def part(text, at, length):
    """A part of what is lent, or 37 where it does not lie in it."""
    demand(at + length <= len(text), 37)
    return text[at:at + length]


def write_lent(text, entry, slots, room):
    """The record of an entry whose parts lie in a text and in slots."""
    parts = {
        "task": part(text, entry["task_at"], entry["task_len"]),
        "function": part(text, entry["function_at"], entry["function_len"]),
        "data": part(slots, 0, entry["dwords"])}
    return write_record(entry | parts, room)


def written(record, entry, slots, room, change, value):
    """What writing the entry of a record again gives, one of its numbers set to another value."""
    lent = entry["data"] + [0] * (slots - len(entry["data"]))
    asked = entry | places(record)
    if SET[change]:
        asked[SET[change]] = value
    try:
        made = write_lent(record, asked, lent, room)
    except Refused as refusal:
        return f"refused{refusal.number}"
    return "same" if made == record else made.hex()


def answer(record, slots, room, change=0, value=0):
    """The row of a record that is read into so many slots and written again into so many bytes."""
    try:
        entry = read_record(record, slots)
    except Refused as refusal:
        return f"refused {refusal.number}"
    row = printed({NAMES[tag]: entry[NAMES[tag]] for tag in TAGS})
    return f"{row} written={written(record, entry, slots, room, change, value)}"
