"""Records of the frozen sample that were chosen one by one: both sides of each rule, and each two rules in their order."""

from generate.records import fields, framed
from reading.record import DATA, FUNCTION, MARK, NUMBERS, OPTIONAL, SET, TAGS, TASK, field, places

SLOTS, ROOM = 256, 5227
PLAIN = {
    "task": b"a", "pid": 1, "cpu": 2, "sec": 3, "usec": 4, "function": b"f", "kind": 5, "size": 6, "dropped": 1, "domain": 7, "route": 8,
    "offset": None, "event": None, "len": None, "port": None, "config": None, "seq": None, "unplug": None, "data": [9]}
FULL = PLAIN | {"offset": 10, "event": 11, "len": 12, "port": 13, "config": 14, "seq": 15, "unplug": 16}
# Task and function lie among bytes that no task has: 32, 128, and a word byte beside them.
AROUND = PLAIN | {"task": b"a-b", "function": b"f_9", "data": [0x41204180, 0x61626364, 0x5F39302D]}
EDGE_BYTES = (0, 9, 10, 31, 32, 33, 45, 126, 127, 128, 160, 255)
UNKNOWN = (0, 0x14, 0x20, 0x81, MARK, 0xFF)


def listed(entry):
    return [tuple(piece) for piece in fields(entry)]


def with_body(entry, tag, body):
    return framed([(other, body if other == tag else old) for other, old in listed(entry)])


def without(entry, *tags):
    return framed([piece for piece in listed(entry) if piece[0] not in tags])


def frames():
    """30: too short, another first byte, a length that is off by one; 31: stray bytes, a body past the end."""
    good = framed(listed(PLAIN))
    yield from (good[:length] for length in (0, 1, 2, 3, 4))
    yield from (bytes([first]) + good[1:] for first in (0, 0xA0, 0xA2, 0x21))
    yield from (good[:1] + (len(good) - 3 + off).to_bytes(2, "little") + good[3:] for off in (-1, 1, 3, 256))
    yield from (good + bytes(stray) for stray in (1, 2, 3))
    yield from (field(MARK, good[3:] + bytes(stray)) for stray in (1, 2, 3))
    yield from (field(MARK, rest) for rest in (
        b"", b"\1", b"\1\0", b"\x14\1\0", b"\1\1\0", b"\2\0\0", b"\x14\0\0", b"\0\0\0", b"\1\0\0", b"\x13\0\0", b"\xff\xff\xff"))
    # The last field is a byte too long, one too short, or its length's high byte counts.
    yield from (good[:-6] + size + good[-4:] for size in (b"\5\0", b"\3\0", b"\4\1"))


def tags():
    """Each tag left out, standing twice, before its neighbour, under an unknown name, and with each wrong width."""
    whole = listed(FULL)
    yield framed(whole)
    for at, (tag, body) in enumerate(whole):
        yield without(FULL, tag)
        yield without(PLAIN, tag)
        yield framed(whole[:at + 1] + whole[at:])
        yield framed(whole[:at] + whole[at + 1:at + 2] + whole[at:at + 1] + whole[at + 2:])
        yield from (with_body(FULL, tag, wrong) for wrong in (b"", body[:-1], body + b"\0", body + body))
    yield from (framed(sorted([*whole, (tag, b"")])) for tag in UNKNOWN)
    yield from (framed([*whole, (tag, b"\0")]) for tag in UNKNOWN)


def values():
    """Each number at its largest, one above, and the largest of its width."""
    for tag, (_, width, largest) in NUMBERS.items():
        tops = {largest, min(largest + 1, 2**(8 * width) - 1), 2**(8 * width) - 1, 2**(8 * width - 1), 0x0102030405060708 % 2**(8 * width)}
        yield from (with_body(FULL, tag, value.to_bytes(width, "little")) for value in sorted(tops))


def texts():
    """Every byte alone as a function, edges as a task; both again behind a good byte; lengths at the bound of the two together."""
    yield from (with_body(PLAIN, FUNCTION, bytes([byte])) for byte in range(256))
    yield from (with_body(PLAIN, FUNCTION, b"f" + bytes([byte])) for byte in (32, 45, 47, 58, 64, 91, 94, 96, 123, 128))
    yield from (with_body(PLAIN, TASK, body) for byte in EDGE_BYTES for body in (bytes([byte]), b"a" + bytes([byte]) + b"b"))
    for task, function in ((4095, 1), (4095, 2), (4096, 1), (1, 4096), (2047, 2050)):
        yield framed(listed(PLAIN | {"task": b"t" * task, "function": b"f" * function}))


def dwords():
    """No dword, as many as there may be, one more; bodies that are not of fours."""
    yield from (framed(listed(PLAIN | {"data": [1] * count})) for count in (0, 1, 2, 256, 257))
    yield from (with_body(PLAIN, DATA, bytes(range(size))) for size in range(1, 13))


def orders():
    """Two rules broken at once: which number is told."""
    bad_cpu = with_body(PLAIN, 3, b"\xff\xff")
    yield from (with_body(PLAIN, tag, b"") for tag in (TASK, FUNCTION))
    yield bad_cpu[:-1]                                                                      # 30 before 34
    yield field(MARK, bad_cpu[3:-1])                                                        # 34 before a later 31
    yield field(MARK, without(PLAIN, 2)[3:-1])                                              # 31 before 33
    yield framed([(tag, b"" if tag == 3 else body) for tag, body in listed(PLAIN) if tag != 2])  # 34 before 33
    yield framed([*listed(PLAIN)[1:], (TASK, b"")])                                         # 32 before 34 and 33
    yield framed([(TASK, b"a"), (TASK, b"")])                                               # 32 before 34
    yield framed([(TASK, b""), (TASK, b"")])                                                # 34 before a later 32
    yield framed([(FUNCTION, b"f" * 4097)])                                                 # 34 at the function, no task
    yield field(MARK, b"\x14\1\0")                                                         # 31 before 32
    yield field(MARK, field(TASK, b"") + b"\2")                                             # 34 before a later 31


def read_cases():
    """Record, slots and room, with nothing set."""
    for make in (frames, tags, values, texts, dwords, orders):
        yield from ((record, SLOTS, ROOM) for record in make())
    lacking = without(PLAIN | {"data": [1, 2]}, 2)
    for slots in (0, 1, 2, 3):
        yield framed(listed(PLAIN | {"data": [1, 2]})), slots, ROOM
        yield lacking, slots, ROOM                                                          # 33 before 35
    yield with_body(PLAIN, DATA, bytes(4 * 257)), 0, ROOM                                   # 34 before 35
    for entry in (PLAIN, FULL, AROUND):
        size = len(framed(listed(entry)))
        yield from ((framed(listed(entry)), SLOTS, room) for room in (0, 3, size - 1, size, size + 1))


def set_cases():
    """Record, slots, room, and which number of its entry is set to what before it is written."""
    plain, full = framed(listed(AROUND)), framed(listed(FULL | {"data": [1] * 3}))
    for name, (width, largest) in {row[0]: row[1:] for row in NUMBERS.values()}.items():
        if name in SET:
            tops = {0, 1, largest, min(largest + 1, 2**(8 * width) - 1), 2**(8 * width) - 1}
            yield from ((full, SLOTS, ROOM, SET.index(name), value) for value in sorted(tops))
    kind = SET.index("kind")
    yield from ((full, SLOTS, room, kind, value) for room, value in ((0, 13), (0, 12), (len(full) - 1, 13)))   # 37 before 36
    yield from ((full, 300, room, SET.index("dwords"), count) for room in (0, 5227) for count in (0, 2, 4, 256, 257, 300, 301))
    yield from ((full, 3, ROOM, SET.index("dwords"), count) for count in (3, 4))
    for name in ("task", "function"):
        yield from part_cases(plain, name)
    yield from long_cases()


def part_cases(record, name):
    """A part moved and stretched over all of its surroundings, to the text's end and past it."""
    lies, size = places(record), len(record)
    at, length = SET.index(name + "_at"), SET.index(name + "_len")
    yield from ((record, SLOTS, ROOM, length, count) for count in (*range(8), size - lies[name + "_at"], size - lies[name + "_at"] + 1, 2**63))
    yield from ((record, SLOTS, ROOM, at, place) for place in (*range(0, 20), *range(size - 14, size + 2), 2**63))


def long_cases():
    """The two together at their bound, by a task that grows over what follows it."""
    record = framed(listed(PLAIN | {"task": b"t" * 4094, "function": b"f"}))
    yield from ((record, SLOTS, 0, SET.index("task_len"), count) for count in (4095, 4096))


def cases():
    """Record, slots, room, number that is set, its value."""
    yield from ((*case, 0, 0) for case in read_cases())
    yield from set_cases()
