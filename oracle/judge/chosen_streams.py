"""The frozen streams: one of units of every kind, and short ones for the ends, few slots and lenient; and states on both sides of each rule of 53."""

from generate.records import framed
from generate.streams import spelled
from judge.chosen import BODY, GOOD, HEAD
from judge.chosen_records import FULL, PLAIN, listed, with_body, without
from reading.record import MARK, write_record
from reading.stream import REST, STATE, STATE_HEAD, STREAM_HEAD

A1 = bytes([MARK])
SMALLEST = write_record(PLAIN | {"data": []})
FEW = b", ".join(b"0x%x" % dword for dword in range(6))


def of_any(size, fill=b"x"):
    """A record that says so many bytes, of anything."""
    return A1 + (size - 3).to_bytes(2, "little") + (fill * size)[:size - 3]


def line_of(size, start=GOOD + b" k="):
    """A line of so many bytes, newline counted."""
    return start + b"x" * (size - 1 - len(start)) + b"\n"


# A line for each number that refuses one, but 17, which needs few slots.
REFUSED_LINES = [
    b"\n", b"#\n", b"# tracer: nop\n", b"a-1 [002] 1.2: f\xc3\xa9: " + BODY + b"\n", b"nonsense\n", b" \n", b"a [002] 1.2: f: " + BODY + b"\n",
    b"a-b [002] 1.2: f: " + BODY + b"\n", b"a-1 002 1.2: f: " + BODY + b"\n", b"a-1 [002] 1 2: f: " + BODY + b"\n",
    b"a-1 [002] 1.2: f.: " + BODY + b"\n", HEAD + b"size=3 domain=0 route=0 data=[1]\n", HEAD + b"type=t domain=0 route=0 data=[1]\n",
    HEAD + b"type=t size=3 route=0 data=[1]\n", HEAD + b"type=t size=3 domain=0 data=[1]\n", HEAD + b"type=t size=3 domain=0 route=0 data=1\n",
    HEAD + b"type=t size=3 domain=0 route=0 data=[" + b", ".join([b"1"] * 257) + b"]\n",
    HEAD + b"type=t size=3 domain=0 route=0 data=[0x1, zz, 0x2]\n"]
GOOD_LINES = [
    GOOD + b"\n", b" \t " + GOOD + b" \r\n",
    b" fwd-7 [002] d..1. 12.000345: tb_tx: type=TB_CFG_PKG_READ, size=3, domain=0, route=0, data=[0x0, 0x0, 0x04002001]\n",
    b"x-" + GOOD + b" x=[#]\n", b"f-1 [002] 1.2: f: " + BODY + b"\n", b"kworker/0:1-7 [002] 1.2: f: tb_rx : " + BODY + b"\n",
    HEAD + b"type=t size=3 domain=0 route=0 data=[" + b", ".join(b"0x%08x" % dword for dword in spelled(GOOD + b"\n")) + b"]\n"]
GOOD_RECORDS = [
    SMALLEST, framed(listed(FULL)), write_record(PLAIN | {"task": b"a\nb\n#", "data": spelled(GOOD + b"\n" + A1 + b"\0\0\n")})]
# 30 is not among them: what starts with A1 is as long as it says, or it is 54.
REFUSED_RECORDS = [
    of_any(3), of_any(4), of_any(5), of_any(9, b"\1\1\0"), framed([(1, b"a")]), framed([(1, b"a"), (0x14, b"")]), with_body(PLAIN, 3, b"\xe8\3"),
    without(PLAIN, 2), without(PLAIN, 0x13), of_any(12, b"\n"), of_any(20, A1), framed(listed(PLAIN)[:-1] + [(0x13, b"\0\0\0")])]


def large_units():
    """Around the bounds of length, and longer than the buffer."""
    yield from (line_of(4096), line_of(4097), line_of(REST + 9, b"x" + A1 + b"\xff\xff"), of_any(5227, b"\n"), of_any(REST + 7, b"x\n"))


def great():
    """Units of all kinds, one behind the other; a newline behind some records, false lengths that the next unit pays for."""
    small = [*REFUSED_LINES, *GOOD_LINES, *REFUSED_RECORDS, *GOOD_RECORDS]
    spread = [unit for start in range(7) for unit in small[start::7]]
    yield from spread
    yield from (SMALLEST, b"\n", SMALLEST, b"\r\n", SMALLEST[1:], GOOD + b"\n")
    yield from (SMALLEST[:1] + bytes([len(SMALLEST) - 3 + 9]) + SMALLEST[2:], GOOD + b"\n", SMALLEST[:1] + bytes([40]) + SMALLEST[2:], b"\n")
    for place, large in enumerate(large_units()):
        yield from (large, spread[place], GOOD + b"\n")
    yield GOOD


def ends():
    """Streams that end in a unit, at each place of a short one."""
    yield from (SMALLEST[:place] for place in range(len(SMALLEST)))
    yield from (GOOD[:place] for place in range(len(GOOD) + 1))
    yield from (SMALLEST + b"\n" + last for last in (A1, A1 + b"\0", A1 + b"\0\0", b"\n", b"#", b"x"))
    yield from (A1 + length + b"\n" * more for length in (b"\x68\x14", b"\x69\x14", b"\xff\xff", b"\0\x14") for more in (0, 1, 7))
    yield from (of_any(5228)[:-1], line_of(4099, b"#")[:-1])


def with_slots():
    """Stream, slots and choice where they matter: 17 and 35, the unit is gone and the next is read; 18 by strict alone."""
    six = HEAD + b"type=t size=3 domain=0 route=0 data=[" + FEW + b"]\n"
    bad = HEAD + b"type=t size=3 domain=0 route=0 data=[" + FEW + b", z]\n"
    stream = six + GOOD + b"\n" + write_record(PLAIN | {"data": list(range(6))}) + SMALLEST + bad + GOOD + b"\n" + bad[:-1]
    for slots in (0, 5, 6):
        for strict in (False, True):
            yield stream, slots, strict


def streams():
    """Stream, slots and choice."""
    yield b"".join(great()), 256, True
    yield b"".join([*REFUSED_LINES, *REFUSED_RECORDS]), 256, False
    yield from with_slots()
    for number, stream in enumerate(dict.fromkeys(ends())):
        yield stream, 256, number % 2 == 0


# States: held, passed, size of the buffer, a byte that fills it, its first bytes

def line_states():
    for fill in (ord("x"), ord("#"), 0, 0xFF):
        yield from ((held, passed, REST, fill, b"") for held in (0, 1, 4096, 4097, 4098, REST, REST + 1) for passed in (0, 1))
    for held in (1, 2, 3, 9):
        yield from ((held, 0, REST, ord("x"), b"x" * place + b"\n") for place in {0, held - 1, held})
        yield from ((held, 0, REST, ord("x"), b"x" * place + A1) for place in {0, held - 1})
    yield 4097, 0, REST, ord("x"), b"x" * 4096 + b"\n"
    yield from ((held, 0, REST, 10, b"x") for held in (0, 1, 2))
    yield from ((held, passed, REST, 0, b"") for held in (0, 3, 2**32, 2**63, 2**64 - 1) for passed in (0, 2**16, 2**32, 2**64 - 1))


def record_states():
    yield from ((held, passed, REST, 10, A1 + second) for held in (1, 2) for second in (b"", b"\xff") for passed in (0, 1, 65534))
    for says in (3, 4, 5, 260, 5226, 5227, 5228, 5229, 8192, 65538):
        head = A1 + (says - 3).to_bytes(2, "little")
        for held in {2, 3, 4, says - 1, says, says + 1}:
            yield from ((held, passed, REST, 10, head) for passed in (0, 1))
        yield from ((3, passed % 2**64, REST, ord("x"), head) for passed in (says - 5, says - 4, says - 3, says - 2, says, 2**16, 2**32, 2**32 + 1))


def sizes():
    """A buffer of another size is refused whatever is held."""
    for size in (0, 1, 4097, REST - 1, REST, REST + 1, 2 * REST):
        yield from ((held, 0, size, ord("x"), b"") for held in (0, 1))


def states():
    yield from dict.fromkeys([*line_states(), *record_states(), *sizes()])


def frames():
    """Each stream and state in its frozen form."""
    for stream, slots, strict in streams():
        yield STREAM_HEAD.pack(strict, slots) + stream
    for held, passed, size, fill, first in states():
        yield STATE_HEAD.pack(STATE, held, passed, size, fill) + first
