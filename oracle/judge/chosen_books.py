"""Books of the frozen sample that were written one by one: document 01's cases and the edges."""

from itertools import product

from generate.tree import Node, bits, control, encoded, entry, protocol

HEADER = (0, 0, 0, 0)
ONE = (1, 2, 3, 4)
OTHER = (4, 3, 2, 1)
TYPE = bits(0, 1, b"Packet Type", [(0, b"A"), (1, b"B"), (2, b"C")])


def three_entries():
    """Three control entries for kinds 2 and 3, out of order: five, three and two dwords over it."""
    cut = [bits(8, 15, b"Adapter Num"), bits(0, 31, b"Address")]
    entries = [entry(2, b"c", None, cut), entry(0, b"a"), entry(1)]
    return [control(2, entries), control(3, entries)]


def many_entries():
    """More entries than a packet may have dwords."""
    return [control(2, [entry(i) for i in range(258)]), control(3, [entry(i) for i in range(256)])]


def uuid_at(*offsets):
    return [entry(offset, b"UUID") for offset in offsets]


def typed_header():
    """The all-zero UUID takes typed entries of the header table."""
    header = uuid_at(0, 1, 2, 3) + [
        entry(4, b"t", None, [TYPE]), entry(5, b"five a", b"A"), entry(5, b"five b", b"B"),
        entry(6, b"six a", b"A"), entry(6, b"six"), entry(7, b"seven b", b"B")]
    return [control(8), control(9, [entry(5, b"own", b"A")]), protocol(HEADER, header)]


def late_uuids():
    """Step 3 adds fields of the name `UUID`: one more, four more."""
    return [
        control(8), control(9), protocol(HEADER, uuid_at(0, 1, 2, 3)), protocol(ONE, uuid_at(5)),
        protocol(OTHER, uuid_at(4, 5, 6, 7))]


def latching():
    """Latching from control and protocol descriptions, with an entry at the offset and without."""
    first = [
        entry(4, b"t", None, [TYPE]), entry(4, b"own a", b"A"), entry(5, b"a", b"A"),
        entry(5, b"b", b"B"), entry(5, b"n"), entry(6, b"again", None, [TYPE]),
        entry(7, b"a", b"A"), entry(7, b"b", b"B")]
    other = [entry(6, b"x", b"A"), entry(6, b"y"), entry(7, b"z", b"B")]
    return [
        control(8), control(9, [entry(5, b"c", None, [TYPE, TYPE])]),
        protocol(HEADER, uuid_at(0, 1, 2, 3)), protocol(ONE, first), protocol(OTHER, other)]


TWO_TYPES = [bits(0, 1, b"Packet Type", [(1, b"A")]), bits(2, 3, b"Packet Type", [(0, b"C"), (1, b"B"), (2, b"A")])]


def two_types():
    """Two ranges named `Packet Type` in one entry: the first alone latches and is asked."""
    typed = [entry(5, name.lower(), name) for name in (b"A", b"B", b"C")]
    return [
        control(1, [entry(0, b"t", None, TWO_TYPES)]), control(8), control(9, [entry(4, b"own", None, TWO_TYPES[::-1])]),
        protocol(HEADER, uuid_at(0, 1, 2, 3)), protocol(ONE, [entry(4, b"t", None, TWO_TYPES), *typed, entry(5, b"n")])]


def uuid_ranges():
    """Ranges named `UUID` in entries of other names: four of them make no UUID, and one beside four fields does not spoil theirs."""
    whole = [bits(0, 31, b"UUID")]
    return [
        control(8, [entry(4, b"u", None, whole)]), control(9, [entry(offset, b"u", None, whole) for offset in range(4)]),
        control(5, [entry(offset, None, None, whole) for offset in range(4)]),
        protocol(HEADER, uuid_at(0, 1, 2, 3)), protocol(ONE, [entry(5, b"five")])]


def wide():
    """Ranges wider than the questions' casts."""
    ranges = [bits(0, 31, name) for name in (
        b"Adapter Num", b"Address", b"Offset", b"Read Size", b"Write Size",
        b"Properties Block Size")]
    tables = [control(kind, [entry(0, None, None, ranges)]) for kind in range(1, 13)]
    generation = bits(0, 31, b"Properties Block Generation")
    return tables + [protocol(HEADER, [entry(1, b"h", None, [generation])])]


def around_three():
    """Both kinds from no dword to five."""
    for kind in (2, 3):
        yield from ((kind, [0x12345678 + i for i in range(count)]) for count in range(6))


def around_many():
    """The limit of dwords comes before the number of entries."""
    for count in (255, 256, 257):
        yield from ((kind, list(range(count))) for kind in (2, 3))


def every_type():
    """Each type's value, named or not, at each dword that may latch it."""
    for kind, uuid in product((8, 9), (ONE, OTHER, HEADER)):
        for fourth, fifth, sixth in product(range(4), (1, 3), (0, 3)):
            yield kind, [*uuid, fourth, fifth, sixth, 0xFFFFFFFF]


def every_uuid():
    for kind, uuid, count in product((8, 9), (ONE, OTHER, HEADER, (9, 9, 9, 9)), (3, 4, 5, 6, 8)):
        yield kind, [*uuid, 5, 6, 7, 8][:count]


def both_types():
    """Each value of the two ranges."""
    for both in range(16):
        yield 1, [both, 0]
        yield from ((kind, [*ONE, both, 7]) for kind in (8, 9))


def ranged_uuids():
    """A UUID that a table has, in four dwords and more."""
    yield from ((kind, [*ONE, 5, 6][:count]) for kind in (5, 8, 9) for count in (3, 4, 5, 6))


def route_bits():
    """The route and its top bit; ranges cut at 8 and 16 bits."""
    for kind, first in product(range(1, 13), (0x80000000, 0x40000000, 0xFFFFFFFF, 0x12345)):
        yield kind, [first, 1, 2]


# Each book with the packets that are asked of it beside the generated ones.
PACKETS = {
    three_entries: around_three, many_entries: around_many, typed_header: every_type,
    late_uuids: every_uuid, latching: every_type, wide: route_bits, two_types: both_types, uuid_ranges: ranged_uuids}
BOOKS = list(PACKETS)


NAMES = (b"", b"x", b"x" * 255, b"x" * 256, b"\x7f", b"\x80", b"\0")


def in_entry(*inner):
    return [control(1, [Node(3, b"\0\0", list(inner))])]


def in_range(low, high, *inner):
    return in_entry(Node(6, bytes([low, high]), list(inner)))


def value(number, name=b"v"):
    return Node(7, number.to_bytes(4, "little") + name)


def small_checks():
    """The smallest books on both sides of each rule."""
    name = Node(4, b"n")
    yield from ([control(kind)] for kind in (0, 1, 12, 13, 255))
    yield from ([Node(tag, b"\1")] for tag in range(9))
    yield from ([Node(2, b"\0" * length)] for length in (0, 15, 16, 17, 19))
    yield from ([control(1, [Node(tag, b"\0\0")])] for tag in range(9))
    yield from ([control(1, [Node(3, b"\0" * length)])] for length in (0, 1, 2, 3))
    for tag in (4, 5):
        yield from (in_entry(Node(tag, text)) for text in NAMES)
    for first in (4, 5):
        yield from (in_entry(Node(first, b"a"), Node(second, b"b")) for second in (4, 5))
    yield from (in_range(low, high, name) for low, high in (
        (0, 0), (0, 31), (31, 31), (0, 32), (32, 32), (1, 0), (31, 30), (255, 255)))
    yield in_range(0, 0)
    yield in_range(0, 0, name, name)
    yield from (in_range(0, 0, name, value(number)) for number in (0, 1, 2, 2**32 - 1))
    yield in_range(0, 0, name, value(1), value(1))
    yield in_range(0, 0, name, value(1), value(2))
    yield in_range(0, 0, value(1), name)
    yield from (in_range(0, 0, name, value(1, text)) for text in NAMES)
    yield in_entry(Node(6, b"\0\0", [name]), name)
    yield in_entry(Node(6, b"\0\0", [name]), Node(6, b"\0\0", [name]))
    yield from twins()


def twins():
    """The same twice, and what only looks so."""
    yield [control(1), control(1)]
    yield [control(1), control(2)]
    yield [protocol(ONE), protocol(ONE)]
    yield [protocol(ONE), protocol(HEADER), control(1), protocol(OTHER)]
    yield [protocol(HEADER), protocol(HEADER)]
    for first, second in (
            ((0, b"a", None), (0, b"b", None)), ((0, None, b"A"), (0, None, b"A")),
            ((0, None, b"A"), (0, None, b"B")), ((0, None, None), (0, None, b"A")),
            ((0, None, b"A"), (1, None, b"A")), ((0, None, b"A"), (0, None, b"a"))):
        yield [control(1, [entry(*first), entry(*second)])]
    yield [control(1, [entry(0)]), control(2, [entry(0)])]


def small_bytes():
    """Lengths that lie, one level at a time; a table stands behind, for a field to run into."""
    whole = encoded(in_range(0, 3, Node(4, b"n"), value(1)) + [control(2)])
    for at in (1, 5, 10, 15, 19):
        for step in (-1, 1):
            yield whole[:at] + bytes([(whole[at] + step) % 256]) + whole[at + 1:]
    yield from (whole[:length] for length in range(len(whole)))
    yield from (whole + stray for stray in (b"\1", b"\1\0", b"\1\1\0", b"\1\1\0\2"))


def checks():
    yield from (encoded(make()) for make in BOOKS)
    yield from (encoded(tables) for tables in small_checks())
    yield from small_bytes()
