"""Books broken at one rule each, named by the rule."""

from copy import deepcopy

from generate.seed import Seed
from generate.tree import Node, encoded, entry, protocol


def nodes(top, *tags):
    """Fields of these tags with the list each stands in."""
    root = Node(0, b"", top)
    return [(node, siblings) for node, siblings in root.walk() if node.tag in tags]


def change(*tags):
    """A rule that changes one field of these tags; a book without one gives nothing."""
    def decorated(act):
        def broken(seed, top):
            found = nodes(top, *tags)
            if not found:
                return None
            act(seed, *seed.pick(found))
            return encoded(top)
        broken.__doc__ = act.__doc__
        return broken
    return decorated


def insert(seed, node, tags, body):
    """Puts a field of one of these tags among the inner ones."""
    node.inner.insert(seed.below(len(node.inner) + 1), Node(seed.pick(tags), body))


def too_long(seed, top):
    """65,536 bytes or a little more, else whole."""
    table = protocol((7, 7, 7, 7))
    room = seed.pick((65_536, 65_537, 65_540)) - len(encoded(top)) - table.size()
    if room < 300:
        return None
    while room > 0:
        # An entry with a name has 9 to 263 bytes, and another must fit behind it or nothing.
        size = room if room <= 263 else min(263, room - 9)
        table.inner.append(entry(len(table.inner), b"n" * (size - 8)))
        room -= size
    return encoded(top + [table])


def cut_short(seed, top):
    """Ends anywhere."""
    data = encoded(top)
    return data[:seed.below(len(data))] if data else None


def stray_end(seed, top):
    """One or two bytes behind the last table."""
    return encoded(top) + bytes(seed.pick((0, 1, 2, 3)) for _ in range(seed.within(1, 2)))


def unknown_top(seed, top):
    """A tag at the top that is neither 1 nor 2."""
    top.insert(seed.below(len(top) + 1), Node(seed.pick((0, 3, 4, 5, 6, 7, 8, 255)), b"\0\0"))
    return encoded(top)


@change(1)
def bad_kind(seed, node, _):
    """A kind of 0 or above 12."""
    node.prefix = bytes([seed.pick((0, 13, 14, 128, 255))])


@change(1)
def no_kind(_, node, __):
    """A control table without its kind byte."""
    node.prefix, node.inner = b"", []


@change(2)
def short_uuid(seed, node, _):
    """Fewer than four dwords of a UUID."""
    node.prefix, node.inner = node.prefix[:seed.below(16)], []


@change(1, 2)
def no_entry(seed, node, _):
    """Something else than an entry in a table."""
    insert(seed, node, (0, 1, 2, 4, 5, 6, 7, 9), b"\0\0")


@change(3)
def short_offset(seed, node, _):
    """An entry with under two bytes of offset."""
    node.prefix, node.inner = node.prefix[:seed.below(2)], []


@change(3)
def second_name(seed, node, _):
    """An entry with two names."""
    node.inner[:0] = [Node(4, b"n"), Node(4, seed.pick((b"n", b"m")))]


@change(3)
def second_type(seed, node, _):
    """An entry with two types."""
    node.inner[:0] = [Node(5, b"n"), Node(5, seed.pick((b"n", b"m")))]


@change(3)
def type_first(_, node, __):
    """A type before the name."""
    node.inner[:0] = [Node(5, b"n"), Node(4, b"n")]


@change(3)
def range_first(seed, node, _):
    """A range before the name or the type."""
    some = Node(6, bytes([0, 1]), [Node(4, b"r")])
    node.inner = [some, Node(seed.pick((4, 5)), b"n")]


@change(3)
def foreign_in_entry(seed, node, _):
    """A tag in an entry that is not 4, 5 or 6."""
    insert(seed, node, (0, 1, 2, 3, 7, 8), b"\0\0\0\0n")


def bad_name(seed):
    """No byte, 256 bytes, or a byte of 128 or more."""
    return seed.pick((b"", b"x" * 256, b"x" * 300, b"\x80", b"a\xff", b"\xc3\xa9"))


@change(4)
def bad_name_4(seed, node, _):
    """A name against its rule."""
    node.prefix = bad_name(seed)


@change(5)
def bad_name_5(seed, node, _):
    """A packet type against the rule of names."""
    node.prefix = bad_name(seed)


@change(7)
def bad_name_7(seed, node, _):
    """A value's name against its rule."""
    node.prefix = node.prefix[:4] + bad_name(seed)


@change(6)
def upside_down(seed, node, _):
    """Low above high."""
    high = seed.below(31)
    node.prefix = bytes([seed.within(high + 1, 32), high])


@change(6)
def high_bit(seed, node, _):
    """A high bit above 31."""
    node.prefix = bytes([seed.pick((0, 31, 32)), seed.pick((32, 33, 255))])


@change(6)
def short_range(seed, node, _):
    """A range with under two bytes."""
    node.prefix, node.inner = node.prefix[:seed.below(2)], []


@change(6)
def nameless_range(seed, node, _):
    """A range without a name, or with it behind a value."""
    node.inner = [] if seed.one_in(2) else [Node(7, b"\1\0\0\0v"), Node(4, b"n")]


@change(6)
def twice_named_range(seed, node, _):
    """A range with two names."""
    node.inner.insert(seed.within(0, len(node.inner)), Node(4, b"n"))


@change(6)
def foreign_in_range(seed, node, _):
    """A tag in a range that is neither 4 nor 7."""
    insert(seed, node, (0, 1, 3, 5, 6, 8), b"\0\0\0\0n")


@change(7)
def short_value(seed, node, _):
    """A value of under four bytes."""
    node.prefix = node.prefix[:seed.below(4)]


@change(1, 2)
def second_table(seed, node, siblings):
    """A kind's or a UUID's table twice."""
    siblings.insert(seed.below(len(siblings) + 1), Node(node.tag, node.prefix))


@change(3)
def second_entry(seed, node, siblings):
    """An entry of one offset and type twice."""
    same = [n for n in node.inner if n.tag == 5]
    siblings.insert(seed.below(len(siblings) + 1), Node(3, node.prefix, same))


@change(7)
def second_value(seed, node, siblings):
    """A value twice in one range."""
    siblings.insert(seed.within(1, len(siblings)), Node(7, node.prefix[:4] + b"v"))


def bad_length(seed, top):
    """One length too long or too short, at any level."""
    data = bytearray(encoded(top))
    found = [place for place in places(bytes(data), 0, len(data), 0)]
    if not found:
        return None
    at = seed.pick(found) + 1
    length = int.from_bytes(data[at:at + 2], "little") + seed.pick((-2, -1, 1, 2, 3, 256, -256))
    data[at:at + 2] = (length % 65536).to_bytes(2, "little")
    return bytes(data)


# How many bytes stand before the fields in a body, by tag.
AHEAD = {0: 0, 1: 1, 2: 16, 3: 2, 6: 2}


def places(data, start, end, tag):
    """The places of all fields of a whole book."""
    if tag not in AHEAD:
        return
    start += AHEAD[tag]
    while start < end:
        stop = start + 3 + int.from_bytes(data[start + 1:start + 3], "little")
        yield start
        yield from places(data, start + 3, stop, data[start])
        start = stop


def any_byte(seed, top):
    """Any byte changed; the book may stay whole."""
    data = bytearray(encoded(top))
    if not data:
        return None
    for _ in range(seed.within(1, 2)):
        byte = seed.pick((*range(8), 31, 32, 127, 128, seed.below(256)))
        data[seed.below(len(data))] = byte
    return bytes(data)


RULES = {
    "over 65,535 bytes": too_long, "cut short": cut_short, "stray end": stray_end,
    "unknown top": unknown_top, "bad kind": bad_kind, "no kind": no_kind,
    "short uuid": short_uuid, "no entry": no_entry, "short offset": short_offset,
    "second name": second_name, "second type": second_type, "type first": type_first,
    "range first": range_first, "foreign in entry": foreign_in_entry, "bad name": bad_name_4,
    "bad type": bad_name_5, "bad value name": bad_name_7, "upside down": upside_down,
    "high bit": high_bit, "short range": short_range, "nameless range": nameless_range,
    "twice named range": twice_named_range, "foreign in range": foreign_in_range,
    "short value": short_value, "second table": second_table, "second entry": second_entry,
    "second value": second_value, "bad length": bad_length, "any byte": any_byte,
}


def generate(seed, count, good):
    """Rule and bytes, about `count`; `good` gives the books to break."""
    each = max(1, round(count / len(RULES)))
    books = [tables for _, tables in good(seed + 1, 300) if encoded_size(tables) < 20_000]
    for index, (name, rule) in enumerate(RULES.items()):
        source = Seed(seed * 1000 + 700 + index)
        made = 0
        while made < each:
            data = rule(source, deepcopy(source.pick(books)))
            if data is not None:
                made += 1
                yield name, data


def encoded_size(tables):
    return sum(node.size() for node in tables)
