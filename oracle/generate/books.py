"""Good books by class: python3 oracle/generate/books.py --seed N --count N OUT (broken ones too)"""

import argparse
import os
import sys

sys.dont_write_bytecode = True
sys.path.insert(0, os.path.join(os.path.dirname(os.path.abspath(__file__)), ".."))

from generate import broken
from generate.seed import Seed, frame
from generate.tree import bits, control, encoded, entry, protocol

HEADER = (0, 0, 0, 0)
FIXED = [
    b"UUID", b"Packet Type", b"Adapter Num", b"Address", b"Offset", b"Read Size", b"Write Size",
    b"Properties Block Size", b"Properties Block Generation"]
OTHERS = [
    b"Route String High", b"Route String Low", b"CM", b"PG", b"uuid", b"Packet type", b"x", b"CRC"]
TYPE_NAMES = [b"A", b"B", b"Properties Request", b"Properties Response", b"Error", b"a"]
UUIDS = [
    (1, 2, 3, 4), (0, 0, 0, 1), (1, 0, 0, 0), (0xFFFFFFFF,) * 4, (4, 3, 2, 1),
    (0x12345678, 0x9ABCDEF0, 0x0FEDCBA9, 0x87654321)]


def name(seed):
    if seed.one_in(12):
        length = seed.pick((1, 2, 254, 255))
        return bytes(seed.below(128) for _ in range(length))
    return seed.pick(FIXED + OTHERS)


def type_name(seed):
    return seed.pick(TYPE_NAMES)


def span(seed):
    """Low and high bit, the ends and the whole width among them."""
    if seed.one_in(6):
        return seed.pick(((0, 31), (0, 0), (31, 31), (8, 15), (0, 30), (1, 31)))
    low = seed.below(32)
    return low, seed.within(low, 31)


def values(seed, width):
    """Named values, small ones mostly, and some wider than the range."""
    some = {}
    for _ in range(seed.pick((0, 0, 1, 2, 4))):
        value = seed.below(4) if seed.one_in(2) else seed.below(2 ** min(width + 1, 32))
        some[value] = type_name(seed) if not seed.one_in(8) else name(seed)
    return some.items()


def some_range(seed):
    low, high = span(seed)
    return bits(low, high, name(seed), values(seed, high - low + 1))


def type_range(seed, full=False):
    """A `Packet Type` range; `full` names each of its values."""
    low = seed.below(30)
    chosen = [(v, seed.pick(TYPE_NAMES)) for v in range(4) if full or not seed.one_in(3)]
    return bits(low, low + 1, b"Packet Type", chosen)


def some_entry(seed, offset, packet_type=None):
    named = name(seed) if not seed.one_in(3) else None
    ranges = seed.several(0, 3, some_range)
    if seed.one_in(8):
        ranges.insert(seed.below(len(ranges) + 1), type_range(seed))
    return entry(offset, named, packet_type, ranges)


def some_entries(seed, most, offsets=12):
    """Entries of any offsets and types, none of them twice."""
    seen, found = set(), []
    for _ in range(seed.below(most + 1)):
        key = seed.below(offsets), None if not seed.one_in(3) else type_name(seed)
        if seed.one_in(40):
            key = seed.pick((255, 256, 257, 65535)), None
        if key not in seen:
            seen.add(key)
            found.append(some_entry(seed, *key))
    return found


def uuid_entries(seed, count, start):
    """So many entries of the name `UUID`, side by side or with gaps."""
    offsets, offset = [], start
    for _ in range(count):
        offsets.append(offset)
        offset += 1 if not seed.one_in(8) else 2
    return [entry(o, b"UUID", None, seed.several(0, 1, some_range)) for o in offsets]


def route_entries(seed):
    high = entry(0, b"Route String High", None, [bits(31, 31, b"CM"), bits(0, 30, b"Route")])
    return [high, entry(1, b"Route String Low")] + ([some_entry(seed, 2)] if seed.one_in(2) else [])


def config_table(seed, kind):
    """As a read or write has it."""
    size = b"Read Size" if kind in (1, 2) else b"Write Size"
    ranges = [
        bits(0, 12, b"Address"), bits(13, 18, size), bits(19, 24, b"Adapter Num"),
        bits(25, 26, b"CS", [(0, b"Path"), (1, b"Adapter"), (2, b"Router")]), bits(27, 28, b"SN")]
    return control(kind, route_entries(seed)[:2] + [entry(2, b"Address", None, ranges)])


def empty(seed):
    """No table, or tables without entries."""
    tables = [control(kind) for kind in range(1, 13) if seed.one_in(2)]
    tables += [protocol(uuid) for uuid in [HEADER] + UUIDS if seed.one_in(3)]
    return seed.shuffled(tables) if not seed.one_in(4) else []


def plain(seed):
    """Control tables of many kinds, as a real book has them."""
    tables = [config_table(seed, kind) for kind in (1, 2, 3, 4)]
    tables += [control(kind, some_entries(seed, 6)) for kind in range(5, 13) if not seed.one_in(4)]
    return seed.shuffled(tables + [protocol(HEADER, some_entries(seed, 5))])


def inter_domain(seed, uuids):
    """Control tables for 8 and 9, a header with so many `UUID` entries, and protocols."""
    start = 3
    header = [some_entry(seed, 2)] if seed.one_in(2) else []
    header += uuid_entries(seed, uuids, start)
    header += some_entries(seed, 3, 3) if not header or seed.one_in(4) else []
    header = without_twins(header + [some_entry(seed, seed.within(8, 11))])
    tables = [control(kind, route_entries(seed)[:seed.below(3)]) for kind in (8, 9)]
    tables.append(protocol(HEADER, header))
    for uuid in UUIDS:
        if not seed.one_in(3):
            tables.append(protocol(uuid, protocol_entries(seed)))
    return seed.shuffled(tables)


def without_twins(entries):
    """The first entry of each offset and type."""
    seen = {}
    for node in entries:
        kind = next((n.prefix for n in node.inner if n.tag == 5), None)
        seen.setdefault((node.prefix, kind), node)
    return list(seen.values())


def protocol_entries(seed):
    """A `Packet Type` entry, then typed and untyped ones behind it."""
    found = []
    if not seed.one_in(5):
        found.append(entry(seed.within(5, 8), b"Type", None, [type_range(seed)]))
    for offset in range(seed.within(3, 8), 14):
        for kind in seed.shuffled([None, b"A", b"B"])[:seed.below(4)]:
            found.append(some_entry(seed, offset, kind))
    if seed.one_in(2):
        ranges = [bits(0, 15, b"Properties Block Size"), bits(16, 31, b"Offset"),
                  bits(0, 31, b"Properties Block Generation")]
        kind = seed.pick((None, b"A"))
        found.append(entry(seed.within(9, 13), b"Block", kind, seed.shuffled(ranges)))
    return without_twins(found)


def three_uuids(seed):
    """Three fields of the name `UUID`: none."""
    return inter_domain(seed, 3)


def four_uuids(seed):
    """Exactly four."""
    return inter_domain(seed, 4)


def five_uuids(seed):
    """Five: none."""
    return inter_domain(seed, 5)


def latching(seed):
    """Several `Packet Type` ranges in control, header and protocol tables."""
    header = uuid_entries(seed, 4, 1)
    header.append(entry(seed.within(6, 9), b"Type", None, [type_range(seed, seed.one_in(2))]))
    tables = []
    for kind in (8, 9):
        own = entry(seed.pick((0, 6, 7)), None, None, [type_range(seed)])
        tables.append(control(kind, [own][:seed.below(2)]))
    tables.append(protocol(HEADER, without_twins(header)))
    for uuid in UUIDS[:3]:
        found = [entry(o, b"T", k, [type_range(seed)] * seed.within(1, 2))
                 for o in range(5, 12) for k in (None, b"A", b"B") if not seed.one_in(3)]
        tables.append(protocol(uuid, seed.shuffled(found)))
    return tables


def two_types(seed):
    """Two ranges named `Packet Type` in one entry, of other bits and value names: the first counts."""
    def pair():
        return [bits(low, low + 1, b"Packet Type", [(v, seed.pick(TYPE_NAMES)) for v in range(4) if seed.one_in(2)])
                for low in seed.shuffled((0, 2, 5))[:2]]
    tables = [control(kind, [entry(0, None, None, pair())] if kind < 8 else []) for kind in (1, 5, 8, 9)]
    tables.append(protocol(HEADER, uuid_entries(seed, 4, 1)))
    for uuid in UUIDS[:3]:
        found = [entry(6, b"T", None, pair())]
        found += [entry(o, None, k) for o in (7, 8) for k in (None, *TYPE_NAMES) if seed.one_in(2)]
        tables.append(protocol(uuid, found))
    return tables


def uuid_range(seed):
    """Ranges named `UUID` in entries of other names, in place of `UUID` fields or beside four of them: they are no such fields."""
    def ranged(offset):
        return entry(offset, seed.pick((None, b"x", b"uuid")), None, [bits(0, 31, b"UUID")])
    tables = [control(8, [ranged(offset) for offset in range(seed.below(5))]), control(9, [ranged(seed.within(5, 7))])]
    tables.append(protocol(HEADER, uuid_entries(seed, 4, 1) if seed.one_in(2) else [ranged(offset) for offset in range(1, 5)]))
    return tables + [protocol(uuid, protocol_entries(seed)) for uuid in UUIDS[:3]]


def zero_uuid(seed):
    """Typed entries in the header table, for the all-zero UUID to select."""
    header = uuid_entries(seed, 4, 2) + [entry(6, b"Type", None, [type_range(seed, True)])]
    for offset in range(6, 12):
        kinds = [kind for kind in (b"A", b"B", None) if seed.one_in(2)]
        header += [some_entry(seed, offset, kind) for kind in kinds]
    return [
        control(8, some_entries(seed, 2, 2)), control(9), protocol(HEADER, without_twins(header)),
        protocol(UUIDS[0], protocol_entries(seed))]


def late_uuid(seed):
    """`UUID` fields in control, header and protocol tables at once."""
    tables = [control(kind, uuid_entries(seed, seed.below(5), 0)) for kind in (5, 8, 9)]
    tables.append(protocol(HEADER, uuid_entries(seed, seed.within(1, 5), seed.below(5))))
    tables += [protocol(uuid, uuid_entries(seed, seed.below(5), 5)) for uuid in UUIDS]
    return tables


def no_header(seed):
    """Kinds 8 and 9 without a header table; other kinds missing too."""
    kinds = [kind for kind in range(1, 13) if kind in (8, 9) or seed.one_in(3)]
    return [control(kind, some_entries(seed, 4)) for kind in kinds] + [protocol(UUIDS[0])]


def ranges(seed):
    """Overlapping ranges, two of one name, every width, values wider than the range."""
    tables = []
    for kind in range(1, 13):
        offsets = range(seed.below(4))
        entries = [entry(o, None, None, seed.several(1, 6, some_range)) for o in offsets]
        tables.append(control(kind, entries))
    return tables + [protocol(HEADER, some_entries(seed, 4))]


def sparse(seed):
    """Offsets out of order, with gaps, typed ones first, more entries than the highest offset."""
    tables = [control(kind, seed.shuffled(some_entries(seed, 9, 6))) for kind in range(1, 13)]
    return seed.shuffled(tables + [protocol(HEADER, some_entries(seed, 9, 6))])


def large(seed):
    """Close under 65,535 bytes, or a table of more than 256 entries."""
    if seed.one_in(2):
        entries = [entry(o, b"x" if o % 3 else None) for o in range(seed.within(250, 300))]
        return [control(kind, entries) for kind in (1, 2, 3, 8)] + [protocol(HEADER, entries[:9])]
    room = 65_535 - 4 - seed.below(3)
    entries = []
    while room > 1000:
        node = some_entry(seed, len(entries))
        room -= node.size()
        entries.append(node)
    while room >= 12:
        length = min(room - 8, 255) if room < 300 else 200
        node = entry(len(entries), bytes([65 + len(entries) % 26]) * length)
        room -= node.size()
        entries.append(node)
    return [control(seed.within(1, 12), entries)]


def any_book(seed):
    """Tables, entries, ranges and names as they come."""
    kinds = [kind for kind in range(1, 13) if not seed.one_in(3)]
    uuids = [uuid for uuid in [HEADER] + UUIDS if not seed.one_in(3)]
    tables = [control(kind, some_entries(seed, 8)) for kind in kinds]
    return seed.shuffled(tables + [protocol(uuid, some_entries(seed, 10)) for uuid in uuids])


CLASSES = {
    "empty": empty, "plain": plain, "three uuids": three_uuids, "four uuids": four_uuids,
    "five uuids": five_uuids, "latching": latching, "zero uuid": zero_uuid,
    "late uuid": late_uuid, "no header": no_header, "ranges": ranges, "sparse": sparse,
    "large": large, "any book": any_book, "two types": two_types, "uuid range": uuid_range,
}
# Those that step 3 leans on come more often, large ones seldom.
SHARE = {"four uuids": 3, "latching": 3, "zero uuid": 2, "any book": 2, "large": 0.1, "empty": 0.5}


def good(seed, count):
    """Class and tables of about `count` books that keep every rule."""
    each = count / sum(SHARE.get(name, 1) for name in CLASSES)
    for index, (name, make) in enumerate(CLASSES.items()):
        source = Seed(seed * 1000 + 500 + index)
        for _ in range(max(1, round(each * SHARE.get(name, 1)))):
            yield name, make(source)


def generate(seed, count):
    """Class and bytes: half good books, half broken at one rule each."""
    for name, tables in good(seed, count // 2):
        yield name, encoded(tables)
    yield from broken.generate(seed, count - count // 2, good)


def main():
    options = argparse.ArgumentParser(description=__doc__)
    options.add_argument("--seed", type=int, default=1)
    options.add_argument("--count", type=int, default=1000)
    options.add_argument("--one", choices=CLASSES, help="one good book of the class, unframed")
    options.add_argument("out")
    chosen = options.parse_args()
    if chosen.one:
        with open(chosen.out, "wb") as out:
            out.write(encoded(CLASSES[chosen.one](Seed(chosen.seed))))
        return
    counts = {}
    with open(chosen.out, "wb") as out:
        for name, data in generate(chosen.seed, chosen.count):
            counts[name] = counts.get(name, 0) + 1
            out.write(frame(data))
    for name, count in counts.items():
        print(f"{name} {count}")


if __name__ == "__main__":
    main()
