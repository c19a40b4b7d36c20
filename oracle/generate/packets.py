"""Packets aimed at a book: python3 oracle/generate/packets.py --seed N --count N BOOK OUT"""

import argparse
import os
import sys

sys.dont_write_bytecode = True
sys.path.insert(0, os.path.join(os.path.dirname(os.path.abspath(__file__)), ".."))

from generate.seed import Seed, frame
from reading.book import HEADER, read_book

MOST = 256
INTER_DOMAIN = (8, 9)


class Aim:
    """What a book's ranges and UUIDs make worth asking. Reads the book to aim, judges nothing."""

    def __init__(self, data):
        self.book = read_book(data)
        self.ranges = {}
        tables = list(self.book.control.values()) + list(self.book.protocol.values())
        for entry in (entry for table in tables for entry in table):
            self.ranges.setdefault(entry.offset, []).extend(entry.ranges)
        self.uuids = list(self.book.protocol) or [HEADER]

    def dword(self, seed, offset):
        """A dword that puts a named value into a range that may stand at the offset."""
        any_dword = seed.next() >> 32
        dword = seed.pick((0, 1, 2, 3, 0x80000000, 0xFFFFFFFF, any_dword, any_dword))
        for _ in range(2):
            ranges = self.ranges.get(offset)
            if ranges and not seed.one_in(3):
                chosen = seed.pick(ranges)
                value = seed.pick(list(chosen.values) + [seed.below(4)])
                mask = 2**(chosen.high - chosen.low + 1) - 1
                dword = dword & ~(mask << chosen.low) | (value & mask) << chosen.low
        return dword

    def dwords(self, seed, count):
        return [self.dword(seed, offset) for offset in range(count)]

    def uuid_offsets(self, kind):
        """Where fields of the name `UUID` stand before step 3, in order."""
        named = {}
        header = [e for e in self.book.protocol.get(HEADER, []) if e.type is None]
        for table in (header, self.book.control.get(kind, [])):
            named.update((e.offset, e.name) for e in reversed(table))
        return sorted(offset for offset, name in named.items() if name == b"UUID")


def put_uuid(aim, kind, dwords, uuid):
    for offset, dword in zip(aim.uuid_offsets(kind), uuid):
        if offset < len(dwords):
            dwords[offset] = dword


def every_kind(seed, aim):
    """Kinds 0 to 13 and 255, few dwords."""
    kind = seed.pick(list(range(14)) + [255])
    return kind, aim.dwords(seed, seed.below(20))


def every_length(seed, aim):
    """0 to 257 dwords of any kind the book knows."""
    kind = seed.pick(list(aim.book.control) or [1])
    count = seed.below(258) if seed.one_in(8) else seed.below(40)
    return kind, aim.dwords(seed, count)


def limits(seed, aim):
    """255, 256 and 257 dwords."""
    kind = seed.pick(list(aim.book.control) + [0, 2, 8, 13])
    return kind, aim.dwords(seed, seed.within(255, 257))


def few(seed, aim):
    """No dword, one, two: the route's edge."""
    kind = seed.pick(list(aim.book.control) or [5])
    return kind, aim.dwords(seed, seed.below(3))


def viewed(seed, aim):
    """Kinds 2 and 3 around their number of entries."""
    kind = seed.pick((2, 3))
    n = len(aim.book.control.get(kind, []))
    return kind, aim.dwords(seed, min(max(n + seed.within(-1, 3), 0), MOST))


def selected(seed, aim):
    """Kinds 8 and 9 whose UUID has a table."""
    kind = seed.pick(INTER_DOMAIN)
    dwords = aim.dwords(seed, seed.within(5, 18))
    put_uuid(aim, kind, dwords, seed.pick(aim.uuids))
    return kind, dwords


def all_zero(seed, aim):
    """Kinds 8 and 9 with the all-zero UUID."""
    kind = seed.pick(INTER_DOMAIN)
    dwords = aim.dwords(seed, seed.within(5, 18))
    put_uuid(aim, kind, dwords, HEADER)
    return kind, dwords


def near_uuid(seed, aim):
    """A UUID that differs in one dword from one that has a table, or lacks its last dwords."""
    kind = seed.pick(INTER_DOMAIN)
    dwords = aim.dwords(seed, seed.within(0, 12))
    uuid = list(seed.pick(aim.uuids))
    uuid[seed.below(4)] ^= 1 << seed.below(32)
    put_uuid(aim, kind, dwords, uuid)
    return kind, dwords


def any_packet(seed, aim):
    """Random dwords."""
    return seed.below(14), [seed.next() >> 32 for _ in range(seed.below(24))]


CLASSES = {
    "every kind": every_kind, "every length": every_length, "limits": limits, "few": few,
    "viewed": viewed, "selected": selected, "all zero": all_zero, "near uuid": near_uuid,
    "any packet": any_packet,
}
SHARE = {"limits": 0.1, "selected": 4, "all zero": 1.5}


def generate(seed, count, data):
    """Class, kind and dwords of about `count` packets over the book's bytes."""
    aim = Aim(data)
    each = count / sum(SHARE.get(name, 1) for name in CLASSES)
    for index, (name, make) in enumerate(CLASSES.items()):
        source = Seed(seed * 1000 + 900 + index)
        for _ in range(max(1, round(each * SHARE.get(name, 1)))):
            yield name, *make(source, aim)


def body(kind, dwords):
    """A packet's frame without its length."""
    return bytes([kind]) + b"".join(dword.to_bytes(4, "little") for dword in dwords)


def main():
    options = argparse.ArgumentParser(description=__doc__)
    options.add_argument("--seed", type=int, default=1)
    options.add_argument("--count", type=int, default=1000)
    options.add_argument("book")
    options.add_argument("out")
    chosen = options.parse_args()
    with open(chosen.book, "rb") as book:
        data = book.read()
    counts = {}
    with open(chosen.out, "wb") as out:
        for name, kind, dwords in generate(chosen.seed, chosen.count, data):
            counts[name] = counts.get(name, 0) + 1
            out.write(frame(body(kind, dwords)))
    for name, count in counts.items():
        print(f"{name} {count}")


if __name__ == "__main__":
    main()
