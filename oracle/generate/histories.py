"""Histories: a table of slots and the entries that are stepped through it: histories.py --seed N --count N OUT.

An entry is what C hands over of it: kind, `dropped` and `seq` may be past what a line can say.
"""

import argparse
import os
import struct
import sys
from collections import Counter
from itertools import islice, product

sys.path.insert(0, os.path.dirname(os.path.dirname(os.path.abspath(__file__))))

from generate.seed import Seed, frame
from reading.pending import ENTRY, FREE, MOST_SLOTS, NAMES, SLOT, TOP_BIT, Slot

NONE = 0xFFFFFFFF
# Few of each, so that they meet; routes that differ in one bit, the highest and the lowest among them.
ROUTES = (0x301, 0x300, 0x301 + 2**62, 0, TOP_BIT - 1)
DOMAINS = (0, 1, 2**32 - 1)
SEQS = (0, 1, 255)
OTHER_KINDS = (0, 5, 6, 7, 8, 9, 10, 11, 12, 13, 129, 200, 255)


# Entries

def route(seed, few):
    return seed.pick(ROUTES[:few]) + (TOP_BIT if seed.one_in(3) else 0)


def seq(seed, few):
    if seed.one_in(24):
        return seed.pick((NONE, NONE, NONE, NONE - 1, 256, 257, 511, 2**16))
    return seed.pick(SEQS[:few])


def entry(seed, requests, few, sent):
    """One entry: so many of eight are requests. Of the others most respond to one that was sent, in any order."""
    if seed.one_in(16):
        kind = seed.pick(OTHER_KINDS)
    elif seed.below(8) < requests:
        kind = seed.pick((1, 3))
    else:
        kind = seed.pick((2, 4))
    dropped = seed.pick((1, 1, 1, 2, 255)) if seed.one_in(16) else 0
    if kind in (2, 4) and sent and not seed.one_in(6):
        asked = seed.pick(sent)
        return {**asked, "kind": asked["kind"] + 1, "dropped": dropped, "route": asked["route"] ^ (TOP_BIT if seed.one_in(2) else 0)}
    made = {"kind": kind, "dropped": dropped, "domain": seed.pick(DOMAINS[:few]), "route": route(seed, few), "seq": seq(seed, few)}
    if kind in (1, 3):
        sent.append(made)
    return made


def entries(seed, count, few):
    """Phases in which requests prevail, then responses."""
    made, sent = [], []
    while len(made) < count:
        requests = seed.pick((1, 3, 4, 7, 8))
        made += [entry(seed, requests, few, sent) for _ in range(seed.within(1, 2 + count // 2))]
        sent = sent[-MOST_SLOTS:]
    return made[:count]


def each_sort(seed):
    """Entries of every sort, for a table that they cannot change or that they end."""
    made = [{"kind": kind, "dropped": 0, "domain": 0, "route": 0x301, "seq": 0} for kind in (0, 1, 2, 3, 4, 200)]
    made += [{**made[1], "seq": NONE}, {**made[1], "dropped": 1}, {**made[2], "dropped": 1}]
    return seed.shuffled(made)


# Tables

def any_four(seed):
    return route(seed, 5) % TOP_BIT, seed.pick(DOMAINS), seed.pick(SEQS), seed.below(2)


def garbage(seed):
    """What a free slot may hold: anything."""
    return Slot(seed.pick((seed.next(), TOP_BIT, 2**64 - 1, 0x301 + TOP_BIT)), seed.next() % 2**32, seed.below(256), seed.below(256), 0)


def size(seed):
    return seed.pick((1, 2, 3, 63, 64)) if seed.one_in(2) else seed.within(1, MOST_SLOTS)


def good(seed, count, waiting):
    """So many slots, so many of them waiting, at any places and in any order."""
    slots = [garbage(seed) if seed.one_in(2) else FREE for _ in range(count)]
    for rank, place in enumerate(seed.shuffled(range(count))[:waiting], 1):
        slots[place] = Slot(*any_four(seed), rank)
    return slots


def ranked(seed, least):
    """A good table in which at least so many wait, and the places of these by their rank."""
    count = max(size(seed), least)
    slots = good(seed, count, seed.within(least, count))
    return slots, {slot.rank: place for place, slot in enumerate(slots) if slot.rank}


def changed(slots, place, **parts):
    return [slot._replace(**parts) if at == place else slot for at, slot in enumerate(slots)]


# Tables that break one rule

def last_rank_too_high(seed):
    slots, places = ranked(seed, 1)
    return changed(slots, places[len(places)], rank=len(places) + 1)


def rank_missing(seed):
    slots, places = ranked(seed, 2)
    return changed(slots, places[seed.within(1, len(places) - 1)], rank=0)


def rank_twice(seed):
    slots, places = ranked(seed, 2)
    one, other = seed.shuffled(places)[:2]
    return changed(slots, places[one], rank=other)


def rank_of_a_free_slot(seed):
    """One more slot waits, with a rank that is another's."""
    count = max(size(seed), 2)
    slots = good(seed, count, seed.within(1, count - 1))
    free = seed.pick([place for place, slot in enumerate(slots) if slot.rank == 0])
    waiting = [slot for slot in slots if slot.rank]
    return changed(slots, free, **seed.pick(waiting)._asdict())


def rank_past_64(seed):
    """One that is right but for its higher bits, now and then any."""
    slots, places = ranked(seed, 1)
    rank = seed.pick(list(places))
    high = seed.pick((64, 128, 256, 2**16, 2**31, 2**32 - 64)) + rank
    return changed(slots, places[rank], rank=seed.pick((65, 2**32 - 1, high, high)) % 2**32)


def top_bit_waits(seed):
    slots, places = ranked(seed, 1)
    place = seed.pick(list(places.values()))
    return changed(slots, place, route=slots[place].route + TOP_BIT)


def no_way(seed):
    slots, places = ranked(seed, 1)
    return changed(slots, seed.pick(list(places.values())), write=seed.pick((2, 3, 128, 255)))


def two_rules(seed):
    slots = seed.pick(BREAKS[:-1])(seed)
    place = seed.pick([place for place, slot in enumerate(slots) if slot.rank])
    return changed(slots, place, route=slots[place].route | TOP_BIT)


BREAKS = (last_rank_too_high, rank_missing, rank_twice, rank_of_a_free_slot, rank_past_64, top_bit_waits, no_way, two_rules)


# Histories

def small(seed):
    return [FREE] * seed.within(1, 3), entries(seed, 30, seed.within(1, 3))


def large(seed):
    return [FREE] * seed.pick((63, 64)), entries(seed, 240, seed.within(1, 3))


def of_any_size(seed):
    return [FREE] * seed.within(1, MOST_SLOTS), entries(seed, 80, seed.within(1, 3))


def one_four(seed):
    """Every request is like the others."""
    return [FREE] * seed.within(1, 8), entries(seed, 40, 1)


def going_on(seed):
    count = size(seed)
    return good(seed, count, seed.within(0, count)), entries(seed, 40, 3)


def full(seed):
    count = size(seed)
    return good(seed, count, count), entries(seed, 10, 3)


def free_with_top_bit(seed):
    count = size(seed)
    slots = good(seed, count, seed.below(count))
    return [slot if slot.rank else slot._replace(route=slot.route | TOP_BIT, write=255) for slot in slots], entries(seed, 20, 2)


def no_slot(seed):
    return [], each_sort(seed)


def too_many_slots(seed):
    count = seed.pick((65, 65, 66))
    return good(seed, count, seed.within(0, count)), each_sort(seed)


def too_many_and_broken(seed):
    slots = seed.pick(BREAKS)(seed)
    return slots + [FREE] * (65 - len(slots)), each_sort(seed)


def broken(way):
    def history(seed):
        return way(seed), each_sort(seed)
    history.__name__ = way.__name__
    return history


CLASSES = (small, large, of_any_size, one_four, going_on, full, free_with_top_bit, no_slot, too_many_slots, too_many_and_broken,
           *map(broken, BREAKS))


def generate(seed):
    """Class, slots and entries of one history after the other, each class in turn, without end."""
    source = Seed(seed)
    while True:
        for make in CLASSES:
            yield make.__name__.replace("_", " "), *make(source)


# Short ones, all of them

def letters():
    """Two reads and a write that waits like the first, their responses, and the first response dropped."""
    first = {"kind": 1, "dropped": 0, "domain": 0, "route": 0x301, "seq": 1}
    listed = [first, {**first, "seq": 2}, {**first, "kind": 3}]
    listed += [{**made, "kind": made["kind"] + 1, "route": made["route"] + TOP_BIT} for made in listed]
    return listed + [{**listed[3], "dropped": 1}]


def all_tables():
    """All ranks of 0 to 4 in up to three slots; none, or one of the slots with a top bit, or that neither reads nor writes."""
    for count in (1, 2, 3):
        for ranks in product(range(5), repeat=count):
            slots = [Slot(0x301, 0, 1, 0, rank) for rank in ranks]
            yield slots
            for place in range(count):
                yield changed(slots, place, route=0x301 + TOP_BIT)
                yield changed(slots, place, write=2)


def all_short(length):
    """Every history of so many letters over 1 to 3 slots, from nothing; and every letter for each small table."""
    for count in (1, 2, 3):
        for listed in product(letters(), repeat=length):
            yield "all short", [FREE] * count, list(listed)
    for slots in all_tables():
        for made in letters():
            yield "all small tables", slots, [made]


# Files

def encoded(slots, listed):
    """A history's bytes: how many slots and entries there are, the slots, the entries."""
    return struct.pack("<HH", len(slots), len(listed)) + b"".join(SLOT.pack(*slot) for slot in slots) + b"".join(
        ENTRY.pack(*(made[name] for name in NAMES)) for made in listed)


def main():
    parser = argparse.ArgumentParser(description=__doc__, formatter_class=argparse.RawDescriptionHelpFormatter)
    parser.add_argument("--seed", type=int, default=1)
    parser.add_argument("--count", type=int, default=1000)
    parser.add_argument("out")
    asked = parser.parse_args()
    classes = Counter()
    with open(asked.out, "wb") as out:
        for name, slots, listed in islice(generate(asked.seed), asked.count):
            classes[name] += 1
            out.write(frame(encoded(slots, listed)))
    for name, count in sorted(classes.items()):
        print(f"{name}: {count}")


if __name__ == "__main__":
    main()
