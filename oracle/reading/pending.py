"""Requests and responses, document 02 a): a list of what waits, the oldest first, and a table of slots that says the same by ranks."""

import struct
from collections import namedtuple

from reading.texts import Refused

MOST_SLOTS = 64
TOP_BIT = 2**63

# Kind to read (0) or write (1).
REQUESTS = {1: 0, 3: 1}
RESPONSES = {2: 0, 4: 1}

Slot = namedtuple("Slot", "route domain seq write rank")
FREE = Slot(0, 0, 0, 0, 0)


def four_in(slot):
    return slot[:4]


def four_of(entry):
    """Domain, route without its top bit, `seq`, and read or write."""
    way = {**REQUESTS, **RESPONSES}[entry["kind"]]
    return entry["route"] % TOP_BIT, entry["domain"], entry["seq"], way


def is_good(slot):
    """What is asked of a waiting slot by itself: a route without its top bit, and a read or a write."""
    return slot.route < TOP_BIT and slot.write in (0, 1)


def queue(slots):
    """The places of the waiting slots, the oldest first; or `Refused`: 50, then 51."""
    if not 1 <= len(slots) <= MOST_SLOTS:
        raise Refused(50)
    waiting = sorted((slot.rank, place) for place, slot in enumerate(slots) if slot.rank != 0)
    if [rank for rank, _ in waiting] != list(range(1, len(waiting) + 1)):
        raise Refused(51)
    if not all(is_good(slots[place]) for _, place in waiting):
        raise Refused(51)
    return [place for _, place in waiting]


def with_ranks(slots, waiting):
    """The slots, ranked as the list has them; who is not in it is free."""
    ranks = {place: rank for rank, place in enumerate(waiting, 1)}
    return [Slot(*four_in(slot), ranks.get(place, 0)) for place, slot in enumerate(slots)]


def take(four, slots, waiting):
    free = [place for place, slot in enumerate(slots) if slot.rank == 0]
    if not free:
        return "turned away", 0, slots
    place = free[0]
    slots = [*slots[:place], Slot(*four, 0), *slots[place + 1:]]
    return "taken", place, with_ranks(slots, waiting + [place])


def free_oldest(four, slots, waiting):
    same = [place for place in waiting if four_in(slots[place]) == four]
    if not same:
        return "stray", 0, slots
    place = same[0]
    return "answered", place, with_ranks(slots, [other for other in waiting if other != place])


def step(entry, slots):
    """The report's word, its place (0 where it has none) and the slots behind it; or `Refused`."""
    waiting = queue(slots)
    if entry["dropped"]:
        return "dropped", 0, slots
    if entry["kind"] not in (1, 2, 3, 4):
        return "other", 0, slots
    if entry["seq"] is None:
        return "no seq", 0, slots
    four = four_of(entry)
    if entry["kind"] in REQUESTS:
        return take(four, slots, waiting)
    return free_oldest(four, slots, waiting)


def on_list(entry, waiting, most):
    """The word, and the list behind it, of a plain list of fours that is cut to so many."""
    if entry["dropped"]:
        return "dropped", waiting
    if entry["kind"] not in (1, 2, 3, 4):
        return "other", waiting
    if entry["seq"] is None:
        return "no seq", waiting
    four = four_of(entry)
    if entry["kind"] in REQUESTS:
        kept = (waiting + [four])[:most]
        return ("taken" if len(kept) > len(waiting) else "turned away"), kept
    if four not in waiting:
        return "stray", waiting
    at = waiting.index(four)
    return "answered", waiting[:at] + waiting[at + 1:]


# Histories: how many slots and entries there are, the slots, the entries as C hands them over

SLOT = struct.Struct("<QIBBI")
ENTRY = struct.Struct("<BBIQI")
NAMES = "kind", "dropped", "domain", "route", "seq"


def decoded(data):
    """Slots and entries of a history's bytes."""
    count, steps = struct.unpack_from("<HH", data)
    middle = 4 + count * SLOT.size
    slots = [Slot(*parts) for parts in SLOT.iter_unpack(data[4:middle])]
    listed = [dict(zip(NAMES, parts)) for parts in ENTRY.iter_unpack(data[middle:])]
    if len(listed) != steps:
        raise ValueError("a history has another number of entries than it says")
    return slots, listed


def heard(made):
    """The entry that C's fields stand for: `dropped` counts if it is 1, and a `seq` past its width is absent."""
    return {**made, "dropped": made["dropped"] == 1, "seq": made["seq"] if made["seq"] < 256 else None}


def row(word, place, waiting):
    """A step's row: its report, with the place of a slot that is taken or answered, and where those that wait lie, the oldest first."""
    at = f" {place}" if word in ("taken", "answered") else ""
    return f"{word}{at} | {' '.join(map(str, waiting)) or '-'}"


def table_row(slots):
    return "table " + (" ".join(".".join(map(str, slot)) for slot in slots) or "-")


def answer(data):
    """The rows of a history: one a step, and the table behind the last."""
    slots, listed = decoded(data)
    rows = []
    for made in listed:
        try:
            word, place, slots = step(heard(made), slots)
        except Refused as refusal:
            rows.append(f"refused {refusal.number}")
            continue
        waiting = sorted((slot.rank, at) for at, slot in enumerate(slots) if slot.rank)
        rows.append(row(word, place, [at for _, at in waiting]))
    return "\n".join(rows + [table_row(slots)])
