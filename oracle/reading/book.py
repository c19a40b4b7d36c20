"""The book's grammar: bytes to tables, or 20."""

from dataclasses import dataclass, field

from reading.texts import Refused

LONGEST = 65_535
HEADER = (0, 0, 0, 0)


@dataclass
class Range:
    low: int
    high: int
    name: bytes
    values: dict = field(default_factory=dict)

    def value(self, dword):
        """The dword shifted down by the low bit, cut to the width."""
        return dword // 2**self.low % 2**(self.high - self.low + 1)


@dataclass
class Entry:
    place: int
    source: str
    offset: int
    name: bytes = None
    type: bytes = None
    ranges: list = field(default_factory=list)


@dataclass
class Book:
    control: dict = field(default_factory=dict)
    protocol: dict = field(default_factory=dict)
    # Every name, once each, in the order of the places; a dictionary keeps that order.
    names: dict = field(default_factory=dict)


def demand(holds):
    if not holds:
        raise Refused(20)


class Reader:
    """Goes through the book once, in the order of its bytes."""

    def __init__(self, data):
        self.data = data
        self.book = Book()

    def number(self, start, end, width):
        """A number of so many bytes, which must lie before `end`."""
        demand(start + width <= end)
        return int.from_bytes(self.data[start:start + width], "little")

    def fields(self, start, end):
        """Tag, place and bounds of the body, for each field that fills the bytes."""
        while start < end:
            demand(start + 3 <= end)
            body = start + 3
            stop = body + self.number(start + 1, end, 2)
            demand(stop <= end)
            yield self.data[start], start, body, stop
            start = stop

    def name(self, start, end):
        text = self.data[start:end]
        demand(1 <= len(text) <= 255)
        demand(all(byte < 128 for byte in text))
        self.book.names[text] = True
        return text

    def read(self):
        demand(len(self.data) <= LONGEST)
        for tag, _, start, end in self.fields(0, len(self.data)):
            demand(tag in (1, 2))
            if tag == 1:
                self.control_table(start, end)
            else:
                self.protocol_table(start, end)
        return self.book

    def control_table(self, start, end):
        kind = self.number(start, end, 1)
        demand(1 <= kind <= 12)
        demand(kind not in self.book.control)
        self.book.control[kind] = self.entries(start + 1, end, "c")

    def protocol_table(self, start, end):
        uuid = tuple(self.number(start + 4 * i, end, 4) for i in range(4))
        demand(uuid not in self.book.protocol)
        source = "h" if uuid == HEADER else "p"
        self.book.protocol[uuid] = self.entries(start + 16, end, source)

    def entries(self, start, end, source):
        found, seen = [], set()
        for tag, place, body, stop in self.fields(start, end):
            demand(tag == 3)
            entry = self.entry(place, body, stop, source)
            demand((entry.offset, entry.type) not in seen)
            seen.add((entry.offset, entry.type))
            found.append(entry)
        return found

    def entry(self, place, start, end, source):
        entry = Entry(place, source, self.number(start, end, 2))
        latest = 3
        for tag, _, body, stop in self.fields(start + 2, end):
            # At most one 4, then at most one 5, then 6s.
            demand(tag in (4, 5, 6) and (tag > latest or tag == latest == 6))
            latest = tag
            if tag == 4:
                entry.name = self.name(body, stop)
            elif tag == 5:
                entry.type = self.name(body, stop)
            else:
                entry.ranges.append(self.range(body, stop))
        return entry

    def range(self, start, end):
        low, high = self.number(start, end, 1), self.number(start + 1, end, 1)
        demand(low <= high <= 31)
        found = None
        for tag, _, body, stop in self.fields(start + 2, end):
            if found is None:
                demand(tag == 4)
                found = Range(low, high, self.name(body, stop))
                continue
            demand(tag == 7)
            value = self.number(body, stop, 4)
            demand(value not in found.values)
            found.values[value] = self.name(body + 4, stop)
        demand(found is not None)
        return found


def read_book(data):
    return Reader(data).read()


def answer(data):
    try:
        read_book(data)
    except Refused as refusal:
        return f"refused {refusal.number}"
    return "accepted"
