"""Packets over a book: descriptions, UUID, data view and every question."""

from reading.book import HEADER, read_book
from reading.texts import Refused, listed, or_none

MOST_DWORDS = 256
READ, WRITE, INTER_DOMAIN = (1, 2), (3, 4), (8, 9)
VIEWED = (2, 3)

ASKED = [
    b"UUID", b"Packet Type", b"Adapter Num", b"Address", b"Offset", b"Read Size", b"Write Size",
    b"Properties Block Size", b"Properties Block Generation"]


def check(book, kind, dwords, places):
    """Numbers 21 to 26, in their order."""
    if kind == 0:
        raise Refused(21)
    if kind not in book.control:
        raise Refused(22)
    if kind in INTER_DOMAIN and HEADER not in book.protocol:
        raise Refused(23)
    if len(dwords) > MOST_DWORDS:
        raise Refused(24)
    if kind in VIEWED and len(dwords) < len(book.control[kind]):
        raise Refused(25)
    if places is not None and places < len(dwords):
        raise Refused(26)


def first(items, fits):
    for item in items:
        if fits(item):
            return item
    return None


def range_named(entry, name):
    """Of one name the first counts."""
    return first(entry.ranges, lambda r: r.name == name) if entry else None


class Packet:
    """A packet and its descriptions, one or none a dword."""

    def __init__(self, book, kind, dwords):
        self.book, self.kind, self.dwords = book, kind, dwords
        self.control = book.control[kind]
        self.uuid = None
        self.entries = [
            first(self.control, lambda e: e.offset == i) for i in range(len(dwords))]
        if kind in INTER_DOMAIN:
            self.header_step()
            self.uuid = self.gathered(b"UUID")
            if self.uuid in book.protocol:
                self.protocol_step(book.protocol[self.uuid])

    def header_step(self):
        table = self.book.protocol[HEADER]
        for i, entry in enumerate(self.entries):
            if entry is None:
                self.entries[i] = first(table, lambda e: e.offset == i and e.type is None)

    def gathered(self, name):
        """The values of the fields of that name, if there are exactly four."""
        values = [d for d, e in zip(self.dwords, self.entries) if e and e.name == name]
        return tuple(values) if len(values) == 4 else None

    def protocol_step(self, table):
        latched = None
        for i, dword in enumerate(self.dwords):
            there = [entry for entry in table if entry.offset == i]
            found = first(there, lambda e: e.type == latched) \
                or first(there, lambda e: e.type is None)
            if found is None:
                continue
            if self.entries[i] is None:
                self.entries[i] = found
            if latched is None:
                chosen = range_named(self.entries[i], b"Packet Type")
                if chosen:
                    latched = chosen.values.get(chosen.value(dword))

    def index_named(self, name):
        """The first dword whose description has the name."""
        return first(range(len(self.dwords)),
                     lambda i: self.entries[i] and self.entries[i].name == name)

    def index_with(self, name):
        """The first dword whose description has a range of the name."""
        return first(range(len(self.dwords)), lambda i: range_named(self.entries[i], name))

    def asked(self, name, bits):
        """The value of the first range of the name, cut to so many bits."""
        index = self.index_with(name)
        if index is None:
            return None
        return range_named(self.entries[index], name).value(self.dwords[index]) % 2**bits

    def route(self):
        if len(self.dwords) < 2:
            raise Refused(27)
        return self.dwords[0] * 2**32 + self.dwords[1]

    def cm(self):
        return self.route() // 2**63

    def packet_type(self):
        index = self.index_with(b"Packet Type")
        if index is None:
            return None
        chosen = range_named(self.entries[index], b"Packet Type")
        value = chosen.value(self.dwords[index])
        if value not in chosen.values:
            raise Refused(28)
        return value, chosen.values[value]

    def address(self):
        return self.asked(b"Offset" if self.kind in INTER_DOMAIN else b"Address", 16)

    def size(self):
        for kinds, name in (
                (READ, b"Read Size"), (WRITE, b"Write Size"),
                (INTER_DOMAIN, b"Properties Block Size")):
            if self.kind in kinds:
                return self.asked(name, 16)
        return None

    def start(self):
        """Where the data view begins, none if there is no view."""
        if self.kind in VIEWED:
            return len(self.control)
        if self.kind in INTER_DOMAIN:
            index = self.index_with(b"Properties Block Generation")
            return None if index is None else index + 1
        return None


def uuid_text(uuid):
    return or_none(uuid and ".".join(f"{dword:08x}" for dword in uuid))


def hex_or_none(name):
    return or_none(name.hex() if name else None)


def or_refused(ask):
    try:
        return or_none(ask())
    except Refused as refusal:
        return f"refused{refusal.number}"


def type_text(packet):
    found = packet.packet_type()
    return found and f"{found[0]}:{found[1].hex()}"


def field_text(index, entry, dword):
    text = f"{index}:{hex_or_none(entry.name)}"
    for part in entry.ranges:
        value = part.value(dword)
        text += f";{part.low}-{part.high}={value}:{hex_or_none(part.values.get(value))}"
    return text


def asked_names(book):
    return ASKED + [name for name in book.names if name not in ASKED]


def printed(packet):
    """Every answer as one text line; README.md has its grammar."""
    start, kind = packet.start(), packet.kind
    described = [each for each in zip(range(256), packet.entries, packet.dwords) if each[1]]
    parts = {
        "n": len(packet.control),
        "places": listed(str(e.place if e else 0) for e in packet.entries),
        "sources": "".join(e.source if e else "-" for e in packet.entries) or "-",
        "uuid": uuid_text(packet.uuid),
        "route": or_refused(packet.route),
        "cm": or_refused(packet.cm),
        "adapter": or_none(packet.asked(b"Adapter Num", 8)),
        "address": or_none(packet.address()),
        "start": or_none(start),
        "size": or_none(packet.size()),
        "view": "-" if start is None else f"{start}+{len(packet.dwords) - start}",
        "read": int(kind in READ),
        "write": int(kind in WRITE),
        "xdomain": int(kind in INTER_DOMAIN),
        "type": or_refused(lambda: type_text(packet)),
        "fields": listed(field_text(*each) for each in described),
        "asked": listed(
            f"{uuid_text(packet.gathered(name))}:{or_none(packet.index_named(name))}"
            f":{or_none(packet.index_with(name))}" for name in asked_names(packet.book)),
    }
    return "packet " + " ".join(f"{key}={value}" for key, value in parts.items())


def answer(data, kind, dwords, places=None):
    """The answer for the bytes of a book; `places` is the length of the lent place list."""
    try:
        return answer_over(read_book(data), kind, dwords, places)
    except Refused as refusal:
        return f"refused {refusal.number}"


def answer_over(book, kind, dwords, places=None):
    """The same for a book already read."""
    try:
        check(book, kind, dwords, places)
        return printed(Packet(book, kind, dwords))
    except Refused as refusal:
        return f"refused {refusal.number}"
