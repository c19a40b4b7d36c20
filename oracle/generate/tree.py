"""A book as a tree of fields, so that a rule can be broken at one place."""

from dataclasses import dataclass, field


@dataclass
class Node:
    """A field: its tag, the bytes that begin its body, and the fields behind them."""

    tag: int
    prefix: bytes = b""
    inner: list = field(default_factory=list)

    def encoded(self):
        body = self.prefix + b"".join(node.encoded() for node in self.inner)
        return bytes([self.tag]) + (len(body) % 65536).to_bytes(2, "little") + body

    def size(self):
        return 3 + len(self.prefix) + sum(node.size() for node in self.inner)

    def walk(self):
        """Every field of the tree with the list it stands in."""
        for node in self.inner:
            yield node, self.inner
            yield from node.walk()


def control(kind, entries=()):
    return Node(1, bytes([kind]), list(entries))


def protocol(uuid, entries=()):
    return Node(2, b"".join(dword.to_bytes(4, "little") for dword in uuid), list(entries))


def entry(offset, name=None, packet_type=None, ranges=()):
    inner = []
    if name is not None:
        inner.append(Node(4, name))
    if packet_type is not None:
        inner.append(Node(5, packet_type))
    return Node(3, offset.to_bytes(2, "little"), inner + list(ranges))


def bits(low, high, name, values=()):
    """A range; `values` are pairs of value and name."""
    named = [Node(7, value.to_bytes(4, "little") + text) for value, text in values]
    return Node(6, bytes([low, high]), [Node(4, name)] + named)


def encoded(top):
    """The bytes of a book from its tables."""
    return b"".join(node.encoded() for node in top)
