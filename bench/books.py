"""Books for timing the check: the largest plain one, and the worst we know of each sort. books.py FOLDER"""

import struct
import sys
from pathlib import Path

MOST = 65535


def field(tag, body):
    return bytes([tag]) + struct.pack("<H", len(body)) + body


def fill(outer, one, room):
    """As many of `one(i)` as fit into `room` bytes, inside the field that `outer` makes."""
    parts, size, i = [], 0, 0
    while True:
        part = one(i)
        if size + len(part) > room:
            return outer(b"".join(parts))
        parts.append(part)
        size += len(part)
        i += 1


def untyped_entries(room=MOST - 4):
    return fill(lambda body: field(1, b"\1" + body), lambda i: field(3, struct.pack("<H", i)), room)


def typed_entries(room=MOST - 4):
    """All of one offset, so that each is sought among those before it."""
    name = lambda i: bytes([1 + i % 127, 1 + i // 127])
    return fill(lambda body: field(1, b"\1" + body), lambda i: field(3, b"\0\0" + field(5, name(i))), room)


def uuid_tables(room=MOST):
    """Alike in three dwords, so that each comparison goes to the last."""
    return fill(lambda body: body, lambda i: field(2, struct.pack("<4I", 0, 0, 0, i)), room)


def values(room=MOST - 3 - 1 - 3 - 2 - 3 - 2 - 4):
    made = lambda body: field(1, b"\1" + field(3, b"\0\0" + field(6, b"\0\x1f" + field(4, b"n") + body)))
    return fill(made, lambda i: field(7, struct.pack("<I", i) + b"v"), room)


def main(folder):
    folder = Path(folder)
    folder.mkdir(parents=True, exist_ok=True)
    for make in (untyped_entries, typed_entries, uuid_tables, values):
        (folder / f"{make.__name__}.book").write_bytes(make())
    (folder / "typed_entries_half.book").write_bytes(typed_entries(MOST // 2))


main(sys.argv[1])
