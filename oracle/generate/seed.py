"""Numbers from a seed, the same with every Python, and files of frames."""

import struct

MASK = 2**64 - 1


class Seed:
    """splitmix64. The library's own generator may change from one Python to the next."""

    def __init__(self, seed):
        self.state = seed & MASK

    def next(self):
        self.state = (self.state + 0x9E3779B97F4A7C15) & MASK
        mixed = self.state
        mixed = ((mixed ^ (mixed >> 30)) * 0xBF58476D1CE4E5B9) & MASK
        mixed = ((mixed ^ (mixed >> 27)) * 0x94D049BB133111EB) & MASK
        return mixed ^ (mixed >> 31)

    def below(self, limit):
        return self.next() % limit

    def within(self, low, high):
        """From `low` to `high`, both counted."""
        return low + self.below(high - low + 1)

    def pick(self, items):
        return items[self.below(len(items))]

    def one_in(self, chances):
        return self.below(chances) == 0

    def several(self, low, high, make):
        return [make(self) for _ in range(self.within(low, high))]

    def shuffled(self, items):
        items = list(items)
        for at in range(len(items) - 1, 0, -1):
            other = self.below(at + 1)
            items[at], items[other] = items[other], items[at]
        return items


def frame(body):
    return struct.pack("<I", len(body)) + body


def frames(data):
    """The bodies of a file of frames."""
    at = 0
    while at < len(data):
        length, = struct.unpack_from("<I", data, at)
        if at + 4 + length > len(data):
            raise ValueError("a frame is cut short")
        yield data[at + 4:at + 4 + length]
        at += 4 + length
