"""Records, half good, half damaged at one rule: records.py --seed N --count N OUT."""

import argparse
import os
import struct
import sys

sys.path.insert(0, os.path.dirname(os.path.dirname(os.path.abspath(__file__))))

from generate.seed import Seed
from reading.record import DATA, FUNCTION, MARK, NUMBERS, OPTIONAL, TAGS, TASK, body_of, field

TASK_BYTES = bytes(byte for byte in range(128) if byte != 32)
WORD_BYTES = b"abcdefghijklmnopqrstuvwxyzABCDEFGHIJKLMNOPQRSTUVWXYZ0123456789_"


def text(seed, members, longest):
    size = seed.pick((1, 1, 2, 5, 17, longest)) if longest > 17 else seed.within(1, max(1, longest))
    return bytes(seed.pick(members) for _ in range(size))


def number(seed, width, largest):
    """Often an edge, else any value within the limit."""
    value = seed.pick((0, 1, largest, largest // 2, seed.next()))
    return value % (largest + 1)


def entry(seed):
    """An entry within the record's ranges."""
    made = {}
    made["task"] = text(seed, TASK_BYTES, 4095 if seed.one_in(200) else 30)
    made["function"] = text(seed, WORD_BYTES, min(4096 - len(made["task"]), 4096 if seed.one_in(200) else 20))
    for tag, (name, width, largest) in NUMBERS.items():
        absent = tag in OPTIONAL and seed.one_in(2)
        made[name] = None if absent else number(seed, width, largest)
    count = seed.pick((0, 1, 2, 3, 8, 255, 256)) if seed.one_in(20) else seed.below(6)
    made["data"] = [seed.next() % 2**32 for _ in range(count)]
    return made


def fields(made):
    """Tag and body of each field that is there."""
    bodies = [(tag, body_of(made, tag)) for tag in TAGS]
    return [[tag, body] for tag, body in bodies if body is not None]


def framed(listed):
    return field(MARK, b"".join(field(tag, body) for tag, body in listed))


def swap(seed, listed):
    """Two neighbours change places."""
    at = seed.below(len(listed) - 1)
    listed[at], listed[at + 1] = listed[at + 1], listed[at]
    return framed(listed)


def repeat(seed, listed):
    """A field stands twice."""
    at = seed.below(len(listed))
    listed.insert(at, list(listed[at]))
    return framed(listed)


def leave_out(seed, listed):
    """A field is missing, and sometimes another's body is wrong too."""
    del listed[seed.below(len(listed))]
    return wrong_body(seed, listed) if seed.one_in(3) else framed(listed)


def unknown_tag(seed, listed):
    """A tag that no record has."""
    listed.insert(seed.below(len(listed) + 1), [seed.pick((0, 0x14, 0x15, 0xA1, 0xFF)), b""])
    return framed(listed)


def wrong_body(seed, listed):
    """A body too short, too long, out of range or with a byte changed."""
    at = seed.below(len(listed))
    tag, body = listed[at]
    way = seed.below(4)
    if way == 0:
        body = body[:-1]
    elif way == 1:
        body = body + bytes([seed.below(256)])
    elif way == 2 and tag in NUMBERS:
        name, width, largest = NUMBERS[tag]
        body = ((largest + 1) % 2**(8 * width)).to_bytes(width, "little")
    elif way == 2 and tag == DATA:
        body = bytes(4 * 257)
    else:
        body = bytes(seed.below(256) for _ in body)
    listed[at][1] = body
    return framed(listed)


def long_texts(seed, listed):
    """Task and function near 4,096 together."""
    for piece in listed:
        if piece[0] == TASK:
            piece[1] = b"t" * seed.pick((4095, 4094, 2048, 4096, 4097))
        if piece[0] == FUNCTION:
            piece[1] = b"f" * seed.pick((1, 2, 2048, 2049))
    return framed(listed)


def wrong_length(seed, listed):
    """The length of the rest, or of a field, is off."""
    data = bytearray(framed(listed))
    at = seed.pick((1, 2, 4, 5))
    data[at] = (data[at] + seed.pick((1, 255))) % 256
    return bytes(data)


def cut_short(seed, listed):
    """Ends anywhere, the length of the rest made right or not."""
    data = framed(listed)
    data = data[:seed.below(len(data) + 1)]
    if len(data) >= 3 and not seed.one_in(3):
        data = data[:1] + (len(data) - 3).to_bytes(2, "little") + data[3:]
    return data


def any_byte(seed, listed):
    """One byte is another."""
    data = bytearray(framed(listed))
    data[seed.below(len(data))] = seed.below(256)
    return bytes(data)


DAMAGES = (
    swap, repeat, leave_out, unknown_tag, wrong_body, long_texts, wrong_length, cut_short, any_byte)


def record(seed):
    listed = fields(entry(seed))
    return framed(listed) if seed.one_in(2) else seed.pick(DAMAGES)(seed, listed)


def main():
    parser = argparse.ArgumentParser(description=__doc__)
    parser.add_argument("--seed", type=int, default=1)
    parser.add_argument("--count", type=int, default=1000)
    parser.add_argument("out")
    asked = parser.parse_args()
    seed = Seed(asked.seed)
    with open(asked.out, "wb") as out:
        for _ in range(asked.count):
            data = record(seed)
            out.write(struct.pack("<I", len(data)) + data)


if __name__ == "__main__":
    main()
