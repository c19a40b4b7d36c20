"""Lines for timing beside the kernel-like ones of oracle/generate/lines.py: long ones, and short ones that are refused. lines.py FOLDER"""

import os
import sys
from pathlib import Path

sys.dont_write_bytecode = True
sys.path.insert(0, os.path.join(os.path.dirname(os.path.abspath(__file__)), "..", "oracle"))

from generate import parts
from generate.seed import Seed, frame

SEED = 7
LONG = 5_000
REFUSED_EACH = 5_000
# The numbers that refuse a short line: a part of the header, or a key of the payload.
HEADER_FAULTS = (4, 5, 6, 7, 8, 9)
KEY_FAULTS = dict(zip((11, 12, 13, 14, 15), parts.REQUIRED))
# Tasks without a dash, so that a line without a pid has no task.
TASKS = (b"fwd", b"bolt.d", b"<...>", b"swapper/0")
TYPES = [b"TB_CFG_PKG_" + name for name in (b"READ", b"WRITE", b"ERROR", b"EVENT")]


def long(seed):
    """As the kernel prints it, with 60 to 250 dwords of eight digits; fewer more often, so that a line has some 1,730 bytes on average."""
    found = parts.pairs(seed)
    found[b"data"] = parts.dwords(seed, seed.within(60, seed.within(146, 250)))
    return parts.line(seed, None, found)


def header(seed, fault=None):
    """A header in which the part that the number is about, if one is given, is none."""
    pid = b"-%d" % seed.below(1000)
    cpu = b"[%03d]" % seed.below(64)
    time = b"%d.%06d" % (seed.below(100), seed.below(1_000_000))
    function = seed.pick(parts.FUNCTIONS)
    if fault == 5:
        pid = b""
    elif fault == 6:
        pid = seed.pick((b"-x", b"-4294967296"))
    elif fault == 7:
        cpu = cpu[1:-1]
    elif fault == 8:
        time = time.replace(b".", b" ")
    elif fault == 9:
        function += b"."
    return b"%s%s %s d..1. %s: %s" % (seed.pick(TASKS), pid, cpu, time, function)


def needed(seed):
    """The keys that an entry needs."""
    return {
        b"type": seed.pick(TYPES), b"size": b"%d" % seed.within(1, 9), b"domain": b"%d" % seed.below(2), b"route": b"%x" % seed.below(4),
        b"data": b"[0x%x]" % seed.below(16)}


def faulty_header(seed, number):
    """A header of whose parts one is none, and two to four of the needed keys; for 4 the whole without its colons."""
    found = dict(list(needed(seed).items())[:seed.within(2, 4)])
    text = parts.line(seed, header(seed, number), found)
    return text.replace(b":", b"") if number == 4 else text


def faulty_key(seed, number):
    """A good header, and one of the needed keys missing, or unreadable and no `data` behind it; a type is never unreadable."""
    found, key = needed(seed), KEY_FAULTS[number]
    if key == b"type" or seed.one_in(2):
        del found[key]
    else:
        del found[b"data"]
        found[key] = b"1" if key == b"data" else seed.pick((b"z", b"0x"))
    return parts.line(seed, header(seed), found)


def refused(seed):
    """A short line for each number, in any order, so that none can be foreseen."""
    for number in seed.shuffled((*HEADER_FAULTS, *KEY_FAULTS)):
        yield (faulty_header if number in HEADER_FAULTS else faulty_key)(seed, number)


def main(folder):
    folder = Path(folder)
    folder.mkdir(parents=True, exist_ok=True)
    seed = Seed(SEED)
    (folder / "long.bin").write_bytes(b"".join(frame(long(seed)) for _ in range(LONG)))
    seed = Seed(SEED)
    (folder / "refused.bin").write_bytes(b"".join(frame(line) for _ in range(REFUSED_EACH) for line in refused(seed)))


main(sys.argv[1])
