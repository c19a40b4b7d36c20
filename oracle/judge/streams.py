"""Streams in many cuts through the linked library beside the reading. Parts are fed, and all is compared, by the C program of tests/stream."""

import ctypes
import os
import struct
import subprocess
import tempfile
import time
from collections import Counter
from contextlib import suppress
from itertools import islice

from generate import streams as generator
from generate.streams import Cut, Source
from judge.native import FIELDS, NONE, OPTIONAL, TOP
from reading import stream
from reading.texts import Refused

# States for each so many streams.
EACH_STATE = 2
# Answers that are remembered, since many units come again.
MOST_KNOWN = 40_000


def program():
    """The program that feeds, linked with the archive."""
    built = subprocess.run([os.path.join(TOP, "tests", "archive")], check=True, stdout=subprocess.PIPE, text=True)
    archive = os.path.join(built.stdout.rstrip("\n"), "libcapi.a")
    folder = os.path.join(TOP, "target", "tests")
    os.makedirs(folder, exist_ok=True)
    path = os.path.join(folder, "stream")
    sources = [os.path.join(TOP, "tests", "stream", name) for name in ("feed.c", "fed.c")]
    subprocess.run([os.environ.get("CC", "cc"), "-std=c11", "-Wall", "-Wextra", "-Werror", "-O2", "-I" + os.path.join(TOP, "include"), "-o", path,
                    *sources, archive], check=True)
    return path


# Cases: a length of four bytes, 0 for a stream and 1 for a state, and then as tests/stream/feed.c takes them

WIDTHS = {ctypes.c_uint8: "B", ctypes.c_uint16: "H", ctypes.c_uint32: "I", ctypes.c_uint64: "Q", ctypes.c_size_t: "Q"}
ENTRY = struct.Struct("<" + "".join(WIDTHS[kind] for _, _, kind in FIELDS))
UNIT = struct.Struct("<IBBB")


def flat(made):
    """The fields in the header's order."""
    return ENTRY.pack(*(NONE if made[name] is None else made[name] for name, _, _ in FIELDS))


BLANK = flat({name: None if name in OPTIONAL else 0 for name, _, _ in FIELDS})


def entry_bytes(reading, unit, entry):
    """The entry with its places in the unit, and its dwords."""
    task, function = reading.places(unit, entry)
    made = {**entry, "task_at": task, "task_len": len(entry["task"]), "function_at": function, "function_len": len(entry["function"]),
            "dwords": len(entry["data"])}
    return flat(made) + struct.pack(f"<{len(entry['data'])}I", *entry["data"])


def case(body):
    return struct.pack("<I", len(body)) + body


def text(name):
    return bytes([len(name)]) + name.encode()


class Judge:
    """What a reading says of streams, as cases."""

    def __init__(self, reading=stream):
        self.reading, self.known = reading, {}

    def says(self, unit, slots, strict):
        """All of a unit but where it ends: what is kept of it at most, and its answer."""
        try:
            number, body = 0, entry_bytes(self.reading, unit, self.reading.read_unit(unit, slots, strict))
        except Refused as refusal:
            number, body = refusal.number, BLANK
        kept, passed = self.reading.kept(unit)
        return UNIT.pack(len(kept), passed > 0, self.reading.is_ended(unit), number) + body

    def unit(self, *given):
        if given not in self.known:
            if len(self.known) >= MOST_KNOWN:
                self.known.clear()
            self.known[given] = self.says(*given)
        return self.known[given]

    def stream(self, name, data, slots, strict, cuts):
        parts, end, units = [], 0, self.reading.units(data)
        for unit in units:
            end += len(unit)
            parts.append(struct.pack("<I", end) + self.unit(unit, slots, strict))
        head = struct.pack("<BHI", strict, slots, len(data)) + data + struct.pack("<I", len(units))
        behind = struct.pack("<I", len(cuts)) + b"".join(struct.pack("<BIQ", *cut) for cut in cuts)
        return case(b"\0" + text(name) + head + b"".join(parts) + behind)

    def state(self, source, name, held, passed, rest):
        """A state as it is; one that is left goes on, too, as the stream that leaves it."""
        more, slots = source.unit(generator.LINES + generator.RECORDS), source.pick(generator.SLOTS)
        left = self.reading.is_left(held, passed, rest)
        alone = case(b"\1" + text(name) + struct.pack("<BQQI", left, held, passed, len(rest)) + rest + struct.pack("<I", len(more)) + more
                     + struct.pack("<H", slots))
        if not left or held + passed > stream.MOST_STATED:
            return alone
        going_on = [Cut(generator.RESUMED, held + passed, source.next())]
        return alone + self.stream(f"{name}, left", rest[:held] + bytes(passed) + more, slots, source.one_in(2), going_on)


class Seen:
    """What was given and counted, and the differences that were told."""

    def __init__(self):
        self.start, self.classes, self.counts, self.told = time.monotonic(), Counter(), Counter(), []

    def hear(self, lines):
        for line in lines:
            name, *value = line.split(" ")
            if len(value) == 1 and value[0].isdigit():
                self.counts[name] += int(value[0])
            else:
                self.told.append(line)

    def good(self):
        return self.counts["differences"] == 0 and self.counts["streams"] > 0

    def show(self):
        for name, count in sorted(self.classes.items()):
            print(f"  {name}: {count}")
        for line in self.told:
            print(line)
        for name, count in self.counts.items():
            print(f"{name.replace('_', ' ')}: {count}")
        print(f"seconds: {time.monotonic() - self.start:.0f}")


def all_cases(judge, seen, seed, count, short):
    """All short streams by every cut, all states near a bound, every end of some streams; then so many generated ones, and states beside them."""
    source = Source(seed + 1)
    for number, data in enumerate(generator.all_short(short)):
        seen.classes["all short"] += 1
        yield judge.stream("all short", data, 256, number % 2 == 0, [Cut(generator.EVERY, 0, number)])
    for state in generator.all_states():
        seen.classes["all states"] += 1
        yield judge.state(source, "all states", *state)
    for number, data in enumerate(generator.all_ends(source)):
        seen.classes["all ends"] += 1
        cuts = (generator.SINGLE, generator.BYTES) if len(data) < 1000 else (generator.AROUND, generator.CHANCE)
        yield judge.stream("all ends", data, 256, number % 2 == 0, [Cut(way, 60, number) for way in cuts])
    states = generator.states(seed + 2)
    for number, (name, data) in enumerate(islice(generator.generate(seed), count)):
        seen.classes[name] += 1
        strict, slots = generator.lent(source)
        yield judge.stream(name, data, slots, strict, generator.cuts(source, data))
        if number % EACH_STATE == 0:
            sort, *state = next(states)
            seen.classes[sort] += 1
            yield judge.state(source, sort, *state)


def feed(path, cases, seen, most=None):
    """Gives the cases to the program and hears what it tells; it ends earlier with `most` differences."""
    with tempfile.TemporaryFile("w+") as said:
        with subprocess.Popen([path, *map(str, [most] if most else [])], stdin=subprocess.PIPE, stdout=said) as run:
            try:
                with suppress(BrokenPipeError):
                    for each in cases:
                        run.stdin.write(each)
            finally:
                with suppress(BrokenPipeError):
                    run.stdin.close()
        said.seek(0)
        seen.hear(said.read().splitlines())
    if run.returncode:
        seen.told.append(f"the program ended with {run.returncode}")
        seen.counts["differences"] += 1
    return seen


def compare(seed, count, short=4, reading=stream, path=None, most=None):
    seen = Seen()
    return feed(path or program(), all_cases(Judge(reading), seen, seed, count, short), seen, most)
