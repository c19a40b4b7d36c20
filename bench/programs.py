"""Processor time of whole programs: programs.py ROOM PROGRAMS BOOK

ROOM holds lines.bin, frames of kernel-like lines, which are repeated to some 200 MB of text; the text and its records are there for as long as this runs.
PROGRAMS is the folder of the programs. A file in, /dev/null out, user and system time, the best of three. Prints a table; ends with 1 where a program fails.
"""

import os
import sys
from pathlib import Path

sys.dont_write_bytecode = True
sys.path.insert(0, os.path.join(os.path.dirname(os.path.abspath(__file__)), "..", "oracle"))

from generate.seed import frames

BYTES = 200_000_000
ROUNDS = 3
NOWHERE = "/dev/null"


def write_text(made, path):
    """The lines of the frames, each with one newline, again and again; returns how many there are."""
    some = [line.rstrip(b"\n") + b"\n" for line in frames(made.read_bytes())]
    part = b"".join(some)
    times = -(-BYTES // len(part))
    with open(path, "wb") as file:
        for _ in range(times):
            file.write(part)
    return times * len(some)


def spent(words, given, to=NOWHERE):
    """Seconds of user and system time that a command takes from one file to another."""
    def opened(descriptor, path, how):
        return os.POSIX_SPAWN_OPEN, descriptor, path, how, 0o666
    new = os.O_WRONLY | os.O_CREAT | os.O_TRUNC
    child = os.posix_spawn(words[0], words, os.environ, file_actions=[
        opened(0, given, os.O_RDONLY), opened(1, to, new), opened(2, NOWHERE, os.O_WRONLY)])
    _, code, used = os.wait4(child, 0)
    if code:
        sys.exit(f"programs: {' '.join(words)} fails")
    return used.ru_utime + used.ru_stime


def main(room, programs, book):
    room = Path(room)
    text, records = room / "lines.txt", room / "records.bin"
    count = write_text(room / "lines.bin", text)

    def called(name, *words):
        return [os.path.join(programs, name), *words]

    spent(called("pack"), text, records)
    print("| program | given | MB | processor time, s | MB a second |\n|---|---|---|---|---|")
    for name, words, given, what in (
            ("listing", (), text, f"{count:,} kernel-like lines"), ("pack", (), text, "the same"),
            ("unpack", (), records, "what `pack` makes of them"), ("show", (book,), text, f"the lines, over {book}")):
        size = os.path.getsize(given) / 1e6
        best = min(spent(called(name, *words), given) for _ in range(ROUNDS))
        print(f"| `{name}` | {what} | {size:,.1f} | {best:.2f} | {size / best:,.0f} |", flush=True)
    for made in (text, records):
        made.unlink()


main(*sys.argv[1:])
