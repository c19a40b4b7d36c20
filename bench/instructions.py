"""The tables of `bench/run instructions`: instructions.py ROWS COUNTS, what bench/instructions printed and callgrind's files COUNTS.1, COUNTS.2 .., one for
each reader of each row."""

import re
import sys
from pathlib import Path

# The readers behind the Rust, in their order, and the names of their columns.
OTHERS = {"strict": "`ck_parse`", "lenient": "`ck_parse_lenient`", "by hand": "by hand"}
READERS = 1 + len(OTHERS)


def total(path):
    return int(re.search(r"^totals: (\d+)", path.read_text(), re.MULTILINE)[1])


def rows(printed, counts):
    """Name, bytes, lines and instructions a line of the Rust, strict, lenient and the reader by hand."""
    for at, text in enumerate(Path(printed).read_text().splitlines()):
        name, size, lines = text.split("\t")
        numbers = (1 + READERS * at + reader for reader in range(READERS))
        yield name, int(size), int(lines), [total(Path(f"{counts}.{number}")) / int(lines) for number in numbers]


def times(found):
    """The Rust's count, and each of the others with the Rust's over it."""
    rust, *others = found
    return " | ".join([f"{rust:,.0f}", *(f"{other:,.0f} | {rust / other:.2f}" for other in others)])


def head(first, *last):
    """The names of a table's columns, and the line below them."""
    over = [f"{name} | the Rust's over it" for name in OTHERS.values()]
    names = " | ".join([first, "`Entry::parse`", *over, *last])
    return f"| {names} |\n|{'---|' * (1 + names.count('|'))}"


def main(printed, counts):
    found = list(rows(printed, counts))
    print(head("instructions a line | how many"))
    for name, size, lines, each in found:
        if not size:
            print(f"| {name} | {lines:,} | {times(each)} |")
    hostile = [row for row in found if row[1]]
    print("\n" + head("instructions of a line of 4,096 bytes", *(f"{reader} to 2,048 bytes" for reader in OTHERS)))
    for (name, _, _, whole), (_, _, _, half) in zip(hostile[::2], hostile[1::2]):
        grown = " | ".join(f"{one / other:.2f}" for one, other in zip(whole[1:], half[1:]))
        print(f"| {name} | {times(whole)} | {grown} |")


main(*sys.argv[1:])
