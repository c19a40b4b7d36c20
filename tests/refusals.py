"""The table of document 01's numbers, refusals.txt."""

import collections
import os

TOP = os.path.join(os.path.dirname(os.path.abspath(__file__)), "..")

Row = collections.namedtuple("Row", "number name sentence")


def table():
    with open(os.path.join(TOP, "refusals.txt"), encoding="ascii") as file:
        rows = [line.rstrip("\n").split(" ", 2) for line in file if not line.startswith("#")]
    return [Row(int(number), name, sentence) for number, name, sentence in rows]
