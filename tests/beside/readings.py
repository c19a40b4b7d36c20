"""Our rows, through the linked archive, against the reading in Python: every field, and every number that document 01 has for it."""

import re
import subprocess
import tempfile
from itertools import chain

from generate import books, broken, lines as generator, packets as packet_generator
from judge import differ
from judge.lines import both, dwords as told_dwords
from judge.tally import Tally, in_parts
from parts import PROGRAM
from reading import line as reading, packet as packet_reading
from reading.book import read_book
from reading.texts import Refused

AT_ONCE = 50_000
PACKETS_A_BOOK = 250
BROKEN_SHARE = 20
BOOKS_AT_ONCE = 50
FEW = 3


def rows(what, parts, count):
    """The program's rows, one an input."""
    with tempfile.TemporaryFile() as given:
        given.writelines(parts)
        given.seek(0)
        done = subprocess.run([PROGRAM, "rows", what], check=True, stdin=given, stdout=subprocess.PIPE)
    said = done.stdout.decode("ascii").splitlines()
    if len(said) != count:
        raise ValueError("the program answered another number of inputs")
    return said


def note(tally, name, given, expected, ours):
    if ours != expected:
        return tally.differ(name, given, expected, ours)
    return tally.same(name, ours if ours.startswith("refused ") else ours.split(" ")[0])


# Lines

def slots(number, said):
    """Slots lent: mostly 256; for some lines hardly any, for some just enough, for some one too few."""
    count = told_dwords(said) if said.startswith("entry ") else 0
    return {3: number // 20 % 4, 9: count, 15: max(count - 1, 0)}.get(number % 20, 256)


def lines(seed, count, short):
    """Each line lenient, then strict."""
    tally = Tally()
    for some in in_parts(generator.generate(seed, count, short), AT_ONCE):
        given = [(name, line, slots(number, reading.answer(line))) for number, (name, line) in enumerate(some)]
        asked = [(line, lent, strict) for _, line, lent in given for strict in (False, True)]
        said = rows("lines", (differ.line_frame(*each) for each in asked), len(asked))
        expected = [reading.answer(line, lent, strict=strict) for line, lent, strict in asked]
        for turn, (name, line, _) in enumerate(given):
            ours, reads = said[2 * turn:2 * turn + 2], expected[2 * turn:2 * turn + 2]
            if ours == reads:
                tally.all_same(name, both(*ours))
            else:
                tally.differ(name, line, reads, ours)
    tally.must_meet("strict refused 18")
    return tally


# Packets

def as_ours(row, kind):
    """No call tells the number of a table's entries, but that the data of kinds 2 and 3 start behind them."""
    return row if kind in (2, 3) else re.sub(r"^packet n=\d+", "packet n=-", row)


def expected_of(data, cases):
    """What the reading says of each packet; the book is read once."""
    try:
        book = read_book(data)
    except Refused as refusal:
        return [f"refused {refusal.number}" for _ in cases]
    return [as_ours(packet_reading.answer_over(book, kind, dwords, places), kind) for places, kind, dwords in cases]


def over_broken(seed, count):
    """Books that break a rule, each with a few packets."""
    for name, data in broken.generate(seed, count, books.good):
        yield name, data, [("over a broken book", kind, list(range(kind))) for kind in range(FEW)]


def judge_books(tally, chosen):
    """One run of the program over many books: class, bytes and packets of each."""
    cases = [differ.with_places(some) for _, _, some in chosen]
    groups = (differ.group(data, each) for (_, data, _), each in zip(chosen, cases))
    said = iter(rows("packets", groups, sum(map(len, cases))))
    for (name, data, some), each in zip(chosen, cases):
        tally.books[name] += 1
        for (of, kind, dwords), expected in zip(some, expected_of(data, each)):
            note(tally, of, packet_generator.body(kind, dwords), expected, next(said))


def packets(seed, count):
    tally = Tally()
    many = max(1, count // PACKETS_A_BOOK)
    cases = chain(differ.with_packets(seed, many, count), over_broken(seed, many // BROKEN_SHARE))
    for chosen in in_parts(cases, BOOKS_AT_ONCE):
        judge_books(tally, chosen)
    return tally
