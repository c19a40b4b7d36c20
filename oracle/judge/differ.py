"""The programs under test beside the judged Rust: every field of every line and packet, save the name of 38."""

import os
import struct
import subprocess
import tempfile

from generate import books, lines as generator, packets as packet_generator
from generate.tree import encoded
from judge import packets
from judge.lines import NAME_ALONE, bad_piece, beyond, both, by_rust, counted
from judge.tally import Tally, ask, in_parts
from reading import line as reading, packet as packet_reading
from reading.book import read_book
from reading.texts import Refused

HERE = os.path.dirname(os.path.abspath(__file__))
TOP = os.path.join(HERE, "..", "..")
AT_ONCE = 200_000
BOOKS_AT_ONCE = 100
SLOTS = 256


def run(program, parts, count):
    """What a program answers to its input, given in parts: so many rows."""
    with tempfile.TemporaryFile() as given, tempfile.TemporaryFile() as said:
        for part in parts:
            given.write(part)
        given.seek(0)
        subprocess.run([os.path.join(TOP, "run"), program], check=True, stdin=given, stdout=said)
        said.seek(0)
        answers = said.read().decode("ascii").splitlines()
    if len(answers) != count:
        raise ValueError("the program answered another number of frames")
    return answers


# Lines

def line_frame(line, slots, strict):
    """A line as `replay` takes it: its length, the slots lent, the choice, and the line."""
    return struct.pack("<IIB", len(line), slots, strict) + line


def replay(texts, strict):
    """The program's answers by one choice, one a line, with 256 slots lent for each."""
    return run("replay", (line_frame(text, SLOTS, strict) for text in texts), len(texts))


def judge(tally, name, line, oracle, ours):
    """Lenient: inside the limits the Rust decides, save the name of 38, beyond them document 01, by the second reading. Strict: the same where no piece
    is bad, else the reading."""
    outside = beyond(line, oracle)
    lenient = by_rust(oracle) if outside is None else reading.answer(line)
    strict = reading.answer(line, strict=True) if bad_piece(line) else lenient
    if ours != (lenient, strict):
        return tally.differ(name, line, (lenient, strict), ours)
    if outside is not None:
        return tally.beyond(name, f"{outside[0]}: {', '.join(both(*ours))}")
    return tally.all_same(name, counted(*ours))


def judge_all(tally, some):
    texts = [line for _, line in some]
    rows = zip(replay(texts, strict=False), replay(texts, strict=True))
    for (name, line), oracle, ours in zip(some, ask("lines", texts), rows):
        judge(tally, name, line, oracle, ours)


def compare(seed, count, short):
    tally = Tally()
    for some in in_parts(generator.generate(seed, count, short), AT_ONCE):
        judge_all(tally, some)
    tally.must_meet("strict refused 18")
    tally.must_meet(NAME_ALONE)
    return tally


# Packets

def group(data, cases):
    """A book, the names to ask for, and packets over it, each of places lent, kind and dwords."""
    names = b"".join(bytes([len(name)]) + name for name in asked(data))
    bodies = [(places, packet_generator.body(kind, dwords)) for places, kind, dwords in cases]
    return struct.pack("<III", len(data), len(names), len(bodies)) + data + names + b"".join(
        struct.pack("<II", len(body), places) + body for places, body in bodies)


def asked(data):
    """The names of a book, in the order of the row; a broken book has none to ask for."""
    try:
        return packet_reading.asked_names(read_book(data))
    except Refused:
        return []


def lent(number, dwords):
    """Places lent: mostly 256, for some packets just enough, for some one too few."""
    return {8: max(len(dwords) - 1, 0), 4: len(dwords)}.get(number % 9, SLOTS)


def with_places(some):
    return [(lent(number, dwords), kind, dwords) for number, (_, kind, dwords) in enumerate(some)]


def beyond_rust(said, oracle):
    """Numbers that the Rust lacks: 24 where it has no earlier one, 26 where it has none."""
    allowed = {"refused 24": ("packet ", "panic 25"), "refused 26": ("packet ",)}
    return oracle.startswith(allowed.get(said, ()))


def judge_packet(tally, given, oracle, ours, said):
    """The Rust decides, but for the two numbers that it lacks: there the second reading does."""
    name, kind, dwords = given
    outside = beyond_rust(said, oracle)
    rust = oracle.replace("panic ", "refused ").replace("none ", "refused ")
    expected = said if outside else rust
    if ours != expected:
        return tally.differ(name, packet_generator.body(kind, dwords), expected, ours)
    if outside:
        return tally.beyond(name, ours)
    return tally.same(name, "packet" if ours.startswith("packet ") else ours)


def judge_book(tally, name, data, some, answers):
    said = ask("packets", [packet_generator.body(kind, dwords) for _, kind, dwords in some], data)
    book = read_book(data)
    typed = packets.typed_places(book)
    tally.books[name] += 1
    for number, (given, oracle, ours) in enumerate(zip(some, said, answers)):
        _, kind, dwords = given
        reading_says = packet_reading.answer_over(book, kind, dwords, lent(number, dwords))
        judge_packet(tally, given, oracle, ours, reading_says)
        tally.branches.update(packets.branches(ours, typed))


def judge_books(tally, chosen):
    """One run of the program over many books: class, bytes and packets of each."""
    groups = (group(data, with_places(some)) for _, data, some in chosen)
    answers = run("replay_packets", groups, sum(len(some) for _, _, some in chosen))
    for name, data, some in chosen:
        judge_book(tally, name, data, some, answers[:len(some)])
        del answers[:len(some)]


def with_packets(seed, book_count, count):
    """Good books, each with packets aimed at it."""
    good = list(books.good(seed, book_count))
    for index, (name, tables) in enumerate(good):
        data = encoded(tables)
        share = packets.FEW if len(data) > packets.LARGE else count / len(good)
        yield name, data, list(packet_generator.generate(seed * 100_000 + index, share, data))


def compare_packets(seed, book_count, count):
    tally = Tally()
    for chosen in in_parts(with_packets(seed, book_count, count), BOOKS_AT_ONCE):
        judge_books(tally, chosen)
    return tally
