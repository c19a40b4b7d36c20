"""Packets over books: every question, and the source line of every panic."""

from generate import books, packets as generator
from generate.tree import encoded
from judge.tally import Tally, ask
from reading import packet as reading
from reading.book import read_book

# Large books have thousands of names to ask for.
LARGE = 8_000
FEW = 12


def judge(tally, name, given, oracle, ours):
    _, kind, dwords = given
    if len(dwords) > reading.MOST_DWORDS and ours == "refused 24":
        said = oracle if len(oracle) < 12 else "packet"
        return tally.beyond(name, f"over 256 dwords: reading {ours}, oracle {said}")
    same = {"none 21": "refused 21"}.get(oracle, oracle.replace("panic ", "refused "))
    if ours != same:
        return tally.differ(name, generator.body(kind, dwords), oracle, ours)
    return tally.same(name, f"kind {kind}" if ours.startswith("packet") else ours)


def branches(answer, typed):
    """Which questions were refused or answered, which tables and typed entries were met."""
    for part in answer.split(" "):
        key, _, value = part.partition("=")
        if value.startswith("refused"):
            yield f"{key} {value}"
        elif key in ("uuid", "view", "adapter", "address", "size", "start", "type"):
            yield f"{key} none" if value == "-" else f"{key} met"
        elif key == "sources":
            yield f"sources {''.join(sorted(set(value)))}"
        elif key == "places" and typed & set(value.split(",")):
            yield "typed entry taken in step 3"


def typed_places(book):
    """The places of typed entries that only step 3 can take."""
    tables = book.protocol.values()
    return {str(entry.place) for table in tables for entry in table if entry.type}


def compare(seed, book_count, count):
    tally = Tally()
    good = list(books.good(seed, book_count))
    for index, (book_name, tables) in enumerate(good):
        data = encoded(tables)
        share = FEW if len(data) > LARGE else count / len(good)
        some = list(generator.generate(seed * 100_000 + index, share, data))
        answers = ask("packets", [generator.body(k, d) for _, k, d in some], data)
        tally.books[book_name] += 1
        judge_all(tally, data, some, answers)
    return tally


def judge_all(tally, data, some, answers):
    book = read_book(data)
    typed = typed_places(book)
    for given, oracle in zip(some, answers):
        ours = reading.answer_over(book, given[1], given[2])
        judge(tally, given[0], given, oracle, ours)
        tally.branches.update(branches(ours, typed))
