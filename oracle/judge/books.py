"""Books: two readers from the same words, since the judged file knows no book."""

from generate import books as generator
from generate.broken import RULES
from judge.tally import Tally, ask, in_parts
from reading import book as reading

AT_ONCE = 500
# Rules whose break may leave a whole book.
MAY_STAY = ("cut short", "bad length", "any byte")


def expected(name, ours):
    """A good book is accepted, a broken one is not."""
    if name in MAY_STAY:
        return True
    return ours == ("refused 20" if name in RULES else "accepted")


def judge_all(tally, some):
    for (name, data), oracle in zip(some, ask("books", [data for _, data in some])):
        ours = reading.answer(data)
        if ours == oracle and expected(name, ours):
            tally.same(name, ours)
        else:
            tally.differ(name, data, oracle, ours)


def compare(seed, count):
    tally = Tally()
    for some in in_parts(generator.generate(seed, count), AT_ONCE):
        judge_all(tally, some)
    return tally
