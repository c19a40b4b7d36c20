"""The proved calls that say why a hex number is none beside the reading, and beside the proved reader of the same line."""

from itertools import chain, count, islice

from generate import reasons as generator
from generate.seed import Seed
from judge.hexes import Hexes
from judge.native import value
from judge.records import many
from judge.tally import Tally
from reading import reasons
from reading.line import MOST_DWORDS

# Numbers that are no key's, asked of one line in so many.
OTHER_KEYS = 0, 6, 255
OTHERS_IN = 4
# No line has so many pieces, also where only lower bits count.
FAR = 2**63
FURTHER = 2**32, 2**64 - 1, 2**63 + 1, 2**16
# The keys' names in an entry.
FIELDS = "route", "offset", "event", "config", "unplug"


def questions(turn, known):
    """The numbers of keys and of pieces that a line is asked for: every piece there is, the next one, and two far behind."""
    keys = (*reasons.KEYS, *(OTHER_KEYS if turn % OTHERS_IN == 0 else ()))
    return keys, (*range(len(known.pieces) + 1), FAR, FURTHER[turn % len(FURTHER)])


def answers(asked, keys, indexes):
    return [asked.key(number) for number in keys], [asked.piece(index) for index in indexes]


def word(name, answer):
    return f"number {answer}" if isinstance(answer, int) else f"{name} {answer.what}"


def words(keys, said):
    """Key or piece and reason of each answer, to be counted."""
    names = [reasons.KEYS.get(number, ("other key",))[0] for number in keys]
    return [word(name, answer) for name, answer in zip(names, said[0])] + [word("piece", answer) for answer in said[1]]


def first_difference(keys, indexes, expected, got):
    """The first question that is answered otherwise, with both answers."""
    asked = [f"key {number}" for number in keys] + [f"piece {index}" for index in indexes]
    for what, one, other in zip(asked, chain(*expected), chain(*got)):
        if one != other:
            return f"{what}: {one}", f"{what}: {other}"
    return None


def number_of(answer):
    return answer.value if answer.what == "value" else None


def fits(said, line, heard, slots):
    """Does what the lenient reader says fit the answers of the keys and pieces?"""
    number, entry, dwords = said
    keys, pieces = heard[0][:len(FIELDS)], heard[1]
    if isinstance(keys[0], int):
        return number == keys[0]
    numbers = [answer.value for answer in pieces if answer.what == "value"]
    if number == 0:
        made = value(line, entry, dwords)
        return [made[name] for name in FIELDS] == [number_of(answer) for answer in keys] and made["data"] == numbers
    behind = {
        14: number_of(keys[0]) is None, 15: pieces[0].what == "absent", 16: len(numbers) > MOST_DWORDS,
        17: slots < len(numbers) <= MOST_DWORDS}
    return behind.get(number, number in (5, 6, 7, 8, 9, 11, 12, 13))


def fits_strict(strict, lenient, line, pieces):
    """Does what the strict reader says fit? It is 18 exactly where neither of 1 to 15 comes and a piece is no number; else it says the same."""
    if lenient[0] in (0, 16, 17) and any(answer.what not in ("value", "absent") for answer in pieces):
        return strict[0] == 18
    said = [number if number else value(line, entry, dwords) for number, entry, dwords in (strict, lenient)]
    return said[0] == said[1]


def branch(choice, number):
    """What a reader said, to be counted."""
    return f"{choice}: line refused {number}" if number else f"{choice}: line accepted"


def judge_line(hexes, tally, reading, name, line, turn, slots):
    """Every answer beside the reading's; then all of them beside the line's readers."""
    hexes.lend(line)
    known = reading.Line(line)
    keys, indexes = questions(turn, known)
    expected, got = answers(known, keys, indexes), answers(hexes, keys, indexes)
    if expected != got:
        return tally.differ(name, line, *first_difference(keys, indexes, expected, got))
    lenient, strict = hexes.entry("ck_parse_lenient", slots), hexes.entry("ck_parse", slots)
    if not fits(lenient, line, got, slots) or not fits_strict(strict, lenient, line, got[1]):
        return tally.differ(name, line, f"{got}", f"the line's readers with {slots} slots: lenient {lenient[0]}, strict {strict[0]}")
    tally.branches.update((branch("lenient", lenient[0]), branch("strict", strict[0])))
    return tally.all_same(name, words(keys, got))


def compare(seed, most_lines, short=0, reading=reasons, hexes=None, most=None):
    """All texts of up to `short` tokens, if any; then so many generated lines. Ends earlier with `most` differences."""
    tally, source, hexes = Tally(), Seed(seed + 1), hexes or Hexes()
    # A generated line of too many pieces has a bad one mostly.
    first = [("257 good pieces", many(257))]
    given = chain(first, generator.all_short(short), islice(generator.generate(seed), most_lines))
    for turn, (name, line) in zip(count(), given):
        slots = source.below(4) if source.one_in(20) else MOST_DWORDS
        judge_line(hexes, tally, reading, name, line, turn, slots)
        if most is not None and len(tally.differences) >= most:
            break
    return tally


# Frozen lines

def replay(hexes, line):
    """The rows of a line as the proved calls give them."""
    hexes.lend(line)
    return reasons.rows(hexes)
