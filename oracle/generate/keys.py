"""Lines of repeated keys, by class: python3 oracle/generate/keys.py --seed N --count N --short N OUT"""

import os
import sys
from itertools import chain, combinations, permutations, product

sys.dont_write_bytecode = True
sys.path.insert(0, os.path.join(os.path.dirname(os.path.abspath(__file__)), ".."))

from generate import classes, parts, short
from generate.lines import BAD_PIECES, bracketed, good_piece, with_bad

LONGEST = 4096
# The thirteen.
KEYS = parts.REQUIRED + parts.OPTIONAL


# Values

# Words and brackets that are no number: of either form, of decimals alone, of hex alone.
NO_NUMBERS = (b"z", b"1z", b"z1", b"_1", b"1_", b"[1]", b"[ 1]", b"[z]", b"x1", b"99999999999999999999", b"0x0x1", b"0X1", b"0x")
NO_DECIMALS = (b"0x1", b"a", b"1a", b"F")
NO_HEXES = (b"0x1g", b"g", b"0xx1", b"[0x1]")
# What behind a key and `=` makes no pair; the open bracket makes one where another value closes it.
NO_VALUES = (b"", b"-1", b"=1", b" 1", b"[]", b"[", b".", b",", b"[][1]", b"+1", b"\t1", b"[]1")


def good(seed, key):
    """A value that is read, now and then the highest."""
    if key == b"type":
        return seed.pick(parts.TYPES)
    if key == b"data":
        return bracketed(seed.several(1, 4, good_piece))
    return widest(key, -1) if seed.one_in(8) else parts.number(seed, key)


def widest(key, more):
    """So much more than the first number that is too wide for the key."""
    form, bits = parts.NUMBERS[key]
    return (b"0x%x" if form == "hex" else b"%d") % (2**bits + more)


def bad(seed, key):
    """A value that makes a pair and is not read; of `type`, which always is, one of no kind; of `data` no brackets or bad pieces."""
    if key == b"type":
        return seed.pick(parts.OTHER_TYPES)
    if key == b"data":
        return seed.pick((bare_data, bare_data, bad_data))(seed)
    if seed.one_in(4):
        return widest(key, seed.below(3))
    return seed.pick(NO_NUMBERS + (NO_HEXES if parts.NUMBERS[key][0] == "hex" else NO_DECIMALS))


def bare_data(seed):
    """A `data` without brackets."""
    return seed.pick((b"1", b"0x1", b"z", b"0", b"0x00000001", b"data", b"_", b"ffffffff"))


def bad_data(seed):
    """A `data` in brackets with bad pieces, alone or among good ones; an empty one alone would make no pair."""
    if seed.one_in(2):
        return bracketed([seed.pick(BAD_PIECES[1:])])
    return with_bad(seed, seed.several(1, 3, good_piece))


def nothing(seed, _):
    """What makes no pair."""
    return seed.pick(NO_VALUES)


def either(seed, key):
    """A value that is read or is not."""
    return seed.pick((good, bad))(seed, key)


# Lines

def pair(key, value):
    return key + b"=" + value


def line_of(seed, texts):
    """A good header and these texts behind each other."""
    return parts.ended(seed, parts.header(seed) + b": " + b", ".join(texts))


def once(seed, without=()):
    """A good pair of every key but some, in the kernel's order or in any; most lines lack a few optional ones."""
    texts = [pair(*item) for item in parts.pairs(seed).items() if item[0] not in without]
    return seed.shuffled(texts) if seed.one_in(2) else texts


def among(seed, texts, more):
    """These texts with more of them at any places, in their own order."""
    texts, places = list(texts), sorted(seed.below(len(texts) + 1) for _ in more)
    for place, text in reversed(list(zip(places, more))):
        texts.insert(place, text)
    return texts


def twice(first, last):
    """A class of each key: a pair of it with one sort of value, later one with another."""
    def of(key):
        def made(seed):
            both = [pair(key, first(seed, key)), pair(key, last(seed, key))]
            return line_of(seed, among(seed, once(seed, [key]), both))
        return made
    return of


def any_order(seed):
    """All thirteen, each once and good."""
    return line_of(seed, seed.shuffled(pair(key, good(seed, key)) for key in KEYS))


def again_and_again(seed, fewest=1, most=4):
    """All thirteen in any order, each once to four times, good and bad; few bad ones, or as many as good."""
    chances = seed.pick((2, 4, 12, 40))
    texts = []
    for key in KEYS:
        for _ in range(seed.within(fewest, most)):
            texts.append(pair(key, (bad if seed.one_in(chances) else good)(seed, key)))
    return line_of(seed, seed.shuffled(texts))


def some_missing(seed):
    """Each of the thirteen up to five times or not at all, in any order, good and bad."""
    return again_and_again(seed, 0, 5)


def many_times(seed):
    """One key 10 to 60 times, the good one first, last or anywhere; now and then all are good."""
    key, count = seed.pick(KEYS), seed.within(10, 60)
    texts = [pair(key, good(seed, key) if seed.one_in(2 * count) else bad(seed, key)) for _ in range(count)]
    if seed.one_in(4):
        texts = [pair(key, good(seed, key)) for _ in range(count)]
    texts[seed.pick((0, count - 1, count - 1, seed.below(count)))] = pair(key, good(seed, key))
    return line_of(seed, among(seed, once(seed, [key]), texts))


def data_again(seed):
    """`data` two to five times, with brackets and without, with bad pieces and none, closed and not."""
    sorts = (lambda s: good(s, b"data"), bare_data, bad_data, lambda s: nothing(s, b"data"))
    texts = [pair(b"data", seed.pick(sorts)(seed)) for _ in range(seed.within(2, 5))]
    return line_of(seed, among(seed, once(seed, [b"data"]), texts))


def types_again(seed):
    """`type` two to five times, each of another kind or of none."""
    some = seed.shuffled(parts.TYPES + parts.OTHER_TYPES)[:seed.within(2, 5)]
    return line_of(seed, among(seed, once(seed, [b"type"]), [pair(b"type", value) for value in some]))


def two_in_turn(seed):
    """Two keys, three to eight pairs of either in any order, good and bad."""
    both = seed.shuffled(KEYS)[:2]
    some = [seed.pick(both) for _ in range(seed.within(3, 8))]
    return line_of(seed, among(seed, once(seed, both), [pair(key, either(seed, key)) for key in some]))


def to_the_longest(seed):
    """As many pairs of the thirteen as a line has room for, 4,095 to 4,097 bytes."""
    head, texts = parts.header(seed) + b": ", once(seed)
    length = seed.within(LONGEST - 1, LONGEST + 1) - len(head)
    while sum(map(len, texts)) + 2 * len(texts) < length:
        key = seed.pick(KEYS)
        texts.append(pair(key, (bad if seed.one_in(20) else good)(seed, key)))
    if seed.one_in(2):
        texts = seed.shuffled(texts)
    return head + b", ".join(texts)[:length].ljust(length, b",")


# Keys that are not ours

def near_to(key):
    """What starts or ends like a key of ours or looks like it, by sort."""
    others = [other for other in KEYS if other != key]
    return (
        (key[1:], key[:-1], key[:2], key[:1], key[-2:], key[::-1]),
        tuple(mark + key for mark in (b"x", b"0", b"1", b"_", b"X", b"e", b"__")),
        tuple(key + mark for mark in (b"x", b"0", b"1", b"_", b"X", b"s", b"__")),
        (key + key, key * 3, key * 40, key + key[:1], key[-1:] + key),
        tuple(key + other for other in others) + tuple(other + key for other in others),
        tuple(key[:at] + other + key[at + 1:] for at in range(len(key)) for other in (b"_", b"0", b"j", key[at:at + 1].upper())),
        (key.upper(), key.title(), key[:-1] + key[-1:].upper(), key.swapcase()[:2] + key[2:]))


NEAR = {key: near_to(key) for key in KEYS}


def near(seed, key):
    """A key near this one, each sort as often."""
    return seed.pick(seed.pick(NEAR[key]))


def near_pairs(seed, fewest, most, keys=KEYS):
    """Pairs of keys near to ours, each with a value as that of ours would be, good or bad."""
    picked = (seed.pick(keys) for _ in range(seed.within(fewest, most)))
    return [pair(near(seed, key), either(seed, key)) for key in picked]


def near_between(seed):
    """All thirteen, and keys near to them before, between and behind."""
    return line_of(seed, among(seed, seed.shuffled(pair(key, good(seed, key)) for key in KEYS), near_pairs(seed, 1, 9)))


def near_behind(seed):
    """A key, then keys near to it: the first is the last of its own."""
    key = seed.pick(KEYS)
    texts = [pair(key, either(seed, key)), *near_pairs(seed, 1, 5, [key])]
    return line_of(seed, among(seed, once(seed, [key]), texts))


def near_instead(seed):
    """Keys near to one that itself is missing."""
    key = seed.pick(KEYS)
    return line_of(seed, among(seed, once(seed, [key]), near_pairs(seed, 1, 4, [key])))


# With KEY and VALUE for a key and a good or bad value of it: as the value of another pair, in brackets, behind them.
AS_VALUES = (
    b"x=KEY", b"KEY=KEY=VALUE", b"x=KEY=VALUE", b"KEY=KEY", b"KEY=x=VALUE", b"KEY==VALUE", b"x==KEY=VALUE", b"x=y=KEY=VALUE", b"=KEY=VALUE",
    b"KEY=VALUE=KEY", b"KEY=VALUE=VALUE", b"x=KEY KEY=VALUE", b"x=KEY,KEY=VALUE", b"KEY KEY=VALUE", b"KEY =VALUE", b"KEY= VALUE", b"KEY", b"KEY=",
    b"x=KEY_KEY=VALUE", b"x=1KEY=VALUE")
IN_BRACKETS = (
    b"x=[KEY=VALUE]", b"x=[KEY=VALUE", b"[KEY=VALUE]", b"[KEY=VALUE", b"KEY=VALUE]", b"x=[[KEY=VALUE]", b"x=[a, KEY=VALUE, b]", b"x=[]KEY=VALUE",
    b"x=[]KEY=VALUE]", b"KEY=[KEY=VALUE]", b"KEY=[KEY=VALUE", b"x=[1]KEY=VALUE", b"x=[KEY=VALUE]KEY=VALUE", b"x=[KEY]=VALUE", b"[KEY]=VALUE",
    b"x=[a=[KEY=VALUE]", b"x=[KEY=", b"data=[KEY=VALUE]", b"x=[ KEY=VALUE ], x=[")


def put(form, key, value):
    """A form with a key and a value in their places."""
    return form.replace(b"KEY", key).replace(b"VALUE", value)


def formed(forms):
    """A class of lines with one to three such texts among good pairs."""
    def made(seed):
        some = [(seed.pick(forms), seed.pick(KEYS)) for _ in range(seed.within(1, 3))]
        return line_of(seed, among(seed, once(seed), [put(form, key, either(seed, key)) for form, key in some]))
    return made


BETWEEN = (
    b"", b"", b"\t", b".", b"-", b" ", b",", b"\n", b"=", b"==", b"/", b";", b"]", b"[", b"\0", b"\x7f", b"\v", b"|", b"+", b"'", b"x", b"_", b"0",
    b"x=", b" = ", b"@", b"`", b"{", b"^", b"\x1f")


def separators(seed):
    """Repeated keys with other bytes between some of the pairs than comma-space, or none."""
    some = [seed.pick(KEYS) for _ in range(seed.within(1, 4))]
    first, *others = among(seed, once(seed), [pair(key, either(seed, key)) for key in some])
    strange = seed.pick((3, 12))
    body = first + b"".join((seed.pick(BETWEEN) if seed.one_in(strange) else b", ") + text for text in others)
    return parts.ended(seed, parts.header(seed) + b": " + body)


TWICE = {
    "good after bad": twice(bad, good), "bad after good": twice(good, bad), "good after good": twice(good, good),
    "no pair after good": twice(good, nothing)}
CLASSES = {f"{name}, {key.decode()}": of(key) for name, of in TWICE.items() for key in KEYS}
# What gets another share than the others: each of the thirteen of a sort, and long lines.
SHARE = {name: 0.2 for name in CLASSES} | {"to the longest": 0.05}
CLASSES.update({
    "any order": any_order, "again and again": again_and_again, "some missing": some_missing, "many times": many_times, "data again": data_again,
    "types again": types_again, "two in turn": two_in_turn, "to the longest": to_the_longest, "near keys between": near_between,
    "near keys behind": near_behind, "near keys instead": near_instead, "keys as values": formed(AS_VALUES), "keys in brackets": formed(IN_BRACKETS),
    "separators": separators})


# Short texts, all of them

# Two good values of each key, and one that is not read, or of no kind.
VALUES = {
    b"type": (b"TB_CFG_PKG_READ", b"TB_CFG_PKG_EVENT", b"READ"), b"size": (b"3", b"4", b"3z"), b"domain": (b"5", b"6", b"0x5"),
    b"route": (b"0x7", b"8", b"0x"), b"data": (b"[0x9]", b"[a, 0xb]", b"9"), b"offset": (b"0xc", b"0xd", b"0x10000"),
    b"error": (b"0x21", b"7", b"[7]"), b"len": (b"16", b"17", b"65536"), b"port": (b"18", b"19", b"256"), b"config": (b"0x1", b"2", b"g"),
    b"seq": (b"20", b"21", b"_"), b"unplug": (b"0x1", b"0", b"0X1"), b"dropped": (b"1", b"2", b"z")}
GOOD_HEAD = b"a-1 [002] 1.2: tb_rx: "


def rest(*without):
    """A good pair of each key but these, each with a space behind it."""
    return b"".join(pair(key, VALUES[key][0]) + b" " for key in KEYS if key not in without)


def around(texts, behind):
    """A good line's other pairs behind these texts, before them, and in their middle."""
    middle = len(texts) // 2
    for place in (0, middle, len(texts)):
        yield GOOD_HEAD + b"".join(text + b" " for text in texts[:place]) + behind + b"".join(text + b" " for text in texts[place:])


def every_row(row):
    """A part of the short texts: each two keys in this row, every choice of good and bad; a key's good values differ from place to place."""
    def made(_):
        for both, good_ones in product(permutations(KEYS, 2), product((True, False), repeat=len(row))):
            texts = []
            for at, (letter, is_good) in enumerate(zip(row, good_ones)):
                key = both["AB".index(letter)]
                texts.append(pair(key, VALUES[key][row.count(letter, 0, at) if is_good else 2]))
            yield from around(texts, rest(*both))
    return made


def every_three(_):
    """Each three keys in each order, before the others and behind them."""
    for three in permutations(KEYS, 3):
        texts = b"".join(pair(key, VALUES[key][0]) + b" " for key in three)
        yield GOOD_HEAD + texts + rest(*three)
        yield GOOD_HEAD + rest(*three) + texts


def every_near(_):
    """Each key near to one of ours, with a good value and a bad one, before its pair, behind it and alone."""
    for key in KEYS:
        own = pair(key, VALUES[key][0])
        for other, value in product(sorted(set(chain(*NEAR[key]))), VALUES[key][1:]):
            for texts in ([pair(other, value), own], [own, pair(other, value)], [pair(other, value)]):
                yield GOOD_HEAD + rest(key) + b" ".join(texts)


def every_form(_):
    """Each form with each key and a good value and a bad one, before its good pair and behind it."""
    for form, key in product(AS_VALUES + IN_BRACKETS, KEYS):
        for value in VALUES[key][1:]:
            text = put(form, key, value)
            yield GOOD_HEAD + text + b" " + rest()
            yield GOOD_HEAD + rest() + text


def short_rows(longest):
    """Every row of so many pairs of each two keys, two good values and a bad one of each, behind the others."""
    for both in combinations(KEYS, 2):
        tokens = [pair(key, value) + b" " for key in both for value in VALUES[key]]
        for text in short.texts(tokens, longest):
            yield GOOD_HEAD + rest(*both) + text


SHORT = {f"every row, {' '.join(row)}": every_row(row) for row in ("ABA", "ABAB", "ABBA")}
SHORT.update({"every three": every_three, "every near key": every_near, "every form": every_form, "short rows": short_rows})
# What a run must have met beside each class for it to say something of the keys.
ANSWERS = ("entry", *(f"refused {number}" for number in range(11, 16)))


def names(longest):
    """The classes and, but for `longest` 0, the parts of short texts."""
    return [*CLASSES, *(SHORT if longest > 0 else ())]


def generate(seed, count, longest_short, only=None):
    """Class and line, about `count` over all classes or one, then all short texts; of these none for `longest_short` 0."""
    yield from classes.by_class(CLASSES, SHARE, seed, count, only)
    for name, make in SHORT.items() if longest_short > 0 else ():
        for line in make(longest_short):
            yield name, line


if __name__ == "__main__":
    classes.write(__doc__, CLASSES, generate)
