"""Lines whose hex numbers are read or are none, by class: reasons.py --seed N --count N --short N OUT."""

import argparse
import os
import sys
from collections import Counter
from itertools import chain, count, islice, product

sys.path.insert(0, os.path.dirname(os.path.dirname(os.path.abspath(__file__))))

from generate import lines, parts
from generate.seed import Seed, frame

LONGEST = 4096
# Where a hex number stands, with its bits: a key's value, or a piece of `data`.
SPOTS = {b"route": 64, b"offset": 16, b"error": 8, b"config": 8, b"unplug": 8, b"data": 32}
KEYS = tuple(key for key in SPOTS if key != b"data")
DIGITS = b"0123456789abcdefABCDEF"
# Bytes that are no digit: such as a word may hold, and such as only a piece may. A colon would move the split.
BAD_WORDS = b"gGxXhzZ_"
BAD_OTHERS = b"[,\t -+/;@`.=#'\n\v\0\x1f\x7f{|~^?"
# Headers of which most are none, some with what would be pairs behind the colon.
HEADS = (b"", b" ", b"a", b"a-b", b"a-1 [002]", b"a-1 [002] 1.2: f", b"[1]", b"route=1", b"data=[1]", b"offset=0x", b"x:offset=1")
# Another generator's lines, but the long ones and those about pieces, of which there are classes here.
HARD = [make for name, make in lines.CLASSES.items() if name not in ("hostile", "long", "dwords", *lines.ABOUT_PIECES)]


# Texts

def digits(seed, length):
    return bytes(seed.pick(DIGITS) for _ in range(length))


def prefix(seed):
    return seed.pick((b"0x", b""))


def bad_byte(seed, spot):
    """A byte that is no digit; in a key's value mostly one that does not end it."""
    others = seed.one_in(2) if spot == b"data" else seed.one_in(8)
    return bytes([seed.pick(BAD_OTHERS if others else BAD_WORDS)])


def with_bad(seed, spot, text, at):
    """The text with a byte at a place that is no digit, in place of another or put in."""
    return text[:at] + bad_byte(seed, spot) + text[at + seed.below(2):]


def edge(seed, bits):
    """A number at or beside what is too wide for so many bits, now and then for other bits."""
    limit = 2**(bits if seed.below(4) else seed.pick((8, 16, 32, 64)))
    return seed.pick((limit - 1, limit - 1, limit, limit, limit + 1, limit - 2, limit * 16, limit * 16 - 1, limit // 16, limit * 2 - 1, limit * 15))


def hex_of(seed, value, zeros):
    text = b"0" * zeros + b"%x" % value
    return prefix(seed) + (text.upper() if seed.one_in(3) else text)


def good_text(seed, spot):
    return hex_of(seed, seed.next() % 2**seed.within(1, SPOTS[spot]), seed.pick((0, 0, 0, 1, 8)))


def bad_text(seed, spot):
    text = digits(seed, seed.within(1, 12))
    return prefix(seed) + with_bad(seed, spot, text, seed.below(len(text)))


def wide_text(seed, spot):
    return hex_of(seed, 2**SPOTS[spot] + seed.next() % 2**seed.within(1, SPOTS[spot]), seed.pick((0, 0, 1, 3)))


def empty_text(seed, spot):
    return seed.pick((b"", b"0x")) if spot == b"data" else b"0x"


def none_text(seed, spot):
    return seed.pick((bad_text, bad_text, wide_text, wide_text, empty_text))(seed, spot)


def any_text(seed, spot):
    return seed.pick((good_text, none_text))(seed, spot)


# Lines

def head(seed):
    """A good header, or one that is none: the header is not asked."""
    return parts.header(seed) if seed.below(6) else seed.pick(HEADS)


def line_of(seed, items, between=b", "):
    """A line of pairs; a key may stand twice."""
    return parts.ended(seed, head(seed) + b": " + parts.joined(items, between))


def bracket(pieces, between=b", "):
    return b"[" + between.join(pieces) + b"]"


def value_of(seed, spot, text):
    """The value that holds a text: itself, or a bracket with it among the pieces."""
    if spot != b"data":
        return text
    listed = seed.several(0, 3, lambda s: any_text(s, spot))
    listed.insert(seed.below(len(listed) + 1), text)
    return bracket(listed)


def with_text(seed, spot, text):
    """A line that holds the text at its spot, the other hex numbers read or not."""
    found = {**parts.pairs(seed), spot: value_of(seed, spot, text)}
    for key in KEYS:
        if key != spot and key in found and seed.one_in(3):
            found[key] = any_text(seed, key)
    items = found.items()
    return line_of(seed, seed.shuffled(items) if seed.one_in(4) else items)


def pick_spot(seed):
    """A piece as often as a key."""
    return b"data" if seed.one_in(2) else seed.pick(KEYS)


def ordinary(seed):
    """As the kernel prints it."""
    return parts.line(seed)


def of_any_line(seed):
    """A hard line of another generator."""
    return seed.pick(HARD)(seed)


def damaged(seed):
    """A line with one byte changed."""
    text = with_text(seed, b"data", good_text(seed, b"data"))
    at = seed.below(len(text))
    return text[:at] + bytes([seed.below(128)]) + text[at + seed.below(2):]


# Digits

def bad_anywhere(seed):
    spot, text = pick_spot(seed), digits(seed, seed.within(1, 20))
    return with_text(seed, spot, prefix(seed) + with_bad(seed, spot, text, seed.below(len(text))))


def bad_first(seed):
    spot = pick_spot(seed)
    return with_text(seed, spot, bad_byte(seed, spot) + digits(seed, seed.below(9)))


def bad_behind_prefix(seed):
    spot = pick_spot(seed)
    return with_text(seed, spot, b"0x" + bad_byte(seed, spot) + digits(seed, seed.below(9)))


def bad_last(seed):
    spot = pick_spot(seed)
    return with_text(seed, spot, prefix(seed) + digits(seed, seed.within(1, 20)) + bad_byte(seed, spot))


def several_bad(seed):
    """The first counts."""
    spot, text = pick_spot(seed), digits(seed, seed.within(2, 12))
    for _ in range(seed.within(2, 4)):
        text = with_bad(seed, spot, text, seed.below(len(text)))
    return with_text(seed, spot, prefix(seed) + text)


def bad_behind_too_wide(seed):
    """However late, a bad digit goes before the width."""
    spot = pick_spot(seed)
    text = wide_text(seed, spot) + digits(seed, seed.pick((0, 0, 1, 8, 40))) + bad_byte(seed, spot)
    return with_text(seed, spot, text + digits(seed, seed.below(4)))


# Widths

def at_the_edge(seed):
    spot = pick_spot(seed)
    return with_text(seed, spot, hex_of(seed, edge(seed, SPOTS[spot]), seed.pick((0, 0, 0, 1, 2, 7))))


def many_zeros(seed):
    spot = pick_spot(seed)
    value = seed.pick((0, 1, edge(seed, SPOTS[spot])))
    return with_text(seed, spot, hex_of(seed, value, seed.pick((16, 17, 64, 300, 3000))))


def wide_by_far(seed):
    spot = pick_spot(seed)
    return with_text(seed, spot, prefix(seed) + b"1" + digits(seed, seed.pick((17, 31, 32, 33, 64, 256, 2000))))


# Prefixes and empty texts

PREFIXES = (
    b"0x", b"0x0x1", b"0x0x", b"0X1", b"0X", b"x1", b"x", b"X1", b"00x1", b"0xx1", b"0x0X1", b"0xX1", b"0", b"00", b"0x0", b"1x", b"10x1", b"0_x1",
    b"0b1", b"0xg", b"0xx", b"0o7", b"0X0x1", b"x0x1")


def prefixes(seed):
    return with_text(seed, pick_spot(seed), seed.pick(PREFIXES))


def empty_key(seed):
    """`0x` alone; with nothing behind its `=` a key makes no pair."""
    return with_text(seed, seed.pick(KEYS), seed.pick((b"0x", b"0x", b"0x", b"")))


def empty_pieces(seed):
    listed = seed.pick(((b"0x1", b""), (b"", b""), (b"0x",), (b"", b"1"), (b"1", b"", b"2"), (b"", b"", b"", b""), (b"0x", b"0x"), (b" ",), (b"",)))
    return line_of(seed, {**parts.pairs(seed), b"data": bracket(listed)}.items())


# Values and pieces as they are cut

VALUES = (
    b"[1]", b"[0x1]", b"[[1]", b"[ ]", b"[0x1, 0x2]", b"[]", b"[", b"[1", b"[]1", b"1]", b"[g]", b"[\n1]", b"[offset=2]", b"1[2]", b"1=2", b"=1",
    b" 1", b"1 2", b"-1", b"+1", b"1.5", b"1,2", b"")


def brackets_as_value(seed):
    """Of a key the brackets are bytes of the value."""
    return with_text(seed, seed.pick(KEYS), seed.pick(VALUES))


def glued(seed):
    """Pieces with something else than comma-space between them."""
    glues = (b", ", b", ", b",", b" ", b",  ", b" ,", b",\t", b", , ", b"", b" , ", b",\n", b",, ", b", ,")
    text = any_text(seed, b"data")
    for _ in range(seed.within(1, 6)):
        text += seed.pick(glues) + any_text(seed, b"data")
    return line_of(seed, {**parts.pairs(seed), b"data": b"[" + text + b"]"}.items())


def blanks_in_pieces(seed):
    texts = [any_text(seed, b"data") for _ in range(seed.within(1, 4))]
    blanks = (b" ", b"\t", b"\n", b"  ", b"")
    texts = [seed.pick(blanks) + text + seed.pick(blanks) for text in texts]
    return line_of(seed, {**parts.pairs(seed), b"data": bracket(texts)}.items())


def colon_in_the_data(seed):
    """It moves the split, so the keys before it are the header's."""
    spot = pick_spot(seed)
    text = any_text(seed, spot)
    at = seed.below(len(text) + 1)
    return with_text(seed, spot, text[:at] + b":" + text[at:])


def between_pairs(seed):
    """Other bytes between the pairs than comma-space, or none."""
    found = {**parts.pairs(seed), **{key: any_text(seed, key) for key in KEYS if seed.one_in(2)}}
    return line_of(seed, found.items(), seed.pick((b" ", b",", b"\t", b"\n", b"=", b"-", b".", b"]", b"", b"[", b"\x7f", b"==", b" = ", b"x")))


def many_pieces(seed):
    """Up to the longest line, and one byte more."""
    text = b"type=t size=3 domain=0 route=0 data=["
    short = seed.pick(((b"", b"1"), (b"1", b"0x", b"g"), (b"0x1", b"100000000", b"z")))
    room = LONGEST - len(text) - len(b":") - len(b"]") + seed.pick((-300, -1, 0, 0, 1))
    body = b", ".join(seed.pick(short) for _ in range(room))[:room]
    return b":" + text + body + b"]"


# Repeated, missing and near keys

def twice(seed, first, last):
    """A key's pair twice, other pairs around it."""
    spot = pick_spot(seed)
    items = [item for item in parts.pairs(seed).items() if item[0] != spot]
    one, other = sorted(seed.below(len(items) + 1) for _ in range(2))
    items.insert(other, (spot, value_of(seed, spot, last(seed, spot))))
    items.insert(one, (spot, value_of(seed, spot, first(seed, spot))))
    return line_of(seed, items)


def good_behind_bad(seed):
    return twice(seed, none_text, good_text)


def bad_behind_good(seed):
    return twice(seed, good_text, none_text)


def bad_behind_bad(seed):
    return twice(seed, none_text, none_text)


def another_data(seed):
    """A second `data` that is not in brackets, or is not closed and so no pair."""
    items = list(parts.pairs(seed).items())
    items.insert(seed.below(len(items) + 1), (b"data", seed.pick((b"1", b"z", b"[", b"[1, 2", b"[]", b"[3]"))))
    return line_of(seed, items)


def missing_keys(seed):
    found = {key: value for key, value in parts.pairs(seed).items() if key not in SPOTS or seed.one_in(2)}
    return line_of(seed, found.items())


def near_keys(seed):
    """Keys that start, end or look like ours."""
    found = parts.pairs(seed)
    spot = pick_spot(seed)
    value = found.pop(spot, b"0x1")
    near = seed.pick((
        spot[:-1], spot + b"_", spot + b"s", b"x" + spot, b"_" + spot, spot.upper(), spot.title(), spot + b" ", b"-" + spot, b"=" + spot, b"[" + spot,
        b"a=" + spot, b"0" + spot, spot + spot, spot + b"=", spot[1:], spot + b"\0"))
    items = [*found.items()]
    items.insert(seed.below(len(items) + 1), (near, value))
    return line_of(seed, items)


def hidden_keys(seed):
    """A key in the brackets of another value; where they do not close it is found all the same."""
    spot = pick_spot(seed)
    text = spot + b"=" + value_of(seed, spot, any_text(seed, spot))
    items = [(key, value) for key, value in parts.pairs(seed).items() if key != spot or seed.one_in(2)]
    items.insert(seed.below(len(items) + 1), (b"x", seed.pick((b"[%s]", b"[%s", b"[[%s]", b"%s", b"[ %s ]")) % text))
    return line_of(seed, items)


# Lines that are refused for something else

REFUSED = {
    "no task": (b"[002] 1.2: f", b"", b"- [002] 1.2: f"),
    "no pid": (b"a-b [002] 1.2: f", b"a-4294967296 [002] 1.2: f"),
    "no cpu": (b"a-1 1.2: f", b"a-1 [02] 1.2: f"),
    "no timestamp": (b"a-1 [002] f", b"a-1 [002] 9223372036854775808.0: f", b"a-1 [002] 1.2:f"),
    "no function": (b"a-1 [002] 1.2: f.", b"a-1 [002] 1.2: a b"),
}


def hex_pairs(seed):
    """Good pairs, of which the hex ones are read or not, but the route."""
    found = parts.pairs(seed)
    found.update((key, any_text(seed, key)) for key in KEYS[1:] if seed.below(3))
    found[b"data"] = bracket(seed.several(1, 5, lambda s: any_text(s, b"data")))
    return found


def without(name, heads):
    """A line whose header lacks something."""
    def made(seed):
        return seed.pick(heads) + b": " + parts.payload({**hex_pairs(seed), b"route": any_text(seed, b"route")})
    made.__name__ = name
    return made


def no_pair(key, texts):
    """A line that lacks a pair, or whose pair is unreadable."""
    def made(seed):
        found = hex_pairs(seed)
        text = seed.pick(texts)
        found.pop(key)
        if text is not None:
            found[key] = text
        return parts.line(seed, None, found)
    made.__name__ = "no " + key.decode()
    return made


def no_route(seed):
    found = hex_pairs(seed)
    found[b"route"] = none_text(seed, b"route")
    if seed.one_in(5):
        found.pop(b"route")
    return parts.line(seed, None, found)


def many_dwords(seed):
    """About 256 dwords, some of the pieces bad."""
    listed = [b"%x" % seed.below(16) for _ in range(seed.within(255, 258))]
    for _ in range(seed.below(4)):
        listed.insert(seed.below(len(listed) + 1), none_text(seed, b"data"))
    return parts.line(seed, None, {**hex_pairs(seed), b"data": bracket(listed)})


# Lines without a payload

def idle(seed):
    return seed.pick((b"", b"\n", b"#", b"#\n", b"#:offset=0x", b"# " + ordinary(seed), b"#" * 4097, b"#\xff"))


def filled(seed, length):
    """A line of this length, the last text at its end."""
    spot = pick_spot(seed)
    behind = b", " + spot + b"=" + value_of(seed, spot, any_text(seed, spot))
    start = ordinary(seed).rstrip(b"\n")
    return start + b" " * (length - len(start) - len(behind)) + behind


def at_the_longest(seed):
    return filled(seed, seed.within(LONGEST - 1, LONGEST))


def too_long(seed):
    text = filled(seed, LONGEST + seed.within(1, 2))
    return seed.pick((text, text, text.replace(b":", b";"), b"\xa1" + text[1:], text[:-1] + b"\xff"))


def high_byte(seed):
    text = with_text(seed, pick_spot(seed), any_text(seed, b"data"))
    at = seed.below(len(text) + 1)
    text = text[:at] + bytes([seed.within(128, 255)]) + text[at + seed.below(2):]
    return text.replace(b":", b";") if seed.one_in(4) else text


def starts_with_a1(seed):
    return b"\xa1" + seed.pick((b"", b"\0\0", b":", ordinary(seed), b"\x01\0\x01", b" " * 4096))


def no_colon(seed):
    return seed.pick((ordinary(seed).replace(b":", seed.pick((b";", b""))), b"x", b" \n", b"\r\n", b" #", b"offset=0x", b"\0", b"data=[0x1, ]"))


def bare(seed):
    """No header, and little behind the colon."""
    spot = pick_spot(seed)
    pair = spot + b"=" + value_of(seed, spot, any_text(seed, spot))
    return seed.pick((b":", b": ", b" :", b"::", b":\n")) + seed.pick((b"", pair, pair, pair + b"\n", pair + b" ", b"x" + pair))


CLASSES = (
    ordinary, of_any_line, damaged, bad_anywhere, bad_first, bad_behind_prefix, bad_last, several_bad, bad_behind_too_wide, at_the_edge, many_zeros,
    wide_by_far, prefixes, empty_key, empty_pieces, brackets_as_value, glued, blanks_in_pieces, colon_in_the_data, between_pairs, many_pieces,
    good_behind_bad, bad_behind_good, bad_behind_bad, another_data, missing_keys, near_keys, hidden_keys,
    *(without(name, heads) for name, heads in REFUSED.items()),
    no_pair(b"type", (None,)), no_pair(b"size", (None, b"z", b"0x1", b"65536")), no_pair(b"domain", (None, b"z", b"4294967296")), no_route,
    no_pair(b"data", (None, b"1", b"0x1", b"z", b"[", b"[1, 2", b"[]")), many_dwords,
    idle, at_the_longest, too_long, high_byte, starts_with_a1, no_colon, bare)
# Those of very many pieces stand in one round of so many.
ROUNDS = {many_pieces: 60, many_dwords: 20}


def named(make):
    return make.__name__.replace("_", " ")


def generate(seed):
    """Class and line, one after the other, each class in turn, without end."""
    source = Seed(seed)
    for turn in count():
        for make in CLASSES:
            if turn % ROUNDS.get(make, 1) == 0:
                yield named(make), make(source)


# Short texts, all of them

GOOD = b"a-1 [002] 1.2: f: type=t size=3 domain=0 route=0 data=[1] "
LETTERS = b"0", b"1", b"f", b"F", b"x", b"X", b"g"


def put(spot, text):
    """The text at its spot in a good line."""
    return GOOD + spot + b"=" + (b"[2, " + text + b", 0x3]" if spot == b"data" else text)


def texts(tokens, longest):
    for length in range(longest + 1):
        for chosen in product(tokens, repeat=length):
            yield b"".join(chosen)


def short_texts(longest):
    """Every text for each spot, of letters, and of half as many digits as it has."""
    for spot, bits in SPOTS.items():
        for text in chain(texts(LETTERS, longest), texts((b"0x", b"f" * (bits // 8), b"1", b"0", b"g"), longest)):
            yield f"short {spot.decode()}", put(spot, text)


def every_place():
    """One bad digit at each place of up to 20."""
    for spot, length, start in product(SPOTS, range(1, 21), (b"", b"0x")):
        for at in range(length):
            yield "every place", put(spot, start + b"1" * at + b"g" + b"1" * (length - at - 1))


def every_byte():
    """Each byte first, second, third and last in a text."""
    for spot, byte in product(SPOTS, range(256)):
        for before, behind in ((b"", b"1"), (b"0", b"1"), (b"0x", b"1"), (b"0x1", b"")):
            yield "every byte", put(spot, before + bytes([byte]) + behind)


def short_lines(longest):
    """Every bracket's inside, every end of a payload and every line of few tokens."""
    for name, before, tokens, behind in (
            ("short pieces", GOOD + b"data=[", (b"0x", b"1", b", ", b",", b" ", b"g"), b"]"),
            ("short pairs", GOOD, (b"offset", b"=", b"[", b"]", b"1", b" ", b":"), b""),
            ("short lines", b"", (b":", b"#", b"offset=0x", b"data=[, ]", b"\n", b" ", b"\xa1"), b"")):
        for text in texts(tokens, longest):
            yield name, before + text + behind


def all_short(longest):
    """Name and line; nothing at all for `longest` 0."""
    return chain(short_texts(longest), every_place(), every_byte(), short_lines(longest)) if longest else iter(())


def main():
    parser = argparse.ArgumentParser(description=__doc__)
    parser.add_argument("--seed", type=int, default=1)
    parser.add_argument("--count", type=int, default=10_000)
    parser.add_argument("--short", type=int, default=4, help="tokens in the longest short text")
    parser.add_argument("out")
    asked = parser.parse_args()
    classes = Counter()
    with open(asked.out, "wb") as out:
        for name, line in chain(all_short(asked.short), islice(generate(asked.seed), asked.count)):
            classes[name] += 1
            out.write(frame(line))
    for name, number in sorted(classes.items()):
        print(f"{name}: {number}")


if __name__ == "__main__":
    main()
