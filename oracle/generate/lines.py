"""Hard lines, by class: python3 oracle/generate/lines.py --seed N --count N --short N OUT"""

import os
import sys

sys.dont_write_bytecode = True
sys.path.insert(0, os.path.join(os.path.dirname(os.path.abspath(__file__)), ".."))

from generate import classes, parts, short

LONGEST = 4096
POWERS = (8, 16, 32, 63, 64)

BYTE_CLASSES = {
    "blank": bytes([9, 10, 11, 12, 13, 32]),
    "near blank": bytes([8, 14, 28, 29, 30, 31, 33]),
    "digit": b"0123456789",
    "near digit": b"/:",
    "hex letter": b"abcdefABCDEF",
    "near hex": b"gG@`xX",
    "letter": b"hijklmnopqrstuvwyzHIJKLMNOPQRSTUVWYZ",
    "near letter": b"@[`{",
    "underscore": b"_^",
    "bracket": b"[]",
    "dash": b"-",
    "colon": b":;",
    "dot": b".",
    "equals": b"=<>",
    "comma": b",",
    "hash": b"#",
    "other mark": b"!\"$%&'()*+?@\\|}~",
    "control": bytes(range(0, 9)) + bytes(range(14, 32)),
    "delete": bytes([127]),
    "high": bytes(range(128, 256)),
}


def kernel(seed):
    """As the kernel prints it."""
    return parts.line(seed)


def comment(seed):
    """Empty, a newline alone, or starts with `#`; and what is only near that."""
    starts = (b"#", b"# tracer: nop\n", b"", b"\n", b"\n\n", b"\r\n", b" #", b" \n", b"#\n", b"\0")
    return seed.pick(starts) + (parts.line(seed) if seed.one_in(2) else b"")


def damaged_by(members):
    """One to three bytes of a byte class put in or put in another's place, or bytes taken out."""
    def damaged(seed):
        text = bytearray(parts.line(seed))
        for _ in range(seed.within(1, 3)):
            byte = bytes([seed.pick(members)])
            at = seed.below(len(text) + 1)
            how = seed.below(6)
            if how < 2:
                text[at:at] = byte
            elif how < 4:
                text[at:at + 1] = byte
            elif how == 4:
                text[at:at] = byte * seed.within(2, 5)
            else:
                found = text.find(byte, at)
                del text[found:found + 1]
        return bytes(text)
    return damaged


def cut(seed):
    """Ends or begins anywhere."""
    text = parts.line(seed)
    at = seed.below(len(text) + 1)
    return text[:at] if seed.one_in(2) else text[at:]


def repeated(seed):
    """Keys twice or more, the last one sometimes unreadable."""
    found = list(parts.pairs(seed).items())
    for _ in range(seed.within(1, 5)):
        key, value = seed.pick(found)
        if key in parts.NUMBERS:
            value = parts.number(seed, key)
        if seed.one_in(3):
            value = seed.pick((b"z", b"[1]", b"0x", b"99999999999999999999", value))
        found.insert(seed.below(len(found) + 1), (key, value))
    return parts.header(seed) + b": " + parts.joined(found)


BRACKETS = (
    b"[]", b"[[1]]", b"[[1]", b"[1]]", b"[", b"]", b"[1", b"1]", b"[]]", b"[[]", b"[ ]", b"[[]]",
    b"[1][2]", b"[]1]", b"[size=4", b"[size=4]", b"[1, [2], 3]", b"[\n]", b"[=]", b"[,]", b"[, ]",
    b"[a=[1]", b"[a=1]b=2]")


def brackets(seed):
    """Nested, empty and unclosed, as values and loose."""
    found = parts.pairs(seed)
    for _ in range(seed.within(1, 2)):
        found[seed.pick(list(found) + [b"x", b"y"])] = seed.pick(BRACKETS)
    items = seed.shuffled(found.items()) if seed.one_in(2) else list(found.items())
    body = parts.joined(items)
    if seed.one_in(4):
        at = seed.below(len(body) + 1)
        body = body[:at] + seed.pick(BRACKETS) + body[at:]
    return parts.header(seed) + b": " + body


def edge(seed):
    """A number at or beside a power of two."""
    return max(0, 2 ** seed.pick(POWERS) + seed.within(-2, 2))


def edge_text(seed, form):
    zeros = b"0" * seed.pick((0, 0, 1, 2, 7, 20))
    if form == "hex":
        digits = b"%x" % edge(seed)
        digits = digits.upper() if seed.one_in(3) else digits
        return seed.pick((b"0x", b"0x", b"", b"0X", b"0x0x")) + zeros + digits
    return seed.pick((b"", b"", b"", b"", b"+", b"-", b"0x", b"_")) + zeros + b"%d" % edge(seed)


def numbers(seed):
    """Every number of a line at 2^8, 2^16, 2^32, 2^63 and 2^64, with leading zeros."""
    found = parts.pairs(seed)
    for _ in range(seed.within(1, 3)):
        key = seed.pick(list(parts.NUMBERS))
        found[key] = edge_text(seed, parts.NUMBERS[key][0])
    if seed.one_in(4):
        found[b"data"] = b"[" + b", ".join(seed.several(1, 4, lambda s: edge_text(s, "hex"))) + b"]"
    pid, seconds, rest = (edge_text(seed, "decimal") if seed.one_in(4) else b"1" for _ in range(3))
    head = b"a-%s [002] %s.%s: tb_rx" % (pid, seconds, rest)
    return parts.line(seed, head, found)


def spread(seed, pieces, low, high):
    """Many of the pieces, run together or between bytes that may join them."""
    glue = (b"", b"", b" ", b"a", b"1", b"\t")
    return b"".join(seed.pick(pieces) + seed.pick(glue) for _ in range(seed.within(low, high)))


def dashes(seed):
    """Many dashes in the first run."""
    run = spread(seed, (b"-", b"--", b"-1", b"a-", b"1-2", b"-b", b"- "), 1, 8)
    return parts.line(seed, run + seed.pick((b"", b" ")) + b"[002] 1.2: tb_tx")


def colons(seed):
    """Many colons, before, in and behind the payload."""
    text = parts.line(seed)
    for _ in range(seed.within(1, 6)):
        at = seed.below(len(text) + 1)
        if seed.one_in(2):
            at = max(text.rfind(b":"), 0) + seed.below(3)
        text = text[:at] + seed.pick((b":", b": ", b" :", b"::", b":\t")) + text[at:]
    return text


def cpus(seed):
    """Many `[ddd]`, whole and broken, before, at and behind the CPU's place."""
    some = (
        b"[001]", b"[12]", b"[1234]", b"[[003]]", b"[00x]", b"[ 04]", b"[999", b"]", b"[", b"[000]")
    run = seed.pick((b"a-1", b"[005]-1", b"a[006]-1", b"a-1[007]"))
    return parts.line(seed, run + b" " + spread(seed, some, 0, 6) + b" 1.2: tb_rx")


def timestamps(seed):
    """Many timestamps, whole and broken."""
    some = (
        b"1.2: ", b"12.34.56: ", b"1.2:3.4: ", b"1..2: ", b".5: ", b"5.: ", b"1.2 : ", b"1.2:",
        b"9223372036854775807.1: ", b"9223372036854775808.1: ", b"1.9223372036854775808: ",
        b"00012.000: ", b"1.2:\t", b"1.2:\n", b"1.2:\x0b", b"1.2:\x1c", b"a1.2: ", b"1a.2: ",
        b"1.2a: ")
    run = seed.pick((b"a-1", b"3.4:-1", b"a-1.5:"))
    end = seed.pick((b"f", b": f", b"7.8: f"))
    return parts.line(seed, run + b" [002] " + spread(seed, some, 0, 5) + end)


def functions(seed):
    """What ends the header: word runs, blanks, colons."""
    some = (b"f", b": f", b":f", b": ", b"tb_tx", b":\ttb_rx", b"-", b"f.", b": a b", b"\x7f")
    end = spread(seed, some, 0, 4)
    return parts.line(seed, b"a-1 [002] 1.2: " + end)


def blanks(seed):
    """All blanks; or blanks of every sort where one may stand."""
    sorts = [b"\t", b"\n", b"\v", b"\f", b"\r", b" "]
    if seed.one_in(3):
        return b"".join(seed.pick(sorts) for _ in range(seed.within(1, 40)))
    near = sorts + [b"", b"\x1c", b"\x1f", b"\x85", b"\xa0", b"\x08"]
    text = bytearray()
    for byte in parts.line(seed):
        text += seed.pick(near) if byte == 32 and seed.one_in(4) else bytes([byte])
    ends = b"".join(seed.several(0, 3, lambda s: s.pick(sorts)))
    return ends + bytes(text) + ends[::-1]


def nul(seed):
    """NUL anywhere, alone and many."""
    text = parts.line(seed)
    for _ in range(seed.within(1, 4)):
        at = seed.below(len(text) + 1)
        text = text[:at] + b"\0" * seed.within(1, 3) + text[at + seed.below(2):]
    return text if not seed.one_in(8) else b"\0" * seed.within(1, 9)


# Blanks, digits and word letters beyond ASCII, a mark, and bytes that are no UTF-8.
HIGH = [text.encode() for text in (
    "\u0085", "\u00a0", "\u2003", "\u3000", "\u0663", "\uff11", "\u00e9", "\u01c5", "\u4e2d",
    "\u203f", "\u0301", "\U0001d7d8", "\u00d7", "\ufeff")] + [
    b"\x80", b"\xff", b"\xc3", b"\xed\xa0\x80", b"\xf4\x90\x80\x80", b"\xc0\xaf"]


def high(seed):
    """Bytes of 128 up, valid UTF-8 and not, in every part."""
    text = parts.line(seed)
    for _ in range(seed.within(1, 2)):
        at = seed.below(len(text) + 1)
        text = text[:at] + seed.pick(HIGH) + text[at + seed.below(2):]
    return text


def filled(seed, length):
    """A good line of exactly this length."""
    head, found = parts.header(seed), parts.pairs(seed)
    room = length - len(head) - 2 - len(parts.payload(found))
    where = seed.below(5)
    if where == 0:
        return b"x" * room + head.lstrip() + b": " + parts.payload(found)
    if where == 1:
        return head + b": " + b" " * room + parts.payload(found)
    if where == 2:
        return head + b": " + parts.payload(found) + b"\n" * room
    if where == 3:
        return head + b": " + parts.payload(found) + b"," * room
    return head + b": x=[" + b"y" * (room - 7) + b"], " + parts.payload(found) + b"\n"


def long(seed):
    """4,095 to 4,098 bytes, good and not, newline counted or not."""
    text = filled(seed, seed.within(LONGEST - 1, LONGEST + 2))
    how = seed.below(8)
    if how == 0:
        text = b"#" + text[1:]
    elif how == 1:
        at = seed.below(len(text))
        text = text[:at] + b"\xc3\xa9"[:seed.within(1, 2)] + text[at + 1:]
    elif how == 2:
        text = text.replace(b":", b";")
    return text


def many_dwords(seed):
    """255 to 258 dwords, and bad pieces among them that do not count."""
    count = seed.within(255, 258)
    some = [b"%x" % seed.below(2 ** seed.within(1, 32)) for _ in range(count)]
    for _ in range(seed.pick((0, 0, 1, 3))):
        bad = seed.pick((b"zz", b"", b"0x", b"100000000", b" 1"))
        some.insert(seed.below(len(some) + 1), bad)
    return with_data(seed, bracketed(some))


def bracketed(some):
    return b"[" + b", ".join(some) + b"]"


def with_data(seed, value):
    """A line with this value of `data`."""
    found = parts.pairs(seed)
    found[b"data"] = value
    return parts.line(seed, None, found)


def pieces(seed):
    """Pieces of the data: good, bad, empty, glued."""
    some = (
        b"0x1", b"1", b"zz", b"", b"0x", b"0X1", b"00000000001", b"ffffffff", b"100000000", b" 1",
        b"1 ", b"-1", b"+1", b"0x0x1", b"1_0", b"FfFf", b"0xg", b"1,2", b"[1", b"\t1", b"x1", b"0")
    glue = (b", ", b", ", b", ", b",", b" ", b",  ", b" ,", b",\t", b", , ", b"")
    text = seed.pick(some)
    for _ in range(seed.below(7)):
        text += seed.pick(glue) + seed.pick(some)
    return with_data(seed, b"[" + text + b"]")


# Pieces that are no hex number of 32 bits: empty, with a bad digit, too wide, with a blank, two joined, with another prefix.
BAD_PIECES = (
    b"", b"0x", b"zz", b"0x04zz", b"none", b"0xg", b"1g", b"100000000", b"0x100000000", b"0x1ffffffff", b"0000000100000000",
    b"123456789abcdef01", b"1ffffffffg", b" 1", b"1 ", b"0x1 ", b"1 2", b"0x 1", b"\t1", b"1\n", b"0x1,0x2", b"1,2", b"1,",
    b",", b"0X1", b"0x0x1", b"00x1", b"-1", b"+1", b"1_0", b"x1", b"[1", b"a=1")


def good_piece(seed):
    """A hex number of 32 bits, in any of its forms."""
    digits = b"%x" % seed.pick((seed.below(2 ** seed.within(1, 32)), seed.below(2**32), 2**32 - 1, 0))
    digits = digits.upper() if seed.one_in(3) else digits
    return seed.pick((b"0x", b"0x", b"")) + b"0" * seed.pick((0, 0, 0, 1, 7, 20)) + digits


def good_pieces(seed):
    """Pieces that are all read."""
    return with_data(seed, bracketed(seed.several(1, 12, good_piece)))


def with_bad(seed, some):
    """These pieces and a bad one: first, in the middle or last, or alone where there are none."""
    place = seed.pick((0, seed.below(len(some) + 1), len(some)))
    return bracketed([*some[:place], seed.pick(BAD_PIECES), *some[place:]])


def bad_piece(seed):
    """One bad piece, among good ones or alone."""
    return with_data(seed, with_bad(seed, seed.several(0, 6, good_piece)))


def bad_pieces(seed):
    """Several bad pieces, and good ones or none between them."""
    some = seed.several(2, 4, lambda s: s.pick(BAD_PIECES)) + seed.several(0, 4, good_piece)
    return with_data(seed, bracketed(seed.shuffled(some)))


def bad_among_many(seed):
    """255 to 258 good pieces and a bad one."""
    count = seed.within(255, 258)
    return with_data(seed, with_bad(seed, [b"%x" % seed.below(2 ** seed.within(1, 32)) for _ in range(count)]))


def data_twice(seed):
    """Two `data`, one of them with a bad piece; the last counts."""
    both = seed.shuffled((bracketed(seed.several(1, 4, good_piece)), with_bad(seed, seed.several(0, 3, good_piece))))
    return with_data(seed, both[0] + b", data=" + both[1])


# Headers without task, pid, CPU, timestamp and function.
FAULTY_HEADS = (
    b"a [002] 1.2: f", b"a-b [002] 1.2: f", b"a-1 002 1.2: f", b"a-1 [002] 1 2: f", b"a-1 [002] 1.2: f.")


def bad_behind_fault(seed):
    """A bad piece in a line that an earlier number refuses: for the whole of it, its header, a key, or `data` itself."""
    found = parts.pairs(seed)
    found[b"data"] = with_bad(seed, seed.several(0, 3, good_piece))
    how = seed.below(4)
    if how == 0:
        text = parts.line(seed, None, found)
        return seed.pick((b"#" + text, text.ljust(LONGEST + 1), text + b"\x80", text.replace(b":", b";")))
    if how == 1:
        return parts.line(seed, seed.pick(FAULTY_HEADS), found)
    if how == 2:
        return parts.line(seed, None, found | {b"data": found[b"data"] + b", data=1"})
    key = seed.pick([key for key in parts.REQUIRED if key != b"data"])
    del found[key]
    # A type is never unreadable.
    if key != b"type" and seed.one_in(2):
        found[key] = b"z"
    return parts.line(seed, None, found)


def missing(seed):
    """A required key missing, unreadable or misspelt."""
    found = parts.pairs(seed)
    key = seed.pick(parts.REQUIRED)
    value = found.pop(key)
    bad = (b"z", b"0x", b"-1", b"", b"[1]", b"1.5", b"+1", b"[]", b"1z", b"65536", b"4294967296",
           b"0x1ffffffffffffffff", b"0X1")
    how = seed.below(4)
    if how == 0:
        found[key] = seed.pick(bad)
    elif how == 1:
        found[seed.pick((key[:-1], key + b"_", b"x" + key, key.upper(), b"_" + key))] = value
    elif how == 2:
        found[seed.pick((b"x-" + key, b"=" + key, b"[" + key, key + b" ", b"a=" + key))] = value
    return parts.line(seed, None, dict(seed.shuffled(found.items())))


def optional(seed):
    """Each optional key absent, present or unreadable."""
    found = parts.pairs(seed, [])
    found.pop(b"dropped")
    for key in parts.OPTIONAL:
        how = seed.below(4)
        if how == 1:
            found[key] = seed.pick(
                (b"z", b"0x", b"[1]", b"65536", b"256", b"0x100", b"0x10000", b"_1"))
        elif how > 1:
            found[key] = parts.number(seed, key)
    return parts.line(seed, None, found)


def events(seed):
    """Every event code, with the fields it governs."""
    found = parts.pairs(seed)
    found[b"type"] = b"TB_CFG_PKG_ERROR"
    found[b"error"] = b"0x%x" % seed.below(256)
    found[b"port"] = b"%d" % seed.below(256)
    found[b"unplug"] = b"0x%x" % seed.below(4)
    return parts.line(seed, None, found)


def types(seed):
    """Every type with every function, and near ones."""
    found = parts.pairs(seed)
    found[b"type"] = seed.pick(parts.TYPES * 2 + parts.OTHER_TYPES)
    function = seed.pick(parts.FUNCTIONS * 3 + parts.OTHER_FUNCTIONS)
    return parts.line(seed, b"a-1 [002] 1.2: " + function, found)


def separators(seed):
    """Pairs with other bytes between them than comma-space, or none."""
    some = (b" ", b",", b"\t", b"\n", b"=", b"-", b".", b"]", b"", b"[", b"\x7f", b"==", b" = ")
    return parts.line(seed, None, parts.pairs(seed), seed.pick(some))


def soup(seed):
    """Tokens of a line in any order."""
    tokens = (
        b"a", b"1", b"-", b" ", b"[", b"]", b"[002]", b".", b":", b": ", b"=", b",", b", ", b"0x",
        b"size", b"type=t", b"domain=0", b"route=0", b"data=[1]", b"size=3", b"1.2", b"tb_tx",
        b"\n")
    text = b"".join(seed.several(0, 14, lambda s: s.pick(tokens)))
    if seed.one_in(2):
        return parts.header(seed) + b": type=t size=3 domain=0 route=0 data=[1] " + text
    return text


def hostile(seed):
    """Long runs that a plain search meets again and again."""
    unit = seed.pick((
        b"a", b"a=[", b"1", b"-1", b"1.", b"[00", b"a=", b"=", b"1.2:", b"a ", b"[1, ", b"- "))
    run = unit * (seed.within(1500, 3000) // len(unit))
    if seed.one_in(2):
        return parts.header(seed) + b": " + run + b" " + parts.payload(parts.pairs(seed))
    return b"a-1 " + run + b" [002] 1.2: tb_tx: " + parts.payload(parts.pairs(seed))


CLASSES = {
    "kernel": kernel, "comment": comment, "cut": cut, "repeated": repeated,
    "brackets": brackets, "numbers": numbers, "dashes": dashes, "colons": colons, "cpus": cpus,
    "timestamps": timestamps, "functions": functions, "blanks": blanks, "nul": nul, "high": high,
    "long": long, "dwords": many_dwords, "pieces": pieces, "missing": missing,
    "optional": optional, "events": events, "types": types, "separators": separators,
    "soup": soup, "hostile": hostile,
}
CLASSES.update((f"damaged, {name}", damaged_by(members)) for name, members in BYTE_CLASSES.items())
# Those on which strict hangs; behind the others, so that their lines stay as they are.
ABOUT_PIECES = {
    "good pieces": good_pieces, "bad piece": bad_piece, "bad pieces": bad_pieces, "bad among many": bad_among_many,
    "data twice": data_twice, "bad behind a fault": bad_behind_fault}
CLASSES.update(ABOUT_PIECES)
# What gets another share than the others: classes of long lines, the twenty of damage, and two about pieces.
SHARE = {"hostile": 0.02, "long": 0.1, "dwords": 0.1, "bad among many": 0.1, "good pieces": 2, "bad piece": 2}
SHARE.update((f"damaged, {name}", 0.2) for name in BYTE_CLASSES)


def generate(seed, count, longest_short, only=None):
    """Class and line, about `count` over all classes or one, then all short texts."""
    yield from classes.by_class(CLASSES, SHARE, seed, count, only)
    yield from short.all_short(longest_short)


if __name__ == "__main__":
    classes.write(__doc__, CLASSES, generate)
