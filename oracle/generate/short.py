"""All short texts over a small alphabet, each part of a line in turn, the rest of it good."""

from itertools import product

GOOD = b"type=t size=3 domain=0 route=0 data=[1]"
GOOD_LINE = b"a-1 [002] 1.2: f: " + GOOD
SAMPLE = (
    b"a-1 [002] 1.2: tb_tx: type=TB_CFG_PKG_READ, size=3, domain=0, route=0x1, len=2, "
    b"data=[0x1, 2]\n")

# Name: what stands before, the alphabet, what stands behind, and how many tokens more or fewer
# than the others this part gets.
PARTS = {
    "short whole": (b"", (b":", b"#", b" ", b"\n", b"a"), b"", 0),
    "short run": (b"", (b"a", b"-", b"1", b" "), b" [002] 1.2: f: " + GOOD, 1),
    "short cpu": (b"a-1 ", (b"[", b"]", b"0", b"00"), b" 1.2: f: " + GOOD, 1),
    "short time": (b"a-1 [002] ", (b"1", b".", b":", b" "), b"f: " + GOOD, 1),
    "short late time": (b"a-1 [002] 1", (b"2", b".", b":", b"\t"), b": f: " + GOOD, 1),
    "short function": (b"a-1 [002] 1.2:", (b"a", b":", b" ", b"-"), b": " + GOOD, 1),
    "short split": (b"a-1 [002] 1.2: f", (b":", b" ", b"a", b"="), GOOD, 1),
    "short pairs": (GOOD_LINE, (b"size", b"=", b"[", b"]", b"4", b" "), b"", 0),
    "short first pairs": (b"a-1 [002] 1.2: f: ", (b"a", b"=", b"[", b"]", b" "), GOOD, 0),
    "short data": (GOOD_LINE + b" data=[", (b"0x", b"1", b",", b" ", b"g"), b"]", 0),
    "short pieces": (GOOD_LINE + b" data=[", (b"ffff", b"1", b"0", b", "), b"]", 1),
    "short data value": (GOOD_LINE + b" data=", (b"[", b"]", b"1", b", "), b"", 1),
    "short hex": (GOOD_LINE + b" offset=", (b"0", b"x", b"F", b"g", b"_"), b"", 0),
    "short route": (GOOD_LINE + b" route=", (b"0x", b"ffff", b"1", b"0", b"g"), b"", 0),
    "short decimal": (GOOD_LINE + b" size=", (b"0", b"6", b"5", b"a", b"-"), b"", 0),
    "short type": (
        b"a-1 [002] 1.2: tb_tx: " + GOOD + b" type=",
        (b"TB_CFG_PKG_", b"READ", b"ICM_", b"EVENT", b"_"), b"", -1),
}


def texts(tokens, longest):
    for length in range(longest + 1):
        for chosen in product(tokens, repeat=length):
            yield b"".join(chosen)


def every_byte():
    """One good line with each byte replaced, put in or taken out, at each place."""
    for at in range(len(SAMPLE) + 1):
        yield "one byte taken out", SAMPLE[:at] + SAMPLE[at + 1:]
        for byte in range(256):
            yield "one byte put in", SAMPLE[:at] + bytes([byte]) + SAMPLE[at:]
            yield "one byte replaced", SAMPLE[:at] + bytes([byte]) + SAMPLE[at + 1:]


def all_short(longest):
    """Part's name and line; nothing at all for `longest` 0."""
    if longest < 1:
        return
    for name, (before, tokens, behind, more) in PARTS.items():
        for text in texts(tokens, longest + more):
            yield name, before + text + behind
    yield from every_byte()
