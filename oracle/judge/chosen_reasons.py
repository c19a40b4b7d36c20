"""Lines of the frozen reasons that were chosen one by one: the smallest that tell two readings of document 02 apart, and the edges."""

from judge.chosen import GOOD, HEAD

# Whole lines about where a payload is and where it is not.
WHOLE = [
    b"", b"\n", b"#", b"#:offset=0x", b"#\xff", b"#" * 4097, b" ", b"x", b" #", b"\r\n", b"offset=0x", b"\0", b":", b"::", b": \n",
    b":offset=0x", b"offset=1:", b"offset=1: offset=2", b":offset=0x:", b"[: x", b"[1]: data=2", b":data=[, ]", b"\xa1", b"\xa1\0\0",
    b"\xa1:offset=0x", b"\xa1" * 4097, b"x\xff", b"\x7f:route=1", b":route=1\x80", b"#:\x80", b"x" * 4097, b":offset=0x1" + b" " * 4085,
    b":offset=0x1" + b" " * 4086, b":offset=" + b"0" * 4087 + b"z", b":offset=" + b"0" * 499 + b"10000", b":offset=0x" + b"f" * 500 + b"g",
    b":data=[" + b"0" * 499 + b"1]", GOOD, GOOD + b"\n", b"\t\n" + GOOD + b" \r\n"]

# Values of each key.
VALUES = [
    b"", b"0", b"1", b"0x", b"0x0", b"0x1", b"0xg", b"g", b"0X1", b"0X", b"x1", b"x", b"0x0x1", b"0x0x", b"00x1", b"0xx", b"_", b"1_0", b"[1]",
    b"[0x1]", b"[0x]", b"[]", b"[ ]", b"-1", b"1-", b"0x1ffffz", b"zz", b"1g1g", b"aAfF", b"ff", b"100", b"0ff", b"0x00100", b"ffff", b"10000",
    b"0xFFFF", b"0x1FFFF", b"00000ffff", b"ffffffff", b"100000000", b"ffffffffffffffff", b"10000000000000000", b"0x0ffffffffffffffff",
    b"fffffffffffffffff", b"0000000000000000000000000000ff", b"0x1000000000000000000000000000000000000000000000000g"]

# What `data` is, behind a good one.
DATA = [
    b"1", b"z", b"0x1", b"[", b"[1", b"[]", b"[]]", b"[1]", b"[0x1, ]", b"[, ]", b"[, , ]", b"[0x]", b"[0x1, zz, 0x2]", b"[0x1,0x2]",
    b"[0x1,  0x2]", b"[0x1 , 0x2]", b"[ 0x1]", b"[0x1 ]", b"[\t1, 1\n]", b"[,]", b"[ ]", b"[1, 2,]", b"[1, 2, ", b"[[1]", b"[[1], 2]",
    b"[1, [2], 3]", b"[1:2]", b"[ffffffff, 100000000, 0x0ffffffff, 0x100000000, 000000001, 0000000000100000000]", b"[0x04zz, 1]",
    b"[-1, +1, 0X1, 0x0x1, x1, 1_0, 0xg]", b"[0xfffffffffg, g, 0x1ffffffff0000g1]", b"[@, `, /, G, g, {, ~, \x7f]",
    b"[1, 1, 1, 1, 1, 1, 1, 1, 1, 1, 1, z]", b"[,  , ,, ,]"]

# Behind good pairs.
BEHIND = [
    b"offset=1 offset=z", b"offset=z offset=1", b"offset=0x offset=10000", b"route=z", b"route=1 route=", b"error=z error=[1]", b"xoffset=1",
    b"offset_=1", b"Offset=1", b"offse=1", b"a-offset=1", b"offset =1", b"offset= 1", b"offset==1", b"a=offset=1", b"a=[offset=1",
    b"a=[offset=1]", b"[offset=1]", b"offset=1[2]", b"offset=[1]2", b"offset=1 data=[2] offset=3 data=[4]", b"offset=1,offset=2",
    b"offset=1offset=2", b"offset=1:offset=2", b"error=100", b"config=0x100 unplug=0xFF", b"x=[data=[5]", b"data=[6", b"data=7"]

# Lines that are refused for something else, with texts that read as something.
REFUSED = [
    b"type=t offset=0x1ffff route=0xg data=[0x1, ]", b"size=3 domain=0 route=1 error=0x data=[z]",
    b"type=t size=z domain=0 route=1 unplug=100 data=[1]", b"type=t size=3 domain=z route=1 config=g data=[1]",
    b"type=t size=3 domain=0 route=10000000000000000 data=[1]", b"type=t size=3 domain=0 data=[1]", b"type=t size=3 domain=0 route=1 offset=g",
    b"type=t size=3 domain=0 route=1 data=[%s]" % b", ".join([b"1"] * 257)]
HEADS = [b"", b"a", b"a-b", b"a-1", b"a-1 [002]", b"a-1 [002] 1.2: f."]


def lines():
    yield from WHOLE
    for key in b"route", b"offset", b"error", b"config", b"unplug":
        yield from (GOOD + b" " + key + b"=" + text for text in VALUES)
    yield from (GOOD + b" data=" + text for text in DATA)
    yield from (GOOD + b" " + text for text in BEHIND)
    yield from (HEAD + text for text in REFUSED)
    yield from (head + b": " + REFUSED[0] for head in HEADS)
