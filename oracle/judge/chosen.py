"""Lines of the frozen sample that were chosen one by one: the documents' cases and the edges."""

from generate.lines import BAD_PIECES, FAULTY_HEADS

HEAD = b"a-1 [002] 1.2: f: "
BODY = b"type=t size=3 domain=0 route=0 data=[1]"
GOOD = HEAD + BODY

# Whole lines about where a line begins, ends and is split.
WHOLE = [
    b"", b"\n", b"#", b"#\n", b"# tracer: nop\n", b"#" + GOOD, b" \n", b"\r\n", b"\n\n", b" #",
    b" " + GOOD, b"nonsense\n", b":", b"::", b": ", GOOD, GOOD + b"\n", GOOD + b"\r\n",
    b"\t\n\v\f\r " + GOOD + b" \r\f\v\n\t",
    b" fwd-7 [002] d..1. 12.000345: tb_tx: type=TB_CFG_PKG_READ, size=3, domain=0, route=0, "
    b"data=[0x0, 0x0, 0x04002001]\n",
    b"\0", b"\0:", b"\0" + GOOD, GOOD + b"\0", b"\x1f" + GOOD, b"\x7f" + GOOD, b"\x80", b"\xff",
    b"#\xff", GOOD + b"\x80", "a-1 [002] 1.2: f\u00e9: ".encode() + BODY,
    "a-\u0663 [002] 1.2: f: ".encode() + BODY, "a-1 [002] 1.2:\u00a0f: ".encode() + BODY,
    b"a-1 [002] 1.2: :", b"a-1 [002] 1.2: : " + BODY,
    HEAD + b"type=t size=3 domain=0 route=0 data=[1:2]", HEAD + BODY + b" x=[:]",
    HEAD + BODY + b":", GOOD + b": " + BODY]

HEADERS = [
    b"a-1-b [002] 1.2: f", b"a-1-2 [002] 1.2: f", b"a--1 [002] 1.2: f", b"-1 [002] 1.2: f",
    b"--1 [002] 1.2: f", b"a- [002] 1.2: f", b"a-b [002] 1.2: f", b"a [002] 1.2: f",
    b"- [002] 1.2: f", b"a -1 [002] 1.2: f", b"a\t-1 [002] 1.2: f", b"a\nb-1 [002] 1.2: f",
    b"a-1x [002] 1.2: f", b"a-0000000001 [002] 1.2: f", b"a-4294967295 [002] 1.2: f",
    b"a-4294967296 [002] 1.2: f", b"a-1-4294967296 [002] 1.2: f",
    b"a-00000000004294967295 [002] 1.2: f", b"a-1-99999999999999999999x [002] 1.2: f",
    b"#a-1 [002] 1.2: f", b"a-1 [x] [002] 1.2: f", b"[001]-1 [002] 1.2: f", b"a-1 [0002] 1.2: f",
    b"a-1 [02] 1.2: f", b"a-1 [[003]] 1.2: f", b"a-1[004] 1.2: f", b"a-1 [999] 1.2: f",
    b"a-1 [000] 1.2: f", b"a-1 [00 2] 1.2: f", b"a-1 002 1.2: f", b"a-1 1.2: f [002]",
    b"a-1 [002] 12.34.56: f", b"a-1 [002] 1.2 f", b"a-1 [002] 1.2:f", b"a-1 [002] 1:2: f",
    b"a-1 [002] .2: f", b"a-1 [002] 1.: f", b"a-1 [002] x1.2: f", b"a-1 [002] 1.2x: f",
    b"a-1 [002] 1.5: f", b"a-1 [002] 007.000009: f",
    b"a-1 [002] 9223372036854775807.9223372036854775807: f", b"a-1 [002] 9223372036854775808.0: f",
    b"a-1 [002] 0.9223372036854775808: f", b"a-1 [002] 9223372036854775808.0: 1.2: f",
    b"3.4: a-1 [002] 1.2: f", b"3.4:-1 [002] 1.2: f", b"a-1 [002] 1.2:\tf",
    b"a-1 [002] 1.2:\n\v\f\r f", b"a-1 [002] 1.2:\x1cf", b"a-1 [002] 1.2: ", b"a-1 [002] 1.2: f.",
    b"a-1 [002] 1.2: a b", b"a-1 [002] 1.2: a: b", b"a-1 [002] 1.2: :b", b"a-1 [002] 1.2: a-b",
    b"a-1 [002] 1.2: _9Z", b"a-1 [002] 1.2: f \t", b"a-1 [002] 1.2: a::  b", b"a-1 [002] 1.2: \0f",
    b"a-1 [002] 5.: 1.2: f", b"a-1 [002] .5: 1.2: f", b"a-1 [002] 5.6x: 1.2: f",
    b"a-1 [002] 5.6:x 1.2: f", b"a-1 [002] 5 1.2: f", b"a-1 [002] 5.6.: 1.2: f",
    b"1-1 [002] 1.2: 3", b"", b" ", b"a-1", b"a-1 [002]"]

# Put behind the good pairs, so that they take the last word.
BEHIND = [
    b"a=b=c", b"size=1 size=2", b"data=[0x1, zz, 0x2]", b"data=[0x1,0x2]", b"data=[]", b"data=1",
    b"size=z", b"offset=ffff", b"offset=10000", b"offset=0xffff", b"offset=0x10000", b"offset=0X1",
    b"offset=0x", b"offset=0x0x1", b"offset=00000000000000000000001", b"offset=1 offset=z",
    b"offset=[1]", b"x=[size=4", b"x=[size=4]", b"x=[[size=4]", b"size=65535", b"size=65536",
    b"size=0065535", b"size=0x1", b"size=[1]", b"size=-1", b"size=+1", b"size=", b"size",
    b"size =4", b"size= 4", b"size==4", b"=size=4", b"-size=4", b"xsize=4", b"size=4=5",
    b"size=4[5]", b"size=4]", b"domain=4294967295", b"domain=4294967296", b"domain=0x0",
    b"domain=z", b"domain=[0]", b"route=ffffffffffffffff", b"route=0xFFFFFFFFFFFFFFFF",
    b"route=10000000000000000", b"route=0x", b"route=[0]", b"route=0X1",
    b"route=00000000000000000000000a", b"data=[ ]", b"data=[,]", b"data=[, ]", b"data=[[1]",
    b"data=[1]]", b"data=[[1]]", b"data=[1", b"data=[1, 2", b"data=[1 , 2]", b"data=[0x1,  0x2]",
    b"data=[ffffffff, 100000000, 000000001]", b"data=[0xDEADbeef]", b"data=[1, , 2]",
    b"data=[\n1, 2]", b"data=[1, 2, ]", b"data=[, 1]", b"data=[1][2]", b"data=[-1, +1, 0x, 0X1]",
    b"dropped=1", b"dropped=0", b"dropped=2", b"dropped=01", b"dropped=257", b"dropped=0x1",
    b"dropped=[1]", b"dropped=1 dropped=z", b"len=65535", b"len=65536", b"len=0x1", b"port=255",
    b"port=256", b"port=0x1", b"config=ff", b"config=100", b"config=0xFf", b"seq=255", b"seq=256",
    b"seq=a", b"unplug=1", b"unplug=0x1", b"unplug=0", b"unplug=ff", b"unplug=100", b"error=ff",
    b"error=100", b"error=g", b"type=[TB_CFG_PKG_READ]", b"type=[]", b"type=", b"Type=x",
    b"type=TB_CFG_PKG_ERROR", b"data=[1]data=[2]", b"a=[b=c]size=5", b"port=7 error=21",
    b"port=7 error=24", b"port=7 error=26", b"port=7 error=22", b"size=4\0", b"siz\0e=4",
    b"size\0=4"]

PAYLOADS = [
    b"", b"=", b"type", b"type=", b"type=t", b"type=t size=3", b"type=t size=3 domain=0",
    b"type=t size=3 domain=0 route=0", b"size=3 domain=0 route=0 data=[1]",
    b"type=t domain=0 route=0 data=[1]", b"type=t size=3 route=0 data=[1]",
    b"type=t size=3 domain=0 data=[1]", b"data=[1] route=0 domain=0 size=3 type=t",
    b"type=tsize=3domain=0route=0data=[1]", b"type=t,size=3,domain=0,route=0,data=[1]",
    b"[type=t size=3 domain=0 route=0 data=[1]", b"x=[type=t size=3 domain=0 route=0 data=[1]",
    b"type=[t]size=3 domain=0 route=0 data=[1]"]

TYPES = [b"TB_CFG_PKG_" + name for name in (
    b"READ", b"WRITE", b"ERROR", b"NOTIFY_ACK", b"EVENT", b"XDOMAIN_REQ", b"XDOMAIN_RESP",
    b"ICM_EVENT", b"ICM_CMD", b"ICM_RESP", b"", b"READ_", b"OVERRIDE")]
# Values of `data` whose pieces are all read, and some in which one is bad or there is none.
DATA = (
    b"[0]", b"[ffffffff]", b"[0xFFFFFFFF, 0xffffffff]", b"[00000000000000000000000ffffffff]", b"[0x000000000000001, 1]",
    b"[1, 2, 3, 4, 5, 6, 7, 8]", b"[]", b"[z] data=[]", b"[z] data=[1]", b"[1] data=[z]", b"[z] data=1", b"[1]]", b"[1, 2 ]")
UNREADABLE = (b"z", b"[1]", b"0x", b"65536")
OPTIONAL = (b"offset", b"error", b"len", b"port", b"config", b"seq", b"unplug", b"dropped")


def pieces(*counts):
    """A data bracket of so many dwords and so many bad pieces."""
    good, bad = counts
    dwords = [b"%x" % (i * 2654435761 % 2**32 >> i % 32) for i in range(good)]
    return b"data=[" + b", ".join(dwords + [b"zz"] * bad) + b"]"


def around(bad):
    """Brackets with a bad piece: alone, first, in the middle and last."""
    for some in ([bad], [bad, b"1"], [b"1", bad, b"2"], [b"1", bad]):
        yield b"[" + b", ".join(some) + b"]"


def data_lines():
    """Lines that hang on their pieces."""
    start = HEAD + b"type=t size=3 domain=0 route=0 data="
    yield from (start + text for text in DATA)
    yield from (start + text for bad in BAD_PIECES for text in around(bad))


def earlier():
    """A bad piece, with slots and without, in lines that an earlier number refuses: each of 1 to 15 (there is no 10)."""
    keys = [b"type=t", b"size=3", b"domain=0", b"route=0"]
    bad = b" ".join(keys) + b" data=[1, z]"
    lines = [b"#" + HEAD + bad, (HEAD + bad).ljust(4097), HEAD + bad + b"\x80", (HEAD + bad).replace(b":", b";")]
    lines += [head + b": " + bad for head in FAULTY_HEADS]
    lines += [HEAD + b" ".join(key for key in keys if key != missing) + b" data=[1, z]" for missing in keys]
    lines += [HEAD + bad + b" " + key for key in (b"size=z", b"domain=z", b"route=z", b"data=1")]
    return [(line, slots) for line in lines for slots in (256, 0)]


def plain_lines():
    yield from WHOLE
    yield from (header + b": " + BODY for header in HEADERS)
    yield from (GOOD + b" " + text for text in BEHIND)
    yield from (HEAD + text for text in PAYLOADS)
    for function in (b"tb_tx", b"tb_rx", b"f"):
        start = b"a-1 [002] 1.2: " + function + b": " + BODY
        yield from (start + b" type=" + name for name in TYPES)
    yield from (GOOD + b" error=0x%x port=5 unplug=%x" % (code, code % 3) for code in range(256))
    for key in OPTIONAL:
        yield from (GOOD + b" " + key + b"=" + text for text in UNREADABLE + (b"1", b"9"))
    yield GOOD + b" " + b" ".join(key + b"=1" for key in OPTIONAL)
    for length in (4095, 4096, 4097, 4098):
        yield GOOD + b"," * (length - len(GOOD))
        yield GOOD + b"\n" * (length - len(GOOD))
        yield b"#" + GOOD + b"," * (length - len(GOOD) - 1)
    yield b"a" * 4097
    yield b"\xff" * 4097


def with_slots():
    """Lines with the number of dword slots lent, around what each needs."""
    for count in (0, 1, 2, 3, 7, 12):
        text = GOOD + b" " + pieces(count, 1)
        near = sorted({0, max(count - 1, 0), count, count + 1, 256})
        yield from ((text, slots) for slots in near)
    for good, bad in ((255, 0), (256, 0), (256, 1), (257, 0), (258, 0), (257, 1)):
        yield from ((HEAD + BODY + b" " + pieces(good, bad), slots) for slots in (256, 255, 1, 300))
    # A refusal of the line comes before any of the slots.
    refused = (b"", b"x", GOOD, GOOD + b" size=z", GOOD + b" data=[]", HEAD, b"\x80")
    yield from ((text, 0) for text in refused)
