"""The line grammar, strict and lenient: a line to its entry, or the number of its refusal."""

from reading.texts import (
    BLANKS, DIGITS, WORDS, Refused, decimal, hexadecimal, listed, or_none, run_end, stripped)

LONGEST = 4096
MOST_DWORDS = 256

KINDS = {
    b"ERROR": 5, b"NOTIFY_ACK": 6, b"EVENT": 7, b"XDOMAIN_REQ": 8, b"XDOMAIN_RESP": 9,
    b"ICM_EVENT": 10, b"ICM_CMD": 11, b"ICM_RESP": 12,
}
DIRECTED_KINDS = {
    (b"READ", b"tb_tx"): 1, (b"READ", b"tb_rx"): 2,
    (b"WRITE", b"tb_tx"): 3, (b"WRITE", b"tb_rx"): 4,
}
EVENT_NAMES = {
    0: "ERR_CONN", 1: "ERR_LINK", 2: "ERR_ADDR", 4: "ERR_ADP", 7: "HP_ACK", 8: "ERR_ENUM",
    9: "ERR_NUA", 11: "ERR_LEN", 12: "ERR_HEC", 13: "ERR_FC", 14: "ERR_PLUG", 15: "ERR_LOCK",
    32: "DP_BW", 33: "ROP_CMPLT", 34: "POP_CMPLT", 35: "PCIE_WAKE", 36: "DP_CON_CHANGE",
    37: "DPTX_DISCOVERY", 38: "LINK_RECOVERY", 39: "ASYM_LINK",
}
# Events whose info byte is something else than an adapter.
NO_ADAPTER = (33, 36)

# Optional fields: key, how it reads, bits.
OPTIONAL = {
    "offset": (b"offset", hexadecimal, 16),
    "event": (b"error", hexadecimal, 8),
    "len": (b"len", decimal, 16),
    "port": (b"port", decimal, 8),
    "config": (b"config", hexadecimal, 8),
    "seq": (b"seq", decimal, 8),
    "unplug": (b"unplug", hexadecimal, 8),
}


def first_run(header):
    """The bytes before the first byte 32."""
    end = header.find(b" ")
    return header if end < 0 else header[:end]


def task(header):
    """All before the last `-` that has a byte before it."""
    run = first_run(header)
    for at in range(len(run) - 1, 0, -1):
        if run[at] == ord("-"):
            return run[:at]
    raise Refused(5)


def pid(header):
    """The digit run after the last `-` that has a byte before it and a digit after it."""
    run = first_run(header)
    for at in range(len(run) - 2, 0, -1):
        if run[at] == ord("-") and run[at + 1] in DIGITS:
            value = decimal(run[at + 1:run_end(run, at + 1, DIGITS)], 2**32)
            if value is None:
                raise Refused(6)
            return value
    raise Refused(6)


def cpu(header):
    """The first `[`, three digits, `]`."""
    at = header.find(b"[")
    while at >= 0:
        if run_end(header[at + 1:at + 4], 0, DIGITS) == 3 and header[at + 4:at + 5] == b"]":
            return int(header[at + 1:at + 4])
        at = header.find(b"[", at + 1)
    raise Refused(7)


def timestamp(header):
    """The first whole digit run followed by `.`, a digit run, `:` and a blank."""
    at = 0
    while at < len(header):
        if header[at] not in DIGITS:
            at += 1
            continue
        dot = run_end(header, at, DIGITS)
        if header[dot:dot + 1] == b".":
            colon = run_end(header, dot + 1, DIGITS)
            if colon > dot + 1 and header[colon:colon + 1] == b":" \
                    and header[colon + 1:colon + 2] and header[colon + 1] in BLANKS:
                return both_parts(header[at:dot], header[dot + 1:colon])
        at = dot
    raise Refused(8)


def both_parts(seconds, microseconds):
    parts = decimal(seconds, 2**63), decimal(microseconds, 2**63)
    if None in parts:
        raise Refused(8)
    return parts


def function(header):
    """The word run that ends the header, before it blanks, before them `:`."""
    start = len(header)
    while start > 0 and header[start - 1] in WORDS:
        start -= 1
    before = start
    while before > 0 and header[before - 1] in BLANKS:
        before -= 1
    if start == len(header) or before == start or header[before - 1:before] != b":":
        raise Refused(9)
    return header[start:]


def pairs(payload):
    """Key and value of each match from the left; the last pair of a key counts."""
    found = {}
    at = 0
    while at < len(payload):
        equals = run_end(payload, at, WORDS)
        end = None
        if equals > at and payload[equals:equals + 1] == b"=":
            end = value_end(payload, equals + 1)
        if end is not None:
            found[payload[at:equals]] = payload[equals + 1:end]
            at = end
        else:
            # Every later start in this word run meets the same unfit byte.
            at = max(equals, at + 1)
    return found


def value_end(payload, start):
    """Where a value that begins at `start` ends: a word run, or a bracket with bytes in it."""
    if payload[start:start + 1] == b"[":
        close = payload.find(b"]", start + 1)
        return close + 1 if close > start + 1 else None
    end = run_end(payload, start, WORDS)
    return end if end > start else None


def kind(type_name, function_name):
    if type_name[:11] != b"TB_CFG_PKG_":
        return 0
    rest = type_name[11:]
    return DIRECTED_KINDS.get((rest, function_name), KINDS.get(rest, 0))


def required(found, key, number, reader, bits):
    value = reader(found[key], 2**bits) if key in found else None
    if value is None:
        raise Refused(number)
    return value


def numbers(found):
    """What each of the bracket's pieces between comma-spaces reads as; none of a bad one, which is no hex number of 32 bits."""
    text = found.get(b"data", b"")
    if text[:1] != b"[":
        raise Refused(15)
    return [hexadecimal(piece, 2**32) for piece in text[1:-1].split(b", ")]


def dwords(values, strict):
    """The choice of document 02 c): a bad piece refuses the line in strict, and is left out in lenient."""
    if strict and None in values:
        raise Refused(18)
    return [value for value in values if value is not None]


def read_header(header):
    entry = {"task": task(header), "pid": pid(header), "cpu": cpu(header)}
    entry["sec"], entry["usec"] = timestamp(header)
    entry["function"] = function(header)
    return entry


def read_payload(payload, function_name):
    found = pairs(payload)
    if b"type" not in found:
        raise Refused(11)
    entry = {"kind": kind(found[b"type"], function_name)}
    entry["size"] = required(found, b"size", 12, decimal, 16)
    entry["dropped"] = int(decimal(found.get(b"dropped", b""), 2**8) == 1)
    entry["domain"] = required(found, b"domain", 13, decimal, 32)
    entry["route"] = required(found, b"route", 14, hexadecimal, 64)
    for field, (key, reader, bits) in OPTIONAL.items():
        entry[field] = reader(found[key], 2**bits) if key in found else None
    entry["data"] = numbers(found)
    return entry


def read_line(line, slots=MOST_DWORDS, strict=False):
    """The entry as a dictionary, or `Refused` with the first number that applies: 18 stands behind 15, before 16 and 17."""
    if line in (b"", b"\n") or line[:1] == b"#":
        raise Refused(1)
    if len(line) > LONGEST:
        raise Refused(2)
    if max(line) >= 128:
        raise Refused(3)
    colon = line.rfind(b":")
    if colon < 0:
        raise Refused(4)
    entry = read_header(stripped(line[:colon]))
    entry.update(read_payload(stripped(line[colon + 1:]), entry["function"]))
    entry["data"] = dwords(entry["data"], strict)
    if len(entry["data"]) > MOST_DWORDS:
        raise Refused(16)
    if len(entry["data"]) > slots:
        raise Refused(17)
    return entry


def event_name(code):
    return None if code is None else EVENT_NAMES.get(code, str(code))


def adapter(entry):
    return None if entry["event"] in NO_ADAPTER else entry["port"]


def unplugged(entry):
    return None if entry["unplug"] is None else int(entry["unplug"] == 1)


def printed(entry):
    """The entry as one text line; README.md has its grammar."""
    parts = []
    for field, value in entry.items():
        if field in ("task", "function"):
            value = value.hex()
        if field != "data":
            parts.append(f"{field}={or_none(value)}")
    parts.append(f"adapter={or_none(adapter(entry))}")
    parts.append(f"unplugged={or_none(unplugged(entry))}")
    parts.append(f"name={or_none(event_name(entry['event']))}")
    parts.append(f"dwords={len(entry['data'])}")
    parts.append("data=" + listed(f"{dword:08x}" for dword in entry["data"]))
    return "entry " + " ".join(parts)


def answer(line, slots=MOST_DWORDS, strict=False):
    try:
        return printed(read_line(line, slots, strict))
    except Refused as refusal:
        return f"refused {refusal.number}"
