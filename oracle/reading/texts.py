"""Byte classes, numbers and the small parts of an answer."""

BLANKS = frozenset([9, 10, 11, 12, 13, 32])
DIGITS = frozenset(b"0123456789")
WORDS = frozenset(b"abcdefghijklmnopqrstuvwxyzABCDEFGHIJKLMNOPQRSTUVWXYZ0123456789_")
HEX_DIGITS = {byte: int(chr(byte), 16) for byte in b"0123456789abcdefABCDEF"}


class Refused(Exception):
    """A call's refusal; `number` is document 01's."""

    def __init__(self, number):
        super().__init__(number)
        self.number = number


def run_end(text, start, members):
    """Where the run of members that begins at `start` ends."""
    end = start
    while end < len(text) and text[end] in members:
        end += 1
    return end


def stripped(text):
    """The text without the blanks at its ends."""
    start, end = 0, len(text)
    while start < end and text[start] in BLANKS:
        start += 1
    while end > start and text[end - 1] in BLANKS:
        end -= 1
    return text[start:end]


def decimal(text, limit):
    """Digits only, value below `limit`; else none."""
    if not text or run_end(text, 0, DIGITS) < len(text):
        return None
    value = 0
    for byte in text:
        value = value * 10 + byte - 48
        if value >= limit:
            return None
    return value


def hexadecimal(text, limit):
    """`0x` at most once, then one or more digits, value below `limit`; else none."""
    digits = text[2:] if text[:2] == b"0x" else text
    if not digits:
        return None
    value = 0
    for byte in digits:
        if byte not in HEX_DIGITS:
            return None
        value = value * 16 + HEX_DIGITS[byte]
        if value >= limit:
            return None
    return value


def or_none(value):
    return "-" if value is None else str(value)


def listed(items, separator=","):
    """Items between separators, `-` for an empty list."""
    return separator.join(items) or "-"
