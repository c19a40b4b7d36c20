"""The calls of include/chomkadieu.h from the proved archive, with guards around what is lent for writing."""

import ctypes
import os
import subprocess

HERE = os.path.dirname(os.path.abspath(__file__))
TOP = os.path.join(HERE, "..", "..")
NONE = 0xFFFFFFFF
GUARD = 64
MARK = 0x5C

# The reading's name of each field and the struct's, in its order.
FIELDS = (
    ("task_at", "task_at", ctypes.c_size_t), ("task_len", "task_len", ctypes.c_size_t),
    ("pid", "pid", ctypes.c_uint32), ("cpu", "cpu", ctypes.c_uint16),
    ("sec", "seconds", ctypes.c_uint64), ("usec", "microseconds", ctypes.c_uint64),
    ("function_at", "function_at", ctypes.c_size_t),
    ("function_len", "function_len", ctypes.c_size_t), ("kind", "kind", ctypes.c_uint8),
    ("size", "size", ctypes.c_uint16), ("dropped", "dropped", ctypes.c_uint8),
    ("domain", "domain", ctypes.c_uint32), ("route", "route", ctypes.c_uint64),
    ("offset", "offset", ctypes.c_uint32), ("event", "code", ctypes.c_uint32),
    ("len", "len", ctypes.c_uint32), ("port", "port", ctypes.c_uint32),
    ("config", "config", ctypes.c_uint32), ("seq", "seq", ctypes.c_uint32),
    ("unplug", "unplug", ctypes.c_uint32), ("dwords", "dwords", ctypes.c_size_t),
)
OPTIONAL = ("offset", "event", "len", "port", "config", "seq", "unplug")


class Entry(ctypes.Structure):
    _fields_ = [(name, kind) for _, name, kind in FIELDS]


class EntryAnswer(ctypes.Structure):
    _fields_ = [("number", ctypes.c_uint8), ("entry", Entry)]


class WriteAnswer(ctypes.Structure):
    _fields_ = [("number", ctypes.c_uint8), ("bytes", ctypes.c_size_t)]


class EventText(ctypes.Structure):
    _fields_ = [("bytes", ctypes.c_uint8 * 14), ("len", ctypes.c_size_t)]


class StepAnswer(ctypes.Structure):
    _fields_ = [("number", ctypes.c_uint8), ("report", ctypes.c_uint8), ("place", ctypes.c_size_t)]


class CountAnswer(ctypes.Structure):
    _fields_ = [("number", ctypes.c_uint8), ("count", ctypes.c_uint32)]


class PlaceAnswer(ctypes.Structure):
    _fields_ = [("number", ctypes.c_uint8), ("present", ctypes.c_uint8), ("place", ctypes.c_size_t)]


class HexAnswer(ctypes.Structure):
    _fields_ = [
        ("number", ctypes.c_uint8), ("what", ctypes.c_uint8), ("value", ctypes.c_uint64), ("bad", ctypes.c_size_t),
        ("at", ctypes.c_size_t), ("len", ctypes.c_size_t)]


class State(ctypes.Structure):
    _fields_ = [("held", ctypes.c_size_t), ("passed", ctypes.c_size_t)]


class StreamAnswer(ctypes.Structure):
    _fields_ = [("number", ctypes.c_uint8), ("ended", ctypes.c_uint8), ("at", ctypes.c_size_t), ("state", State), ("entry", Entry)]


class Lent:
    """Memory for writing between two guards, all of it marked."""

    def __init__(self, most):
        self.marked = bytes([MARK]) * (GUARD + most + GUARD)
        self.memory = ctypes.create_string_buffer(self.marked, len(self.marked))
        self.start = ctypes.addressof(self.memory) + GUARD

    def renew(self):
        ctypes.memmove(self.memory, self.marked, len(self.marked))
        return self.start

    def written(self, count):
        """The first bytes, once all others are seen to be as found; none if one is not."""
        now = self.memory.raw
        if now[:GUARD] != self.marked[:GUARD] or now[GUARD + count:] != self.marked[GUARD + count:]:
            return None
        return now[GUARD:GUARD + count]


class Calls:
    """Makes a library of the archive that Python can load, and calls it."""

    def __init__(self):
        folder = os.path.join(TOP, "oracle", "target")
        os.makedirs(folder, exist_ok=True)
        shared = os.path.join(folder, "libcapi.so")
        built = subprocess.run([os.path.join(TOP, "tests", "archive")], check=True, stdout=subprocess.PIPE, text=True)
        archive = os.path.join(built.stdout.rstrip("\n"), "libcapi.a")
        subprocess.run(
            [os.environ.get("CC", "cc"), "-shared", "-o", shared, "-Wl,--whole-archive", archive,
             "-Wl,--no-whole-archive"], check=True)
        self.library = ctypes.CDLL(shared)
        for name in ("ck_parse", "ck_parse_lenient", "ck_record_read", "ck_read", "ck_read_lenient"):
            call = getattr(self.library, name)
            call.restype = EntryAnswer
            call.argtypes = [
                ctypes.c_char_p, ctypes.c_size_t, ctypes.c_void_p, ctypes.c_size_t]
        self.library.ck_record_write.restype = WriteAnswer
        self.library.ck_record_write.argtypes = [
            ctypes.c_char_p, ctypes.c_size_t, Entry, ctypes.c_char_p, ctypes.c_size_t,
            ctypes.c_void_p, ctypes.c_size_t]
        for name in ("ck_adapter_num", "ck_unplug"):
            call = getattr(self.library, name)
            call.restype = ctypes.c_uint32
            call.argtypes = [Entry]
        self.library.ck_event_name.restype = EventText
        self.library.ck_event_name.argtypes = [ctypes.c_uint8]
        self.library.ck_book_check.restype = ctypes.c_uint8
        self.library.ck_book_check.argtypes = [ctypes.c_char_p, ctypes.c_size_t]
        self.slots = Lent(4 * 256)
        self.buffer = Lent(5227)

    def read(self, name, text, slots):
        """Number, struct and the bytes of the dwords; `torn` where memory that must stay changed."""
        answer = getattr(self.library, name)(text, len(text), self.slots.renew(), slots)
        dwords = self.slots.written(4 * answer.entry.dwords if answer.number == 0 else 0)
        return ("torn" if dwords is None else answer.number), answer.entry, dwords

    def write(self, text, entry, dwords, room):
        """Number and bytes; `torn` likewise."""
        answer = self.library.ck_record_write(
            text, len(text), entry, dwords, len(dwords) // 4, self.buffer.renew(), room)
        written = self.buffer.written(answer.bytes)
        fits = answer.bytes == 0 or answer.number == 0
        return (answer.number if fits and written is not None else "torn"), written

    def questions(self, entry):
        """Adapter, unplug and the event's name."""
        answers = [call(entry) for call in (self.library.ck_adapter_num, self.library.ck_unplug)]
        answers = [None if answer == NONE else answer for answer in answers]
        return (*answers, None if entry.code == NONE else self.event_name(entry.code))

    def event_name(self, code):
        """The name that is handed out, "torn" where no zeros stand behind it."""
        text = self.library.ck_event_name(code)
        name = bytes(text.bytes)
        return name[:text.len].decode() if not any(name[text.len:]) else "torn"

    def check(self, book):
        return self.library.ck_book_check(book, len(book))


def value(text, entry, dwords):
    """The reading's dictionary of an entry: texts by their bytes, wherever they lie."""
    made = {ours: getattr(entry, name) for ours, name, _ in FIELDS}
    for name in OPTIONAL:
        made[name] = None if made[name] == NONE else made[name]
    for name in ("task", "function"):
        at, length = made.pop(name + "_at"), made.pop(name + "_len")
        made[name] = text[at:at + length] if at + length <= len(text) else "outside"
    count = made.pop("dwords")
    made["data"] = [int.from_bytes(dwords[4 * i:4 * i + 4], "little") for i in range(count)]
    return made


def flat(made):
    """A dictionary as text, struct and the bytes of the dwords: task, then function."""
    entry = Entry()
    for ours, name, _ in FIELDS:
        if ours in made:
            setattr(entry, name, NONE if made[ours] is None else made[ours])
    entry.task_at, entry.task_len = 0, len(made["task"])
    entry.function_at, entry.function_len = len(made["task"]), len(made["function"])
    entry.dwords = len(made["data"])
    dwords = b"".join(dword.to_bytes(4, "little") for dword in made["data"])
    return made["task"] + made["function"], entry, dwords
