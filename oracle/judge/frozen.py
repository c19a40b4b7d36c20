"""The frozen sample: chosen lines, books, packets, records, histories, reasons and streams with their answers, made again from a seed."""

import struct
from collections import Counter
from itertools import islice

from generate import books, histories, lines as line_generator, packets as packet_generator, reasons as reason_generator, records as record_generator
from generate import short
from generate.broken import RULES
from generate.seed import Seed, frame
from generate.tree import encoded
from judge import chosen, chosen_books, chosen_reasons, chosen_records, chosen_streams
from judge.differ import group, line_frame
from judge.lines import CODE_38, beyond, by_rust, strictly
from judge.tally import ask
from reading import book as book_reading, line as line_reading, packet as packet_reading, pending, reasons, record as record_reading, stream

SEED = 2024
SLOTS = 256


def unsigned(number):
    return struct.pack("<I", number)


# Lines

# Frames of a class, and the longest that is taken, so that the sample stays small.
EACH_CLASS = 40
EACH_DAMAGE = 7
LONGEST_TAKEN = 250
FEW = {"long": 8, "dwords": 4, "hostile": 5, "bad among many": 4}
EACH_SHORT = 88
# Lines of each number before 15 that are read strictly too.
EACH_EARLIER = 5


def class_lines():
    """Some lines of each class, short ones first come."""
    taken = Counter()
    for name, line in line_generator.generate(SEED, 12_000, 0):
        most = EACH_DAMAGE if name.startswith("damaged") else FEW.get(name, EACH_CLASS)
        if taken[name] < most and (name in FEW or len(line) <= LONGEST_TAKEN):
            taken[name] += 1
            yield line


def short_lines():
    """Short texts of each part, evenly over all of four or five tokens."""
    parts = {}
    for name, line in short.all_short(4):
        parts.setdefault(name, []).append(line)
    for lines in parts.values():
        step = max(1, len(lines) // EACH_SHORT)
        yield from lines[step // 2::step]


def line_cases():
    """Line and slots, each once."""
    cases = dict.fromkeys((line, SLOTS) for line in chosen.plain_lines())
    cases.update(dict.fromkeys(chosen.with_slots()))
    cases.update(dict.fromkeys((line, SLOTS) for line in class_lines()))
    cases.update(dict.fromkeys((line, SLOTS) for line in short_lines()))
    cases.update(dict.fromkeys((line, SLOTS) for line in chosen.data_lines()))
    cases.update(dict.fromkeys(chosen.earlier()))
    return list(cases)


def lenient_answer(line, slots, oracle, origin):
    """The judged file's answer where it has one, save the name of 38, else the reading's."""
    ours = line_reading.answer(line, slots)
    if beyond(line, oracle) is None and ours != "refused 17":
        if ours != by_rust(oracle):
            raise ValueError(f"{line!r}: {by_rust(oracle)} against {ours}")
        origin["the Rust save the name of 38, lenient" if CODE_38 in ours else "the Rust, lenient"] += 1
        return ours
    origin[f"the reading, lenient {ours}"] += 1
    return ours


def strict_answer(line, slots, lenient, origin):
    """The reading's answer, which is lenient's but for 18."""
    ours = line_reading.answer(line, slots, strict=True)
    if ours != strictly(line, lenient):
        raise ValueError(f"{line!r}: strict {ours} where lenient is {lenient}")
    origin["the lenient answer, strict" if ours == lenient else f"the reading, strict {ours}"] += 1
    return ours


def read_strictly(answered):
    """The cases of which strict is asked too: all that come as far as their data, the chosen ones that an earlier number refuses, and a few of each such number."""
    taken, chosen_ones = Counter(), set(chosen.earlier())
    for case, lenient in answered:
        taken[lenient] += 1
        as_far = lenient.startswith("entry ") or int(lenient.split(" ")[1]) >= 15
        if as_far or case in chosen_ones or taken[lenient] <= EACH_EARLIER:
            yield case, lenient


def freeze_lines(origin):
    """Every case by lenient, then some by strict; an answer is a pair, of the choice and the row."""
    cases = line_cases()
    oracle = ask("lines", [line for line, _ in cases])
    answered = [((line, slots), lenient_answer(line, slots, said, origin)) for (line, slots), said in zip(cases, oracle)]
    rows = [(*case, False, lenient) for case, lenient in answered]
    rows += [(*case, True, strict_answer(*case, lenient, origin)) for case, lenient in read_strictly(answered)]
    data = b"".join(line_frame(line, slots, strict) for line, slots, strict, _ in rows)
    answers = [(strict, row) for _, _, strict, row in rows]
    return {"lines.bin": data, "lines.txt": text(row for _, row in answers)}, answers


def text(answers):
    return "".join(answer + "\n" for answer in answers).encode()


# Books and packets

# Books of a class, and the size of the largest that is taken.
EACH_BOOK = 3
LARGEST_TAKEN = 3_000
EACH_PACKETS = 45
BROKEN = ("second table", "bad name", "stray end")
# No file of oracle/frozen: books.bin and packets.bin in another order.
GROUPS = "groups"


def of_each_class(cases, count):
    """The first small books of each class, or its smallest."""
    classes = {}
    for name, data in cases:
        classes.setdefault(name, []).append(data)
    for found in classes.values():
        yield from sorted(found, key=lambda data: max(len(data), LARGEST_TAKEN))[:count]


def frozen_books():
    """Good books, small ones of each class but the large, then a few broken ones."""
    good = [(name, encoded(tables)) for name, tables in books.good(SEED, 1200) if name != "large"]
    found = [encoded(make()) for make in chosen_books.BOOKS] + list(of_each_class(good, EACH_BOOK))
    broken = [case for case in books.generate(SEED, 600) if case[0] in BROKEN]
    return found + list(of_each_class(broken, 1)), len(found)


def book_cases(index, data):
    """Packets over one good book; some are lent one place too few, some just enough."""
    for number, (name, kind, dwords) in enumerate(
            packet_generator.generate(SEED * 1000 + index, EACH_PACKETS, data)):
        # Long packets over the first books only, to keep the sample small.
        if name == "limits" and index > 9 or len(dwords) > 40 and index > 12:
            dwords = dwords[:index]
        places = {8: max(len(dwords) - 1, 0), 4: len(dwords)}.get(number % 9, SLOTS)
        yield index, places, kind, dwords


def packet_cases(found, good):
    """Book's index, places lent, kind and dwords."""
    cases = []
    for index, ask_all in enumerate(chosen_books.PACKETS.values()):
        cases += [(index, SLOTS, kind, dwords) for kind, dwords in ask_all()]
    for index, data in enumerate(found):
        if index < good:
            cases += book_cases(index, data)
        else:
            cases += [(index, SLOTS, kind, [1, 2, 3]) for kind in (0, 1, 8, 13)]
    return cases


def packet_answers(found, good, cases, origin):
    answers = []
    for index, data in enumerate(found):
        own = [case for case in cases if case[0] == index]
        bodies = [packet_generator.body(kind, dwords) for _, _, kind, dwords in own]
        oracle = ask("packets", bodies, data) if index < good else [None] * len(own)
        for (_, places, kind, dwords), said in zip(own, oracle):
            ours = packet_reading.answer(data, kind, dwords, places)
            answers.append(packet_answer(ours, said, origin))
    return answers


def packet_answer(ours, oracle, origin):
    if ours in ("refused 20", "refused 24", "refused 26"):
        origin[f"the reading, {ours}"] += 1
        return ours
    if ours != oracle.replace("panic ", "refused ").replace("none ", "refused "):
        raise ValueError(f"{oracle} against {ours}")
    origin["the Rust"] += 1
    return ours


def freeze_packets(origin):
    found, good = frozen_books()
    cases = sorted(packet_cases(found, good), key=lambda case: case[0])
    answers = packet_answers(found, good, cases, origin)
    bodies = [unsigned(i) + unsigned(p) + packet_generator.body(k, d) for i, p, k, d in cases]
    return {
        "books.bin": b"".join(map(frame, found)),
        "packets.bin": b"".join(map(frame, bodies)),
        "packets.txt": text(answers),
        GROUPS: packet_groups(found, cases),
    }, answers


def packet_groups(found, cases):
    """The same packets as the program of the gate reads them, book by book."""
    return b"".join(group(data, [case[1:] for case in cases if case[0] == index])
                    for index, data in enumerate(found))


# Book checks

EACH_CHECK = 4
LARGEST_CHECK = 1_500


def check_books():
    """Good books and some broken at each rule; one at the limit of length and one beyond it."""
    taken, found = Counter(), dict.fromkeys([b"", *chosen_books.checks()])
    for name, data in books.generate(SEED, 6000):
        fits = len(data) <= LARGEST_CHECK or name == "over 65,535 bytes" and len(data) == 65_536
        most = 1 if name == "over 65,535 bytes" else EACH_CHECK
        if taken[name] < most and fits:
            taken[name] += 1
            found[data] = None
    missed = set(RULES) - set(taken)
    if missed:
        raise ValueError(f"no small book breaks {missed}")
    return list(found)


def freeze_checks(origin):
    found = check_books()
    answers = [book_reading.answer(data) for data in found]
    if answers != ask("books", found):
        raise ValueError("the two readers of the book differ")
    for answer in answers:
        origin[f"both readers, {answer}"] += 1
    data = b"".join(map(frame, found))
    return {"book-checks.bin": data, "book-checks.txt": text(answers)}, answers


# Records

GENERATED_RECORDS = 780
LONGEST_RECORD = 150


def made_records():
    """Good records and one of each damage in turn, short ones; some are lent few slots or little room, in some a number is set."""
    source, ways = Seed(SEED), (None, *record_generator.DAMAGES)
    for index in range(GENERATED_RECORDS):
        listed = record_generator.fields(record_generator.entry(source))
        way = ways[index % len(ways)]
        data = way(source, listed) if way else record_generator.framed(listed)
        slots = source.below(4) if source.one_in(6) else SLOTS
        room = max(len(data) - source.below(2), 0) if source.one_in(3) else chosen_records.ROOM
        change = source.below(len(record_reading.SET)) if source.one_in(3) else 0
        value = source.below(2**source.pick((4, 8, 16, 32, 64))) if change else 0
        if len(data) <= LONGEST_RECORD:
            yield data, slots, room, change, value % RECORD_TOPS.get(record_reading.SET[change], 2**64)


# Numbers of an entry that are narrower than what a frame sets them to.
RECORD_TOPS = {name: 2**(8 * width) for name, width, _ in record_reading.NUMBERS.values()}


def record_frame(data, slots, room, change, value):
    """Lengths of the record, the slots and the room, the number that is set and its value; then the record."""
    return struct.pack("<HHHBQ", len(data), slots, room, change, value) + data


def freeze_records(origin):
    """The Rust knows no record, so the reading answers all."""
    cases = list(dict.fromkeys([*chosen_records.cases(), *made_records()]))
    answers = [record_reading.answer(*case) for case in cases]
    origin["the reading"] = len(answers)
    return {"records.bin": b"".join(record_frame(*case) for case in cases), "records.txt": text(answers)}, answers


# Histories

EACH_HISTORY = 9
# Long ones, of which few are taken, so that the sample stays small.
FEW_HISTORIES = {"large": 2, "of any size": 4}


def history_cases():
    """Some histories of each class."""
    taken = Counter()
    for name, slots, listed in islice(histories.generate(SEED), EACH_HISTORY * len(histories.CLASSES)):
        if taken[name] < FEW_HISTORIES.get(name, EACH_HISTORY):
            taken[name] += 1
            yield histories.encoded(slots, listed)


def freeze_histories(origin):
    """The Rust matches no requests, so the reading answers all."""
    cases = list(history_cases())
    answers = [pending.answer(data) for data in cases]
    origin["the reading"] = len(answers)
    return {"histories.bin": b"".join(map(frame, cases)), "histories.txt": text(answers)}, answers


# Reasons

EACH_REASON = 3
LONGEST_REASON = 250
# Of these one is taken, however long.
LONG_REASONS = "many pieces", "too long"


def reason_cases():
    """The chosen lines, and some of each class, long ones only where it has no others."""
    taken = Counter()
    yield from chosen_reasons.lines()
    for name, line in islice(reason_generator.generate(SEED), 20 * len(reason_generator.CLASSES)):
        if taken[name] < EACH_REASON and len(line) <= LONGEST_REASON or taken[name] < 1 and name in LONG_REASONS:
            taken[name] += 1
            yield line


def freeze_reasons(origin):
    """The Rust gives no reasons, so the reading answers all."""
    cases = list(dict.fromkeys(reason_cases()))
    answers = [reasons.answer(line) for line in cases]
    origin["the reading"] = len(answers)
    return {"reasons.bin": b"".join(map(frame, cases)), "reasons.txt": text(answers)}, answers


# Streams

def freeze_stream(origin):
    """The Rust takes no stream, so the reading answers all: the units of each stream, and each state."""
    cases = list(chosen_streams.frames())
    answers = [stream.answer(data) for data in cases]
    origin["the reading"] = len(answers)
    return {"stream.bin": b"".join(map(frame, cases)), "stream.txt": text(answers)}, answers
