"""Replays the frozen sample: python3 replay.py FOLDER_OF_READING FROZEN lines|packets|records|histories|reasons|stream

Prints how many answers differ, of lines, of packets and books, of records, of histories, of reasons, or of streams. A crash counts as another answer.
"""

import os
import struct
import sys


def numbers(data, at, count):
    return struct.unpack_from(f"<{count}I", data, at)


def load(folder, name):
    with open(os.path.join(folder, name), "rb") as file:
        return file.read()


def answers(folder, name):
    return load(folder, name).decode().splitlines()


def line_cases(data):
    """Line, slots lent, and whether it is read strictly."""
    at = 0
    while at < len(data):
        length, slots, choice = struct.unpack_from("<IIB", data, at)
        yield data[at + 9:at + 9 + length], slots, choice != 0
        at += 9 + length


def frames(data):
    at = 0
    while at < len(data):
        length, = numbers(data, at, 1)
        yield data[at + 4:at + 4 + length]
        at += 4 + length


def packet_case(books, body):
    """Book, kind, dwords and places lent."""
    index, places = numbers(body, 0, 2)
    return books[index], body[8], list(numbers(body, 9, (len(body) - 9) // 4)), places


def record_cases(data):
    """Record, slots and room lent, number that is set and its value."""
    at = 0
    while at < len(data):
        length, *rest = struct.unpack_from("<HHHBQ", data, at)
        yield data[at + 15:at + 15 + length], *rest
        at += 15 + length


def differing(cases, frozen, answer):
    count = 0
    for case, expected in zip(cases, frozen, strict=True):
        try:
            count += answer(*case) != expected
        except (IndexError, KeyError, TypeError, ValueError, AttributeError, OverflowError):
            count += 1
    return count


def replay_lines(folder):
    from reading import line
    cases = line_cases(load(folder, "lines.bin"))
    return differing(cases, answers(folder, "lines.txt"), line.answer)


def replay_packets(folder):
    from reading import book, packet
    books = list(frames(load(folder, "books.bin")))
    packets = [packet_case(books, body) for body in frames(load(folder, "packets.bin"))]
    checks = [(data,) for data in frames(load(folder, "book-checks.bin"))]
    return differing(packets, answers(folder, "packets.txt"), packet.answer) \
        + differing(checks, answers(folder, "book-checks.txt"), book.answer)


def replay_records(folder):
    from reading import record
    return differing(record_cases(load(folder, "records.bin")), answers(folder, "records.txt"), record.answer)


def in_groups(rows, is_last):
    """The rows of each case, which end with one that is known as its last."""
    found = [[]]
    for row in rows:
        found[-1].append(row)
        if is_last(row):
            found.append([])
    return ["\n".join(group) for group in found[:-1]]


def history_answers(folder):
    """The rows of each history: the last one is its table."""
    return in_groups(answers(folder, "histories.txt"), lambda row: row.startswith("table "))


def replay_histories(folder):
    from reading import pending
    cases = [(data,) for data in frames(load(folder, "histories.bin"))]
    return differing(cases, history_answers(folder), pending.answer)


def reason_answers(folder):
    """The rows of each line: the last one is of a piece that has no text."""
    return in_groups(answers(folder, "reasons.txt"), lambda row: row.startswith("piece ") and " at " not in row)


def replay_reasons(folder):
    from reading import reasons
    cases = [(line,) for line in frames(load(folder, "reasons.bin"))]
    return differing(cases, reason_answers(folder), reasons.answer)


def stream_answers(folder):
    """The rows of each stream, of which the last says what is kept; and of each state, which has one."""
    return in_groups(answers(folder, "stream.txt"), lambda row: row.startswith(("kept ", "state ")))


def replay_stream(folder):
    from reading import stream
    cases = [(data,) for data in frames(load(folder, "stream.bin"))]
    return differing(cases, stream_answers(folder), stream.answer)


REPLAYS = {"lines": replay_lines, "packets": replay_packets, "records": replay_records, "histories": replay_histories, "reasons": replay_reasons,
           "stream": replay_stream}


def main():
    _, reading, frozen, what = sys.argv
    sys.path.insert(0, reading)
    print(REPLAYS[what](frozen))


if __name__ == "__main__":
    main()
