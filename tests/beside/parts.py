"""Lines and packets, made in parts and streamed to the program; what a finished part said is kept."""

import hashlib
import json
import os
import shutil
import subprocess
import tempfile
from collections import Counter
from glob import glob

from generate import keys, lines, packets
from generate.seed import frame
from judge import differ

HERE = os.path.dirname(os.path.abspath(__file__))
TOP = os.path.dirname(os.path.dirname(HERE))
ROOM = os.path.join(TOP, "target", "beside")
PROGRAM = os.path.join(ROOM, "release", "beside")
# Inputs a part, and the books that its packets go over.
SIZE = {"lines": 100_000, "keys": 100_000, "packets": 25_000}
BOOKS = 100
# Rows of differences that are shown; all are kept with the parts.
SHOWN = 80


def digest(*texts):
    """Of a few texts; sixteen hex digits, so that among ten million none are the same by chance."""
    made = hashlib.blake2b(digest_size=8)
    for text in texts:
        made.update(len(text).to_bytes(8, "little") + text)
    return made.hexdigest()


def folder():
    """Where the parts of this program and these generators are kept, and the program itself; parts of others do not count as done."""
    texts = []
    makers = [os.path.abspath(__file__), os.path.join(TOP, "oracle", "judge", "differ.py"), *sorted(glob(os.path.join(TOP, "oracle", "generate", "*.py")))]
    for path in [PROGRAM, *makers]:
        with open(path, "rb") as file:
            texts.append(file.read())
    path = os.path.join(ROOM, "parts", digest(*texts))
    os.makedirs(path, exist_ok=True)
    if not os.path.exists(os.path.join(path, "beside")):
        shutil.copy(PROGRAM, path)
    return path


def fed(kept, what, bodies):
    """What the program says of frames, written to it as they are made."""
    command = [os.path.join(kept, "beside"), what]
    with tempfile.TemporaryFile() as said:
        with subprocess.Popen(command, stdin=subprocess.PIPE, stdout=said) as program:
            for body in bodies:
                program.stdin.write(frame(body))
        if program.returncode not in (0, 1):
            raise ValueError(f"the program ended with {program.returncode}")
        said.seek(0)
        return said.read().decode("ascii").splitlines()


def by_number(counted):
    """Names in order, a number at their end by its value."""
    words, _, last = counted[0].rpartition(" ")
    return (words, int(last)) if last.isdigit() else (counted[0], 0)


class Part:
    """What was given and what was said, by class, the rows of differences, a digest of each input, and the files of such digests."""

    def __init__(self, classes=(), answers=(), differences=(), files=()):
        self.classes, self.answers = Counter(dict(classes)), Counter(dict(answers))
        self.differences, self.digests, self.files = list(differences), [], list(files)

    def take(self, said):
        """Counts have a tabulator, the rows of a difference have none."""
        for row in said:
            name, tabulator, count = row.partition("\t")
            if tabulator:
                self.answers[name] += int(count)
            else:
                self.differences.append(row)

    def check(self):
        if self.answers["given"] != sum(self.classes.values()):
            raise ValueError("the program took another number of inputs than were made")

    def add(self, other):
        self.classes += other.classes
        self.answers += other.answers
        self.differences += other.differences
        self.files += other.files

    def show(self):
        for title, counts in (("inputs", self.classes), ("answers", self.answers)):
            print(title)
            for name, count in sorted(counts.items(), key=by_number):
                print(f"  {name}: {count}")
        print("\n".join(self.differences[:SHOWN]) or "no differences")
        print(f"given {self.answers['given']} distinct {distinct(self.files)} differences {self.answers['differences']}")

    def save(self, path):
        """The digests first, and the rest by a new name: what is there is whole."""
        with open(path + ".digests", "w", encoding="ascii") as out:
            out.writelines(one + "\n" for one in self.digests)
        with open(path + ".new", "w", encoding="ascii") as out:
            json.dump([self.classes, self.answers, self.differences], out)
        os.rename(path + ".new", path)


def load(path):
    with open(path, encoding="ascii") as file:
        return Part(*json.load(file), [path + ".digests"])


def distinct(files):
    """How many of the digests differ."""
    command = ["sort", "-u", *files]
    with subprocess.Popen(command, stdout=subprocess.PIPE, env={**os.environ, "LC_ALL": "C"}) as sort:
        return sum(1 for _ in sort.stdout)


def lines_of(generator):
    """A maker of parts of one generator's lines."""
    def made(kept, seed, count, short):
        part = Part()

        def bodies():
            for name, line in generator.generate(seed, count, short):
                part.classes[name] += 1
                part.digests.append(digest(line))
                yield line

        part.take(fed(kept, "lines", bodies()))
        return part
    return made


def packets_part(kept, seed, count, _):
    """A process a book, since the judged file reads its tables once."""
    part = Part()
    for name, data, some in differ.with_packets(seed, BOOKS, count):
        bodies = [packets.body(kind, dwords) for _, kind, dwords in some]
        part.classes.update(f"{name}, {kind}" for kind, _, _ in some)
        part.digests.extend(digest(data, body) for body in bodies)
        part.answers["books"] += 1
        part.take(fed(kept, "packets", [data, *bodies]))
    return part


MAKERS = {"lines": lines_of(lines), "keys": lines_of(keys), "packets": packets_part}


def run(kept, what, seed, count, short):
    """The path of a part that is done, now or before."""
    path = os.path.join(kept, f"{what}-{seed}-{count}-{short}")
    if not os.path.exists(path):
        part = MAKERS[what](kept, seed, count, short)
        part.check()
        part.save(path)
    return path
