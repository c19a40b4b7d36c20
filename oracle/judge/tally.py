"""What was compared, counted, and every difference that was found."""

import os
import subprocess
import tempfile
import time
from collections import Counter
from itertools import islice

from generate.seed import frame

HERE = os.path.dirname(os.path.abspath(__file__))
ORACLE = os.path.join(HERE, "..", "target", "release", "oracle")
SHOWN = 20


def in_parts(cases, most):
    """The cases in lists of at most so many, so that a run of any length fits in memory."""
    cases = iter(cases)
    while part := list(islice(cases, most)):
        yield part


def ask(command, bodies, *before):
    """The oracle's answers, one a body; `before` holds the bytes of files named ahead of it."""
    with tempfile.TemporaryDirectory() as folder:
        names = []
        for number, data in enumerate(before + (b"".join(map(frame, bodies)),)):
            names.append(os.path.join(folder, str(number)))
            with open(names[-1], "wb") as out:
                out.write(data)
        done = subprocess.run(
            [ORACLE, command, *names], check=True, stdout=subprocess.PIPE, text=True)
    answers = done.stdout.splitlines()
    if len(answers) != len(bodies):
        raise ValueError("the oracle answered another number of frames")
    return answers


class Tally:
    """Counts by class, by answer and by reason, and the differences themselves."""

    def __init__(self):
        self.start = time.monotonic()
        self.classes = Counter()
        self.answers = Counter()
        self.outside = Counter()
        self.books = Counter()
        self.branches = Counter()
        self.compared = 0
        self.differences = []
        self.unmet = []

    def same(self, name, answer):
        self.classes[name] += 1
        self.answers[answer] += 1
        self.compared += 1

    def all_same(self, name, answers):
        """One case that gave several answers."""
        self.classes[name] += 1
        self.answers.update(answers)
        self.compared += 1

    def beyond(self, name, reason):
        self.classes[name] += 1
        self.outside[reason] += 1

    def differ(self, name, given, oracle, reading):
        self.classes[name] += 1
        self.differences.append((len(given), name, given, oracle, reading))

    def must_meet(self, answer):
        """An answer that no case gave counts against the run, since nothing was seen of it."""
        if not self.answers[answer]:
            self.unmet.append(answer)

    def good(self):
        return not self.differences and not self.unmet

    def show(self):
        for title in ("books", "classes", "answers", "branches", "outside"):
            counts = getattr(self, title)
            print(title if counts else f"{title}: none")
            for name, count in sorted(counts.items(), key=lambda pair: str(pair[0])):
                print(f"  {name}: {count}")
        for _, name, given, oracle, reading in sorted(self.differences)[:SHOWN]:
            print(f"difference in {name}: {given[:5000]!r}")
            print(f"  oracle  {oracle}\n  reading {reading}")
        for answer in self.unmet:
            print(f"not met: {answer}")
        print(f"given {sum(self.classes.values())} compared {self.compared} outside "
              f"{sum(self.outside.values())} differences {len(self.differences)} "
              f"seconds {time.monotonic() - self.start:.0f}")
