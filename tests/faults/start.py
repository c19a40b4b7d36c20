"""Starting the programs: by `run`, and by themselves."""

import fcntl
import os
import subprocess
import threading
import time

TOP = os.path.realpath(os.path.join(os.path.dirname(os.path.abspath(__file__)), "..", ".."))
LONGEST = 120  # seconds that a program may take; one that hangs is a failure


def alone(program, top=TOP):
    """The words that start a program without `run`, which has built it."""
    return [os.path.join(top, "crates", program, "out", program)]


class Ended:
    """What a program wrote, and its status."""

    def __init__(self, status, out, told):
        self.status, self.out, self.told = status, out, told


def prepared(closed, first):
    def prepare():
        for descriptor in closed:
            os.close(descriptor)
        if first:
            first()
    return prepare


def by_run(program, words=(), closed=(), first=None, **given):
    given.setdefault("stdout", subprocess.PIPE)
    given.setdefault("stderr", subprocess.PIPE)
    done = subprocess.run(
        [os.path.join(TOP, "run"), program, *words], preexec_fn=prepared(closed, first), timeout=LONGEST, **given)
    status = done.returncode if done.returncode >= 0 else 128 - done.returncode
    return Ended(status, done.stdout, (done.stderr or b"").decode("latin-1"))


def by_itself(program, words=(), closed=(), first=None, top=TOP, preload=None, **given):
    """`preload` is a library that is loaded before the C library."""
    given.setdefault("stdout", subprocess.PIPE)
    given.setdefault("stderr", subprocess.PIPE)
    if preload:
        given["env"] = {**os.environ, "LD_PRELOAD": preload}
    done = subprocess.run([*alone(program, top), *words], preexec_fn=prepared(closed, first), timeout=LONGEST, **given)
    status = done.returncode if done.returncode >= 0 else 128 - done.returncode
    return Ended(status, done.stdout, (done.stderr or b"").decode("latin-1"))


class SlowReader:
    """A pipe that does not wait, read in small pieces with pauses: it is full most of the time, so that writes are short or find no room."""

    def __init__(self):
        self.near, self.far = os.pipe()
        fcntl.fcntl(self.far, fcntl.F_SETFL, os.O_NONBLOCK)
        self.pieces = []
        self.thread = threading.Thread(target=self.read)
        self.thread.start()

    def read(self):
        while piece := os.read(self.near, 9_000):
            self.pieces.append(piece)
            time.sleep(0.002)

    def end(self):
        """All that came."""
        os.close(self.far)
        self.thread.join()
        os.close(self.near)
        return b"".join(self.pieces)


def slowly_read(start, program, data):
    """The status, and what came by standard output and standard error, where both are slow pipes that do not wait."""
    out, told = SlowReader(), SlowReader()
    try:
        status = start(program, input=data, stdout=out.far, stderr=told.far).status
    finally:
        ends = out.end(), told.end()
    return (status, *ends)


def plainly_read(start, program, data):
    """The same by pipes that wait."""
    ended = start(program, input=data)
    return ended.status, ended.out, ended.told.encode("latin-1")


WAYS = {"run": by_run, "alone": by_itself}
