"""Lines by class, each class a function of a seed, and the command line of a generator of such."""

import argparse

from generate.seed import Seed, frame


def by_class(classes, share, seed, count, only=None):
    """Class and line, about `count` over all classes or one; a class gets one share but for those named."""
    each = count / sum(share.get(name, 1) for name in classes if only in (None, name))
    for index, (name, make) in enumerate(classes.items()):
        if only not in (None, name):
            continue
        source = Seed(seed * 1000 + index)
        for _ in range(round(each * share.get(name, 1))):
            yield name, make(source)


def write(about, classes, generate):
    """The generator's command: its lines as frames in a file, and how many of each class."""
    options = argparse.ArgumentParser(description=about)
    options.add_argument("--seed", type=int, default=1)
    options.add_argument("--count", type=int, default=10_000)
    options.add_argument("--short", type=int, default=4, help="tokens in the longest short text")
    options.add_argument("--only", choices=classes, help="one class and no short texts")
    options.add_argument("out")
    chosen = options.parse_args()
    counts = {}
    with open(chosen.out, "wb") as out:
        longest = 0 if chosen.only else chosen.short
        for name, line in generate(chosen.seed, chosen.count, longest, chosen.only):
            counts[name] = counts.get(name, 0) + 1
            out.write(frame(line))
    for name, count in counts.items():
        print(f"{name} {count}")
