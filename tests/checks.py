"""What the tests in Python share: checks that are counted, the closing line, and the functions of scripts."""

import os
import sys
from importlib.machinery import SourceFileLoader
from importlib.util import module_from_spec, spec_from_loader

TOP = os.path.join(os.path.dirname(os.path.abspath(__file__)), "..")

counted = {"passed": 0, "failed": 0}


def see(holds, what):
    """Counts a check; one that fails is told."""
    counted["passed" if holds else "failed"] += 1
    if not holds:
        print("wrong:", what)


def close():
    """The last line, and the status: 1 if a check failed."""
    print(f"{counted['passed']} passed, {counted['failed']} failed", flush=True)
    sys.exit(1 if counted["failed"] else 0)


def script(*path):
    """The functions of a script of the repository."""
    loader = SourceFileLoader("_".join(path), os.path.join(TOP, *path))
    module = module_from_spec(spec_from_loader(loader.name, loader))
    loader.exec_module(module)
    return module
