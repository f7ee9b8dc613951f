"""What the tests share: programs to run, and stand-ins for the built programs."""

from __future__ import annotations

import contextlib
import os
import tempfile
import unittest
from collections.abc import Iterator
from pathlib import Path

from piperench._find import FOLDER, executable

#: The sum of four samples.
SUM = "input x:8;\noutput y:10 = x + x@1 + x@2 + x@3;\n"

#: Two inputs and two outputs: the sum, and the difference as a signed number.
BOTH = "input a:8; input b:8; output sum = a + b; output less:9 = signed(cat(0, a)) - b;"


def has_programs() -> bool:
    """Whether both built programs are there."""
    try:
        return bool(executable("piperench") and executable("pipelens"))
    except FileNotFoundError:
        return False


needs_programs = unittest.skipUnless(has_programs(), "the programs are not built")


def sums(values: list[int]) -> list[tuple[int, ...]]:
    """What SUM is to make of values."""
    return [(sum(values[max(0, n - 3) : n + 1]),) for n in range(len(values))]


@contextlib.contextmanager
def stand_in(name: str, script: str) -> Iterator[None]:
    """A shell script in the place of a built program; the other one stays what it is."""
    known = {}
    for other in {"piperench", "pipelens"} - {name}:
        with contextlib.suppress(FileNotFoundError):
            known[other] = executable(other)
    with tempfile.TemporaryDirectory() as folder, environment(FOLDER, folder):
        for other, path in known.items():
            Path(folder, other).symlink_to(path)
        made = Path(folder, name)
        made.write_text(f"#!/bin/sh\n{script}\n")
        made.chmod(0o755)
        yield


@contextlib.contextmanager
def environment(name: str, value: str) -> Iterator[None]:
    before = os.environ.get(name)
    os.environ[name] = value
    try:
        yield
    finally:
        if before is None:
            del os.environ[name]
        else:
            os.environ[name] = before


def children() -> list[str]:
    """The processes that this one has started and that are still there."""
    found = []
    for task in os.listdir("/proc/self/task"):
        with open(f"/proc/self/task/{task}/children") as file:
            found += file.read().split()
    return found
