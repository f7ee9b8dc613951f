"""The examples, and the guide as it stands."""

from __future__ import annotations

import contextlib
import doctest
import io
import os
import re
import runpy
import tempfile
import unittest
from pathlib import Path

import piperench
from piperench import make, plot, signals

from .support import needs_programs

ROOT = Path(__file__).resolve().parents[2]


@contextlib.contextmanager
def another_folder():
    before = os.getcwd()
    with tempfile.TemporaryDirectory() as folder:
        os.chdir(folder)
        try:
            yield Path(folder)
        finally:
            os.chdir(before)


def told_by(name: str) -> str:
    """What an example prints."""
    told = io.StringIO()
    with contextlib.redirect_stdout(told):
        runpy.run_path(str(ROOT / "examples" / "python" / name))
    return told.getvalue()


@needs_programs
class Examples(unittest.TestCase):
    def test_noise(self) -> None:
        with another_folder() as folder:
            told = told_by("noise.py")
            self.assertEqual(len(signals.read_wav("filtered.wav").channels), 8000)
            self.assertIn("<polyline", Path(folder, "noise.svg").read_text())
        before, after = map(int, re.findall(r"(?:before|after) (\d+)", told))
        self.assertLess(after * 2, before)

    def test_edges(self) -> None:
        with another_folder():
            told = told_by("edges.py")
            self.assertEqual(signals.read_picture("edges.pgm").width, 96)
        self.assertRegex(told, r"^[1-9]\d* pixels on edges, 0 unlike the plain sum\n$")

    def test_checksum(self) -> None:
        lines = told_by("checksum.py").splitlines()
        self.assertEqual(len(lines), 2)
        for line in lines:
            library, program = re.findall(r"0x[0-9a-f]+", line)
            self.assertEqual(library, program)

    def test_sweep(self) -> None:
        cycles = [int(line.split()[1]) for line in told_by("sweep.py").splitlines()[2:]]
        self.assertEqual(len(cycles), 7)
        self.assertEqual(cycles, sorted(cycles, reverse=True))
        self.assertGreater(cycles[0], 4 * cycles[-1])


@needs_programs
class Words(unittest.TestCase):
    def test_the_guide_shows_what_comes(self) -> None:
        with another_folder():
            failed, tried = doctest.testfile(str(ROOT / "docs" / "guide" / "python.md"), module_relative=False)
        self.assertGreater(tried, 20)
        self.assertEqual(failed, 0)

    def test_the_docstrings_show_what_comes(self) -> None:
        for module in (piperench, make, signals, plot):
            with another_folder():
                failed, tried = doctest.testmod(module)
            self.assertGreater(tried, 0, module.__name__)
            self.assertEqual(failed, 0, module.__name__)
