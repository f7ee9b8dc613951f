"""Streams of samples: rows as they come, back-pressure, pipes that close, and constant memory."""

from __future__ import annotations

import gc
import os
import resource
import unittest
from collections.abc import Iterator
from itertools import count, islice

from piperench import Program, Refused
from piperench._find import executable

from .support import BOTH, SUM, children, needs_programs, stand_in, sums

VALUES = [n * 37 % 256 for n in range(20_000)]


@needs_programs
class Rows(unittest.TestCase):
    def test_rows_are_those_of_run(self) -> None:
        for ahead in (1, 2, 3, 1000, 10**6):
            some = VALUES if ahead > 3 else VALUES[:200]
            self.assertEqual(list(Program(SUM).stream(some, ahead=ahead)), sums(some))
        pairs = list(zip(VALUES, VALUES[::-1]))
        both = Program(BOTH, signed=["less"])
        self.assertEqual(list(both.stream(pairs)), [(a + b, a - b) for a, b in pairs])
        self.assertEqual(list(both.stream(zip(VALUES, VALUES[::-1]))), both.run(pairs).rows())

    def test_no_more_samples_are_taken_than_said(self) -> None:
        for ahead in (1, 7, 100):
            taken = 0

            def samples():
                nonlocal taken
                for value in VALUES[:1000]:
                    taken += 1
                    yield value

            most = max(ahead, Program(SUM).compile().stages + 34)
            for stripes in (2, 3, 16):
                taken = 0
                for number, _ in enumerate(Program(SUM).stream(samples(), ahead=ahead, stripes=stripes)):
                    self.assertLessEqual(taken - number, most)
                self.assertEqual(taken, 1000)

    def test_rows_come_before_the_source_ends(self) -> None:
        deep = "input x:8; let t[0] = x; for i in 1..60 { let t[i]:8 = t[i-1] + 1; } output y = t[59];"
        for text, add in ((SUM, None), (deep, 59)):
            for stripes in (2, 7, 100):
                stream = Program(text).stream(count_bytes(), ahead=1, stripes=stripes)
                rows = list(islice(stream, 300))
                stream.close()
                values = [n % 256 for n in range(300)]
                self.assertEqual(rows, sums(values) if add is None else [((value + add) % 256,) for value in values])

    def test_an_endless_source_ends_with_its_reader(self) -> None:
        stream = Program("input x:64; output y = x;").stream(count())
        self.assertEqual(list(islice(stream, 5000)), [(n,) for n in range(5000)])
        stream.close()
        self.assertEqual(children(), [])

    def test_a_stream_that_is_dropped_ends_its_program(self) -> None:
        stream = Program("input x:64; output y = x;").stream(count())
        next(stream)
        self.assertEqual(len(children()), 1)
        del stream
        gc.collect()
        self.assertEqual(children(), [])

    def test_no_samples(self) -> None:
        self.assertEqual(list(Program(SUM).stream([])), [])

    def test_what_a_source_raises_is_raised(self) -> None:
        def samples():
            yield from VALUES[:100]
            raise KeyError("the source")

        with self.assertRaisesRegex(KeyError, "the source"):
            list(Program(SUM).stream(samples(), ahead=10))
        with self.assertRaisesRegex(KeyError, "the source"):
            Program(SUM).run(samples())
        self.assertEqual(children(), [])

    def test_rows_before_a_bad_sample_are_yielded(self) -> None:
        rows = []
        with self.assertRaises(Refused) as caught:
            for row in Program(SUM).stream([1, 2, 3, 256, 5]):
                rows.append(row)
        self.assertEqual(rows, sums([1, 2, 3]))
        self.assertEqual((caught.exception.status, caught.exception.place.line), (7, 4))

    def test_ten_million_lines_in_constant_memory(self) -> None:
        number = 10_000_000
        before = resource.getrusage(resource.RUSAGE_SELF).ru_maxrss
        total = last = 0
        for row in Program("input x:8; rec n:32 = 0 by n@1 + x; output y = n;").stream(
            (n & 255 for n in range(number)), ahead=1 << 16
        ):
            last = row[0]
            total += 1
        self.assertEqual(total, number)
        self.assertEqual(last, (sum(range(256)) * (number // 256) + sum(range(number % 256))) % (1 << 32))
        grown = resource.getrusage(resource.RUSAGE_SELF).ru_maxrss - before
        self.assertLess(grown, 64 * 1024, "KiB of memory more")


@needs_programs
class Closing(unittest.TestCase):
    """Stand-ins for a run; the real program compiles."""

    def setUp(self) -> None:
        self.compiles = f'[ "$1" = compile ] && exec {executable("piperench")} "$@"\n'

    def test_a_program_that_closes_its_pipes_early(self) -> None:
        with stand_in("piperench", self.compiles + "head -c 100 >/dev/null; echo 5; exec <&-; echo 'bad sample: line 9' >&2; exit 7"):
            rows = []
            with self.assertRaises(Refused) as caught:
                for row in Program(SUM).stream(VALUES * 100):
                    rows.append(row)
        self.assertEqual((rows, caught.exception.note), ([(5,)], "bad sample: line 9"))

    def test_a_program_that_cannot_write(self) -> None:
        with stand_in("piperench", self.compiles + "echo 'write fault' >&2; exit 11"):
            with self.assertRaises(BrokenPipeError):
                list(Program(SUM).stream(VALUES))
            with self.assertRaises(BrokenPipeError):
                Program(SUM).run(VALUES)

    def test_a_line_that_is_cut_is_no_row(self) -> None:
        with stand_in("piperench", self.compiles + "printf '1\\n22'; echo 'write fault' >&2; exit 11"):
            rows = []
            with self.assertRaises(BrokenPipeError):
                for row in Program(SUM).stream(VALUES[:10]):
                    rows.append(row)
        self.assertEqual(rows, [(1,)])

    def test_pipes_and_files_are_given_back(self) -> None:
        open_before = len(os.listdir("/proc/self/fd"))
        with stand_in("piperench", self.compiles + "exit 10"):
            for _ in range(20):
                with self.assertRaises(OSError):
                    Program(SUM).run(VALUES)
                stream = Program(SUM).stream(count())
                with self.assertRaises(OSError):
                    next(stream)
        self.assertEqual(len(os.listdir("/proc/self/fd")), open_before)


def count_bytes() -> Iterator[int]:
    """0, 1, .. 255, 0, 1 .. without an end."""
    return (n % 256 for n in count())
