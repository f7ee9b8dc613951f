"""Many samples, which further processes write and read: results, refusals and faults are those of few samples."""

from __future__ import annotations

import array
import os
import subprocess
import sys
import unittest
from collections.abc import Iterator
from unittest import mock

from piperench import Program, Refused, Streams
from piperench import _results as results
from piperench import _samples as samples
from piperench._numbers import COMMAND, as_lines, as_words, lines_of, lines_of_words, numbers_of, piece_of, words_of
from piperench._streams import Port, numpy

from .support import SUM, children, needs_programs, stand_in, sums

VALUES = [n * 37 % 256 for n in range(30_000)]

#: The sum of four samples of 16 bits, and of 32 bits.
SUM16 = "input x:16;\noutput y:16 = x + x@1 + x@2 + x@3;\n"
SUM32 = "input x:32;\noutput y:34 = x + x@1 + x@2 + x@3;\n"

#: Two inputs of 64 bits; what they sum to, and the last bits of one of them.
WIDE = "input a:64; input b:64; output sum:64 = a + b; output low:8 = a;"

few_are_many = mock.patch.object(samples, "MANY", 3)
on_four_processors = mock.patch.object(samples, "processors", lambda: 4)


def through(task: str, given: bytes) -> tuple[int, bytes]:
    """The status of a further process, and what it writes."""
    done = subprocess.run([*COMMAND, *task.split()], input=given, stdout=subprocess.PIPE, stderr=subprocess.DEVNULL)
    return done.returncode, done.stdout


def words(*numbers: int, size: int = 8) -> bytes:
    order = sys.byteorder if size == 8 else "big"
    return b"".join(number.to_bytes(size, order) for number in numbers)


class Numbers(unittest.TestCase):
    def test_lines(self) -> None:
        top = (1 << 64) - 1
        self.assertEqual(lines_of([1, 2, 30, top], 2), b"1 2\n30 18446744073709551615\n")
        self.assertEqual(lines_of([1, 2, -1], 1), b"1\n2\n-1\n")
        self.assertEqual(numbers_of(b"1 2\n30 18446744073709551615\n"), [1, 2, 30, top])

    def test_words(self) -> None:
        for size, top in ((1, 256), (2, 1 << 16), (8, 1 << 64)):
            values = [*range(min(top, 70_000)), top - 1, 0, 0, top - 1, 10, 9]
            self.assertEqual(words_of("".join(f"{value}\n" for value in values).encode(), size), words(*values, size=size))
            self.assertEqual(words_of(b"7 %d 0\n9 0 100\n" % (top - 1), size), words(7, top - 1, 0, 9, 0, 100, size=size))
            self.assertEqual(words_of(b"5\n", size), words(5, size=size))

    def test_lines_of_words(self) -> None:
        every = [*range(1 << 16)]
        low_first = b"".join(n.to_bytes(2, "little") for n in every)
        self.assertEqual(lines_of_words(low_first, 1), b"".join(b"%05d\n" % n for n in every))
        self.assertEqual(lines_of_words(low_first, 2), b"".join(b"%05d %05d\n" % (n, n + 1) for n in every[::2]))
        self.assertEqual(lines_of_words(b"\x39\x30\xff\xff\0\0", 3), b"12345 65535 00000\n")

    def test_writing(self) -> None:
        pieces = as_words([1, 2, 30, (1 << 64) - 1], 2) + as_words([7, -1], 1) + as_lines([1 << 64, 5], 2) + as_words([9], 1)
        pieces += piece_of(b"\1\0\0\1", 2, 2) + piece_of(b"8\n", 1, 0)
        lines = b"1 2\n30 18446744073709551615\n7\n-1\n18446744073709551616 5\n9\n00001 00256\n8\n"
        self.assertEqual(through("write", pieces), (0, lines))
        self.assertEqual(through("write", b""), (0, b""))

    def test_reading(self) -> None:
        self.assertEqual(through("read 8", b"1 2\n30 18446744073709551615\n"), (0, words(1, 2, 30, (1 << 64) - 1)))
        for size in (1, 2, 8):
            values = [n * n % (1 << 8 * size) for n in range(100_000)]
            lines = "".join(f"{value}\n" for value in values).encode()
            self.assertEqual(through(f"read {size}", lines), (0, words(*values, size=size)))

    def test_a_line_without_its_end_counts_for_nothing(self) -> None:
        for text, values in ((b"", []), (b"1", []), (b"1\n", [1]), (b"1 2\n23", [1, 2])):
            for size in (1, 2, 8):
                self.assertEqual(through(f"read {size}", text), (0, words(*values, size=size)))

    def test_what_is_no_number_is_an_error(self) -> None:
        for text in (b"1\nx\n", b"18446744073709551616\n"):
            self.assertNotEqual(through("read 8", text)[0], 0)

    def test_a_reader_that_is_gone_is_none(self) -> None:
        read, written = os.pipe()
        os.close(read)
        with open(written, "wb") as to:
            done = subprocess.run([*COMMAND, "write"], input=as_words([1] * 9999, 1), stdout=to, stderr=subprocess.PIPE)
        self.assertEqual((done.returncode, done.stderr), (0, b""))


@on_four_processors
class Choice(unittest.TestCase):
    def test_how_many_samples_there_are(self) -> None:
        forms = [[1, 2], (1, 2, 3), range(4), b"12345", array.array("H", [1]), {"x": [1, 2], "y": [3, 4]}, Streams({"x": [1]})]
        self.assertEqual(list(map(samples.count_of, forms)), [2, 3, 4, 5, 1, 2, 1])
        self.assertEqual([samples.count_of(form) for form in ({}, {"x": iter([1])}, iter([1]), "samples.txt")], [0, 0, 0, 0])

    def test_many_numbers_are_packed(self) -> None:
        for count, widths, samples_are, word in (
            (samples.MANY - 1, [16], False, 0),
            (samples.MANY - 1, [64], False, 0),
            (samples.MANY, [1], False, 1),
            (samples.MANY, [8], False, 1),
            (samples.MANY, [8, 9], True, 2),
            (samples.MANY, [16], True, 2),
            (samples.MANY, [17], True, 8),
            (samples.MANY, [1, 64], True, 8),
            (samples.MANY, [1, 65], False, 0),
            (samples.MANY, [32, None], False, 0),
            (samples.MANY, [], False, 0),
        ):
            ports = [Port(f"y{k}", width) for k, width in enumerate(widths)]
            with self.subTest(count=count, widths=widths):
                self.assertEqual(samples.feed_of(range(count), ports).packed, samples_are)
                self.assertEqual(results.results_of(range(count), lambda: ports).word, word)

    def test_where_no_process_can_be_started_none_is(self) -> None:
        for program in (["", __file__], [sys.executable, "/nowhere.zip/_numbers.py"]):
            with mock.patch.object(samples, "PROGRAM", program):
                self.assertFalse(samples.feed_of(range(samples.MANY), [Port("x", 16)]).packed)
                self.assertEqual(results.results_of(range(samples.MANY), lambda: [Port("y", 16)]).word, 0)

    def test_for_arrays_of_numpy_none_is_started(self) -> None:
        column = array.array("Q", range(samples.MANY))
        for given in (column, {"x": column}, Streams({"x": column})):
            self.assertEqual(samples.are_many(given), numpy is None)
        if numpy is not None:
            for given in (numpy.asarray(column), {"x": numpy.asarray(column)}, numpy.asarray([column, column]).T):
                self.assertFalse(samples.are_many(given))

    def test_on_two_processors_none_is_started(self) -> None:
        for number, word in ((1, 0), (2, 0), (3, 2)):
            with mock.patch.object(samples, "processors", lambda: number):
                self.assertEqual(samples.feed_of(range(samples.MANY), [Port("x", 16)]).packed, word > 0)
                self.assertEqual(results.results_of(range(samples.MANY), lambda: [Port("y", 16)]).word, word)

    def taken(self, ports: list[Port], word: int, data: bytes) -> Iterator[list[tuple[int, ...]]]:
        """Takes words in pieces of several sizes, and yields the rows."""
        for size in (1000, 9999, len(data)):
            made = results.PackedResults(lambda: ports, word)
            for start in range(0, len(data), size):
                made.take(data[start : start + size])
            made.take(b"1234567"[: word * len(ports) - 1])
            yield made.streams().rows()

    def test_words_in_pieces(self) -> None:
        ports = [Port("a", 64), Port("b", 64, True), Port("c", 10), Port("d", 10, True)]
        data = words(*[number for n in range(1024) for number in (n << 54, n << 54, n, n)])
        # The numbers of 512 and more have their first bit set.
        expected = [(n << 54, n - 1024 * (n >> 9) << 54, n, n - 1024 * (n >> 9)) for n in range(1024)]
        for rows in self.taken(ports, 8, data):
            self.assertEqual(rows, expected)

    def test_words_of_one_and_two_bytes_in_pieces(self) -> None:
        for word in (1, 2):
            for width in range(1, 8 * word + 1):
                ports = [Port("a", width), Port("b", width, True), Port("c", 1, True)]
                values = range(0, 1 << width, max(1, (1 << width) // 999))
                data = words(*[number for n in values for number in (n, n, n & 1)], size=word)
                expected = [(n, n - (n >> width - 1 << width), -(n & 1)) for n in values]
                with self.subTest(width=width):
                    for rows in self.taken(ports, word, data):
                        self.assertEqual(rows, expected)


@few_are_many
@on_four_processors
class Eval(unittest.TestCase):
    def test_numbers_are_as_short_as_they_can_be(self) -> None:
        for width, longer in ((8, 800), (16, 1200)):
            program = Program(f"input x:{width}; output y:16 = x;")
            with stand_in("piperench", "echo $(($(wc -c)))"):
                self.assertEqual(program.eval([5] * 200).rows(), [(400,)])
                self.assertEqual(program.run([5] * 200).rows(), [(longer,)])


@needs_programs
@few_are_many
@on_four_processors
class Runs(unittest.TestCase):
    def test_sums(self) -> None:
        small, large = [n * 7919 % (1 << 14) for n in range(30_000)], [n * 7919 << 4 for n in range(30_000)]
        for text, given in ((SUM, VALUES), (SUM16, VALUES), (SUM16, small), (SUM32, VALUES), (SUM32, small), (SUM32, large)):
            program = Program(text)
            for form in (given, tuple(given), array.array("Q", given), {"x": given}, [(value,) for value in given]):
                self.assertEqual(program.run(form).rows(), sums(given))
            self.assertEqual(program.compile().exec(given).rows(), sums(given))
            self.assertEqual(program.checkpoint([]).move(given).rows(), sums(given))
            self.assertEqual(program.checkpoint(given).samples, len(given))
            self.assertEqual(program.eval(given).rows(), sums(given))
        for text in (SUM16, SUM32):
            self.assertEqual(Program(text).run(bytes(VALUES)).rows(), sums(VALUES))
            self.assertEqual(Program(text).trace(small[:500]).results.rows(), sums(small[:500]))
        self.assertEqual(children(), [])

    def test_numbers_of_64_bits_at_their_ends(self) -> None:
        top = 1 << 63
        pairs = [(-top, top - 1), (top - 1, 1), (-1, -1), (0, -1), (-top, -top)] * 100
        made = Program(WIDE, signed=["a", "b", "sum", "low"]).run(pairs)
        self.assertEqual(made.rows(), [(-1, 0), (-top, -1), (-2, -1), (-1, 0), (0, 0)] * 100)
        self.assertEqual(type(made["sum"]), array.array if numpy is None else numpy.ndarray)
        made = Program(WIDE).run([(2 * top - 1, 1), (top, top - 1)] * 100)
        self.assertEqual(made.rows(), [(0, 255), (2 * top - 1, 0)] * 100)

    def test_a_bad_sample(self) -> None:
        for text, width in ((SUM, 8), (SUM16, 16), (SUM32, 32)):
            for wrong in (1 << width, -1, 1 << 70):
                with self.assertRaises(Refused) as caught:
                    Program(text).run([*VALUES, wrong, *VALUES])
                self.assertEqual((caught.exception.status, caught.exception.place.line), (7, len(VALUES) + 1))
                self.assertIn(f": {wrong}\n", str(caught.exception))
                self.assertEqual(caught.exception.results.rows(), sums(VALUES))
            half = 1 << width - 1
            with self.assertRaisesRegex(ValueError, f"sample 30001: {half} of x is no signed number"):
                Program(text, signed=["x"]).run([0] * len(VALUES) + [half])
            with self.assertRaises(TypeError):
                Program(text).run([*VALUES, 1.5])
        with self.assertRaisesRegex(ValueError, "a sample has 2 numbers"):
            Program(WIDE).run([*zip(VALUES, VALUES), (1, 2, 3)])
        self.assertEqual(children(), [])

    def test_a_program_that_is_refused(self) -> None:
        with self.assertRaises(Refused) as caught:
            Program("input x:32; output y:10 = z;").run(VALUES)
        self.assertEqual((caught.exception.status, caught.exception.place.column), (3, 27))
        with self.assertRaises(Refused):
            Program("input x:32; let k = x;").run(VALUES)


@few_are_many
@on_four_processors
class Faults(unittest.TestCase):
    """Stand-ins for a run."""

    def test_results_before_a_fault(self) -> None:
        with stand_in("piperench", "head -c 100 >/dev/null; printf '5\\n66\\n7'; echo 'bad sample: line 9' >&2; exit 7"):
            with self.assertRaises(Refused) as caught:
                Program(SUM32).run(VALUES)
        self.assertEqual(caught.exception.results.rows(), [(5,), (66,)])

    def test_a_program_that_is_ended(self) -> None:
        with stand_in("piperench", "echo 5; kill -9 $$"), self.assertRaisesRegex(ChildProcessError, "signal 9"):
            Program(SUM32).run(VALUES)

    def test_a_program_that_cannot_write(self) -> None:
        with stand_in("piperench", "echo 'write fault' >&2; exit 11"), self.assertRaises(BrokenPipeError):
            Program(SUM32).run(VALUES * 10)

    def test_a_further_process_that_ends_early(self) -> None:
        for ending, status in (("exit(3)", 3), ("import os; os.kill(os.getpid(), 9)", -9)):
            words = [sys.executable, "-c", ending]
            with mock.patch("piperench._call.COMMAND", words), stand_in("piperench", "cat >/dev/null; exit 0"):
                for text in (SUM, SUM16, SUM32):
                    with self.assertRaisesRegex(ChildProcessError, f"ended with status {status}"):
                        Program(text).run(VALUES)

    def test_a_further_process_that_does_not_start(self) -> None:
        open_before = len(os.listdir("/proc/self/fd"))
        with mock.patch("piperench._call.COMMAND", ["/nowhere/python"]), stand_in("piperench", "cat >/dev/null; exit 0"):
            for text in (SUM, SUM16, SUM32):
                with self.assertRaises(FileNotFoundError):
                    Program(text).run(VALUES)
        self.assertEqual((children(), len(os.listdir("/proc/self/fd"))), ([], open_before))

    def test_pipes_and_files_are_given_back(self) -> None:
        open_before = len(os.listdir("/proc/self/fd"))
        with stand_in("piperench", "exit 10"):
            for _ in range(20):
                with self.assertRaises(OSError):
                    Program(SUM32).run(VALUES)
        self.assertEqual((children(), len(os.listdir("/proc/self/fd"))), ([], open_before))
