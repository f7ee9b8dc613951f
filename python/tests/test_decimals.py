"""Numbers as text and back: against Python's own texts, and at the edges of each way to write and read them."""

from __future__ import annotations

import array
import random
import unittest
from fractions import Fraction

from piperench import _decimals as decimals
from piperench._numbers import words_of
from piperench._results import Results, streams_of
from piperench._samples import pieces_of
from piperench._streams import Port

try:
    import numpy
except ImportError:
    numpy = None

WIDTHS = (1, 2, 3, 7, 8, 9, 10, 13, 14, 16, 23, 24, 32, 44, 53, 63, 64, 65, 128)


def edges(width: int) -> list[int]:
    """Numbers of so many bits: around powers of ten and of two, and some by chance."""
    chance = random.Random(width)
    near = [base + by for base in [10**k for k in range(39)] + [1 << k for k in range(129)] for by in (-1, 0, 1)]
    drawn = [chance.getrandbits(chance.randint(1, width)) for _ in range(100)]
    made = [value for value in [0, *near, *drawn] if value < 1 << width]
    chance.shuffle(made)
    return made


def plain(columns: list[list[int]]) -> bytes:
    """The lines of columns, number by number."""
    return "".join(" ".join(map(str, row)) + "\n" for row in zip(*columns)).encode()


def signed(value: int, width: int) -> int:
    """What a number of so many bits stands for."""
    return value - (1 << width) if value >> width - 1 else value


def written(samples: object, *ports: Port) -> bytes:
    """The lines of samples. Those with leading zeros have to be of the same numbers."""
    text, longer = (b"".join(pieces_of(samples, ports, zeros)) for zeros in (False, True))
    lines = [[word.lstrip(b"0") or b"0" for word in line.split(b" ")] for line in longer.split(b"\n")[:-1]]
    assert b"".join(b" ".join(line) + b"\n" for line in lines) == text, longer
    return text


class Writing(unittest.TestCase):
    def test_every_width(self) -> None:
        for width in WIDTHS:
            values = edges(width)
            names = ("a", "b", "c")
            columns = [values, values[::-1], values[7:] + values[:7]]
            for count in (1, 2, 3):
                ports = [Port(name, width) for name in names[:count]]
                expected = plain(columns[:count])
                with self.subTest(width=width, count=count):
                    self.assertEqual(written(dict(zip(names, columns[:count])), *ports), expected)
                    self.assertEqual(written(list(zip(*columns[:count])), *ports), expected)

    def test_every_width_of_signed_numbers(self) -> None:
        for width in WIDTHS:
            values = edges(width)
            samples = {"a": [signed(value, width) for value in values], "b": values}
            with self.subTest(width=width):
                self.assertEqual(written(samples, Port("a", width, True), Port("b", width)), plain([values, values]))

    def test_widths_side_by_side(self) -> None:
        for first, second in ((8, 9), (9, 8), (1, 64), (64, 128), (128, 1)):
            a, b = edges(first)[:400], edges(second)[:400]
            count = min(len(a), len(b))
            ports = Port("a", first), Port("b", second)
            self.assertEqual(written({"a": a[:count], "b": b[:count]}, *ports), plain([a[:count], b[:count]]))

    def test_samples_of_every_kind(self) -> None:
        values = [0, 1, 9, 10, 99, 100, 127]
        forms = [array.array(kind, values) for kind in "bBhHiIlLqQ"]
        forms += [values, tuple(values), bytes(values), bytearray(values), memoryview(bytes(values))]
        for form in forms:
            for width in (8, 16, 64):
                for sign in (False, True):
                    self.assertEqual(written(form, Port("x", width, sign)), plain([values]))
                    self.assertEqual(written({"x": form}, Port("x", width, sign)), plain([values]))
        for width in (8, 16):
            self.assertEqual(written(range(3, 200, 7), Port("x", width)), plain([list(range(3, 200, 7))]))

    def test_numbers_out_of_range_are_written_as_they_are(self) -> None:
        for width in (1, 8, 12, 64):
            for wrong in (1 << width, 255, 256, 1 << 70, -1, -256):
                self.assertEqual(written([0, wrong, 1], Port("x", width)), plain([[0, wrong, 1]]))

    def test_signed_numbers_out_of_range(self) -> None:
        for width, wrong in ((8, 128), (8, 200), (8, -129), (8, 1 << 70), (2, 2), (2, -3), (16, 1 << 15), (64, 1 << 63)):
            forms = [[0, wrong], (0, wrong), array.array("q" if wrong < 0 else "Q", [0, wrong])] if wrong >> 64 in (0, -1) else [[0, wrong]]
            for form in forms + ([bytes([0, wrong])] if 0 <= wrong < 256 else []):
                with self.assertRaisesRegex(ValueError, f"sample 2: {wrong} of x is no signed number of {width} bits"):
                    written(form, Port("x", width, True))

    def test_what_stands_for_a_whole_number(self) -> None:
        class Five:
            def __index__(self) -> int:
                return 5

        for width in (8, 16, 64, 65):
            for sign in (False, True):
                self.assertEqual(written([True, Five(), 7], Port("x", width, sign)), b"1\n5\n7\n")
                rows = [(True, 2), (3, Five())]
                self.assertEqual(written(rows, Port("a", width, sign), Port("b", width)), b"1 2\n3 5\n")

    def test_what_is_no_whole_number(self) -> None:
        for width in (8, 16, 64, 65):
            for sign in (False, True):
                for wrong in (2.0, 1.5, "3", None, Fraction(1, 2)):
                    for form in ([0, wrong], (0, wrong), iter([0, wrong])):
                        with self.assertRaises(TypeError):
                            written(form, Port("x", width, sign))
                    with self.assertRaises(TypeError):
                        written([(0, 1), (1, wrong)], Port("a", width), Port("b", width, sign))
                with self.assertRaises(TypeError):
                    written(array.array("d", [0, 2]), Port("x", width, sign))

    @unittest.skipIf(numpy is None, "numpy is not installed")
    def test_arrays_of_numpy(self) -> None:
        for kind in ("int8", "uint8", "int16", "uint16", "int32", "uint32", "int64", "uint64", "bool", "object"):
            least, most = (0, 1) if kind in ("bool", "object") else (numpy.iinfo(kind).min, numpy.iinfo(kind).max)
            for width in WIDTHS:
                top = min(most, (1 << width) - 1)
                values = [value for value in edges(width) if value <= top]
                column = numpy.array(values, dtype=kind)
                both = numpy.array([values, values[::-1]], dtype=kind).T
                half = 1 << width - 1
                around = [value for value in (-1, least, -half, 0, half - 1, top) if max(least, -half) <= value < min(most + 1, half)]
                with self.subTest(kind=kind, width=width):
                    self.assertEqual(written(column, Port("x", width)), plain([values]))
                    self.assertEqual(written(column[::2], Port("x", width)), plain([values[::2]]))
                    self.assertEqual(written(both, Port("a", width), Port("b", width)), plain([values, values[::-1]]))
                    self.assertEqual(
                        written(numpy.array(around, dtype=kind), Port("x", width, True)),
                        plain([[value % (1 << width) for value in around]]),
                    )

    @unittest.skipIf(numpy is None, "numpy is not installed")
    def test_arrays_of_numpy_out_of_range(self) -> None:
        self.assertEqual(written(numpy.array([5, -3, 300]), Port("x", 8)), b"5\n-3\n300\n")
        for kind in ("int64", "float64"):
            with self.assertRaises((ValueError, TypeError)):
                written(numpy.array([0, 128], dtype=kind), Port("x", 8, True))
        with self.assertRaisesRegex(ValueError, f"sample 1: {1 << 63} of x is no signed number of 64 bits"):
            written(numpy.array([1 << 63], dtype=numpy.uint64), Port("x", 64, True))


class Reading(unittest.TestCase):
    def test_every_width(self) -> None:
        for width in WIDTHS:
            values = edges(width)
            columns = [values, values[::-1], values[7:] + values[:7]]
            for count in (1, 2, 3):
                for sign in (False, True):
                    ports = [Port(name, width, sign) for name in "abc"[:count]]
                    rows = [tuple(signed(value, width) if sign else value for value in row) for row in zip(*columns[:count])]
                    with self.subTest(width=width, count=count, sign=sign):
                        self.assertEqual(streams_of(plain(columns[:count]), ports).rows(), rows)

    def test_widths_and_signs_side_by_side(self) -> None:
        text = b"1 255 0\n0 128 18446744073709551615\n"
        for third in (64, 65, None):
            streams = streams_of(text, [Port("a", 1), Port("b", 8, True), Port("c", third)])
            self.assertEqual(streams.rows(), [(1, -1, 0), (0, -128, (1 << 64) - 1)])

    def test_results_in_pieces(self) -> None:
        for width in (8, 40, 64, 100, None):
            values = [value for value in edges(width or 100) for _ in range(40)]
            text = plain([values, values[::-1]])
            for size in (1000, 70_001, len(text)):
                results = Results(lambda: [Port("a", width), Port("b", width)])
                for start in range(0, len(text), size):
                    results.take(text[start : start + size])
                results.take(b"1")
                self.assertEqual(results.streams().rows(), list(zip(values, values[::-1])))

    def test_a_line_without_its_end_counts_for_nothing(self) -> None:
        for width in (8, 40, 100, None):
            for text, values in ((b"", []), (b"1", []), (b"1\n", [1]), (b"1\n23", [1])):
                self.assertEqual(list(streams_of(text, [Port("y", width)])["y"]), values)


class Tables(unittest.TestCase):
    def test_each_byte(self) -> None:
        every = bytes(range(256))
        text = plain([list(every)])
        self.assertEqual(decimals.lines_of_bytes([every]), text)
        self.assertEqual(decimals.lines_of_bytes([every], zeros=True), b"".join(b"%03d\n" % n for n in every))
        self.assertEqual(words_of(text, 1), every)
