"""Whole numbers as decimal text and back, many at once.

Python takes tens of nanoseconds for the text of a single number. Here each step treats a whole text or column: one figure of all
numbers at a time. Numbers below 256 need the standard library alone for that, and numbers of up to 64 bits need numpy.
"""

from __future__ import annotations

from collections.abc import Iterable, Sequence
from functools import cache
from typing import Any

from ._numbers import ends_of
from ._streams import numpy

# What stands for a leading zero, until all of them are deleted.
_NONE = 0


def in_turn(columns: Sequence[Sequence[int]]) -> list[int]:
    """The numbers of columns, row by row."""
    numbers = [0] * (len(columns) * len(columns[0]))
    for place, column in enumerate(columns):
        numbers[place :: len(columns)] = column
    return numbers


# Numbers below 256, each in a byte

# For each place: the figure of every number there.
_FIGURES = [bytes(ord("0") + n // power % 10 for n in range(256)) for power in (100, 10, 1)]

# The same without leading zeros.
_FIGURES_ALONE = [bytes([_NONE] * least) + figures[least:] for figures, least in zip(_FIGURES, (100, 10, 0))]


def lines_of_bytes(columns: Sequence[bytes], zeros: bool = False) -> bytes:
    """The lines of columns of numbers below 256. With ``zeros`` each number has three figures, which takes less time."""
    count = len(columns[0])
    places = []
    for column, end in zip(columns, ends_of(len(columns))):
        places += [column.translate(figures) for figures in (_FIGURES if zeros else _FIGURES_ALONE)]
        places.append(end * count)
    text = bytearray(len(places) * count)
    for place, figures in enumerate(places):
        text[place :: len(places)] = figures
    return bytes(text if zeros else text.translate(None, bytes([_NONE])))


# Arrays of numpy

def lines_of_arrays(columns: Sequence[Any], zeros: bool = False) -> bytes:
    """The lines of columns of numpy of whole numbers, none of them negative. With ``zeros`` numbers may have leading zeros."""
    parts = [part for column, end in zip(columns, ends_of(len(columns))) for part in _parts(column, end, zeros)]
    text = numpy.empty((len(columns[0]), len(parts)), dtype=numpy.uint32)
    for place, part in enumerate(parts):
        text[:, place] = part
    return text.tobytes() if zeros else text.tobytes().translate(None, bytes([_NONE]))


def _parts(column: Any, end: bytes, zeros: bool) -> list[Any]:
    """The texts of numbers with an end behind each, in parts of four bytes: so many as the greatest number takes."""
    if column.max() < 1000:
        return [_texts_of(column.astype(numpy.int64), _last_parts(end), 0, zeros)]
    wide = column.astype(numpy.uint64)
    rest = wide // 1000
    parts = [_texts_of(wide - rest * 1000, _last_parts(end), rest, zeros)]
    while rest.any():
        above = rest // 10000
        parts.append(_texts_of(rest - above * 10000, _upper_parts(), above, zeros))
        rest = above
    return parts[::-1]


def _texts_of(part: Any, table: Any, above: Any, zeros: bool) -> Any:
    """The texts of a part of each number: with leading zeros, or with those that have a figure before them."""
    half = len(table) // 2
    places = part.view(numpy.int64)
    return table[half:].take(places) if zeros else table.take(places + half * (above > 0))


@cache
def _last_parts(end: bytes) -> Any:
    """The last three figures of a number and its end: for 0 to 999 without leading zeros, then with them."""
    return _table([b"%d" % n + end for n in range(1000)] + [b"%03d" % n + end for n in range(1000)])


@cache
def _upper_parts() -> Any:
    """Four figures of a number: for 0 to 9999 without leading zeros, then with them."""
    return _table([b""] + [b"%d" % n for n in range(1, 10000)] + [b"%04d" % n for n in range(10000)])


def _table(texts: Iterable[bytes]) -> Any:
    return numpy.frombuffer(b"".join(text.rjust(4, bytes([_NONE])) for text in texts), dtype=numpy.uint32)


def array_of(text: bytes) -> Any:
    """The numbers of a text, all below 2 to the 64, with one space or LF behind each."""
    return numpy.fromstring(text, dtype=numpy.uint64, sep=" ")
