"""Samples as text: what goes into a program."""

from __future__ import annotations

import math
import operator
import os
import struct
from array import array
from collections.abc import Iterable, Iterator, Mapping, Sequence
from itertools import cycle, islice
from typing import Any

from . import _decimals as decimals
from ._call import Feed
from ._numbers import PROGRAM, as_lines, as_words, lines_of, lines_of_words, piece_of
from ._streams import Port, Streams, numbers, numpy

#: How many samples are written in one piece: few enough for the processor's cache, and for a pipe to hold more than one piece.
CHUNK = 1 << 13

#: So many samples are many: worth the start of further processes, some 20 ms.
MANY = 100_000

# What is cut into parts of the same kind. So is an array of numpy.
_CUT = (list, tuple, range, bytes, bytearray)


def pieces_of(samples: Any, inputs: Sequence[Port], zeros: bool = False) -> Iterator[bytes]:
    """The lines of samples, in pieces. With ``zeros`` numbers may have leading zeros, which takes less time."""
    return (text for _, text in counted_pieces(samples, inputs, CHUNK, zeros))


def counted_pieces(samples: Any, inputs: Sequence[Port], chunk: int, zeros: bool = False) -> Iterator[tuple[int, bytes]]:
    """The lines of samples, in pieces of at most ``chunk`` samples, with the number of samples in each."""
    done = 0
    for columns in columns_of(samples, inputs, chunk):
        yield len(columns[0]), _text_of(columns, inputs, done, zeros)
        done += len(columns[0])


def feed_of(samples: Any, inputs: Sequence[Port], zeros: bool = True) -> Feed:
    """The samples for a call, packed where that takes less time. ``zeros`` is that of ``pieces_of``."""
    # Samples of up to 8 bits are made into lines in as little time as into words, and words of 16 bits into lines with zeros.
    if are_many(samples) and (8 if zeros else 16) < widest(inputs) <= 64:
        return Feed(_packed_pieces(samples, inputs), packed=True)
    return Feed(pieces_of(samples, inputs, zeros))


def are_many(samples: Any) -> bool:
    """Whether further processes are worth starting, which they are not for arrays of numpy or on two processors, and can be started."""
    return count_of(samples) >= MANY and processors() >= 3 and not _has_arrays(samples) and all(map(os.path.isfile, PROGRAM))


def _has_arrays(samples: Any) -> bool:
    """Whether samples are taken as arrays of numpy."""
    columns = [samples[name] for name in samples.keys()] if isinstance(samples, (Mapping, Streams)) else [samples]
    return numpy is not None and any(isinstance(column, (array, numpy.ndarray)) for column in columns)


def processors() -> int:
    """How many processors this process may use."""
    return len(os.sched_getaffinity(0)) if hasattr(os, "sched_getaffinity") else os.cpu_count() or 1


def widest(ports: Sequence[Port]) -> int:
    """The width of the widest port; more than any width where one is not known."""
    return max((port.width or 1 << 16 for port in ports), default=0)


def count_of(samples: Any) -> int:
    """How many samples there are; 0 for a file of them, and where it is not known before they are taken."""
    if isinstance(samples, Mapping):
        samples = next(iter(samples.values()), ())
    return len(samples) if hasattr(samples, "__len__") and not isinstance(samples, str) else 0


def _packed_pieces(samples: Any, inputs: Sequence[Port]) -> Iterator[bytes]:
    """Pieces for the process that writes lines."""
    done = 0
    # Above 16 bits every second piece has its lines, so that the two processes write half of them each.
    for columns, made in zip(columns_of(samples, inputs, CHUNK), cycle((as_lines, as_words))):
        pairs = list(zip(columns, inputs))
        yield _short_piece(pairs, done) if widest(inputs) <= 16 else made(_in_turn(pairs, done), len(inputs))
        done += len(columns[0])


def _short_piece(pairs: list[tuple[Any, Port]], done: int) -> bytes:
    """A piece of columns of at most 16 bits: in words of two bytes, or in lines where a number is too large or negative."""
    try:
        return piece_of(_plain_words(pairs, done), len(pairs), 2)
    except struct.error:
        return as_lines(_in_turn(pairs, done), len(pairs))


def columns_of(samples: Any, inputs: Sequence[Port], chunk: int) -> Iterator[list[Any]]:
    """A column for each input, of at most ``chunk`` samples at a time."""
    if isinstance(samples, (Mapping, Streams)):
        yield from _chunks_of_mapping(samples, inputs, chunk)
        return
    for part in _chunks(samples, chunk):
        if not hasattr(part[0], "__len__"):
            columns = [part]
        elif _is_array(part):
            columns = list(part.T)
        else:
            columns = _taken_apart(part, len(inputs))
        if len(columns) != len(inputs):
            raise ValueError(f"a sample has {len(inputs)} numbers, one for each of {', '.join(p.name for p in inputs)}")
        yield columns


def _taken_apart(rows: Sequence[Sequence[Any]], count: int) -> list[list[Any]]:
    """The columns of rows of so many numbers, and none where a row has another number of them."""
    if count == 2:
        try:
            # Taking a pair apart tests its length, and that is faster than a test before.
            return [[first for first, _ in rows], [second for _, second in rows]]
        except ValueError:
            return []
    if [*map(len, rows)].count(count) != len(rows):
        return []
    return [list(map(operator.itemgetter(place), rows)) for place in range(count)]


def _chunks_of_mapping(samples: Mapping[str, Any] | Streams, inputs: Sequence[Port], chunk: int) -> Iterator[list[Any]]:
    names = [port.name for port in inputs]
    if set(samples.keys()) != set(names):
        raise ValueError(f"the inputs are {', '.join(names)}, and the samples are of {', '.join(samples.keys())}")
    streams = [samples[name] for name in names]
    if len(set(map(len, streams))) > 1:
        raise ValueError("the streams of the samples are not equally long")
    for columns in zip(*(_chunks(stream, chunk) for stream in streams)):
        yield list(columns)


def _chunks(values: Any, chunk: int) -> Iterator[Any]:
    """The values in parts of at most ``chunk``. Nothing is taken apart as a whole."""
    if isinstance(values, (str, Mapping)):
        raise TypeError(f"samples are whole numbers, and not {type(values).__name__}")
    if numpy is not None and isinstance(values, array):
        values = numpy.asarray(values)
    if isinstance(values, _CUT) or hasattr(values, "tolist"):
        stays = isinstance(values, _CUT) or _is_array(values)
        for start in range(0, len(values), chunk):
            part = values[start : start + chunk]
            yield part if stays else part.tolist()
        return
    source = iter(values)
    while part := list(islice(source, chunk)):
        yield part


def _is_array(values: Any) -> bool:
    return numpy is not None and isinstance(values, numpy.ndarray)


# The text of a piece

def _text_of(columns: list[Any], inputs: Sequence[Port], done: int, zeros: bool) -> bytes:
    """The lines of these columns, after so many samples, by the fastest way that there is to write them."""
    pairs = list(zip(columns, inputs))
    if not any(map(_is_array, columns)):
        try:
            if widest(inputs) <= 8:
                return decimals.lines_of_bytes([_plain_bytes(column, port) for column, port in pairs], zeros)
            if widest(inputs) <= 16 and zeros and numpy is None:
                return lines_of_words(_plain_words(pairs, done), len(inputs))
        except (ValueError, OverflowError, struct.error):
            pass  # A number is too large or negative.
    if numpy is not None:
        arrays = [_plain_array(_as_array(column, port), port) for column, port in pairs]
        if all(map(_is_array, arrays)):
            return decimals.lines_of_arrays(arrays, zeros)
    return lines_of(_in_turn(pairs, done), len(inputs))


def _in_turn(pairs: list[tuple[Any, Port]], done: int) -> list[int]:
    """The numbers to write of columns and their ports, row by row."""
    return decimals.in_turn([_plain_numbers(column, port, done) for column, port in pairs])


def _as_array(column: Any, port: Port) -> Any:
    """A column as an array of numpy."""
    if isinstance(column, (list, tuple)):
        kind = "q" if port.signed else "Q"
        try:
            # numpy takes packed numbers faster than a list of them.
            return numpy.frombuffer(struct.pack(f"{len(column)}{kind}", *column), dtype=kind)
        except struct.error:
            pass  # A number has more bits, or is none.
    return numpy.asarray(column)


def _plain_array(column: Any, port: Port) -> Any:
    """An array of numpy as the numbers to write, or None where numpy has not all that is asked for."""
    if column.dtype.kind not in "iu" or column.ndim != 1 or port.signed and (port.width is None or port.width > 64):
        return None
    if not port.signed:
        return column if column.min() >= 0 else None
    half = 1 << port.width - 1
    if int(column.min()) < -half or int(column.max()) >= half:
        return None
    return column.astype(numpy.int64).view(numpy.uint64) & ((half << 1) - 1)


def _plain_bytes(column: Any, port: Port) -> bytes:
    """Numbers of at most 8 bits as the bytes to write. Raises ValueError or OverflowError where one has more."""
    assert port.width is not None
    if not port.signed:
        return bytes(column)
    half = 1 << port.width - 1
    made = array("b", list(column)).tobytes()
    lawful = array("b", range(-half, half)).tobytes()
    if made.translate(None, lawful):
        raise ValueError
    return made.translate(bytes(n & (half << 1) - 1 for n in range(256)))


def _plain_words(pairs: list[tuple[Any, Port]], done: int) -> bytes:
    """The numbers of columns of at most 16 bits, row by row, as words of two bytes. Raises struct.error where one has more."""
    values = decimals.in_turn([_plain_numbers(column, port, done) if port.signed else column for column, port in pairs])
    return struct.pack(f"<{len(values)}H", *values)


def _plain_numbers(column: Any, port: Port, done: int) -> Sequence[int]:
    """Numbers of any size as those to write."""
    if not port.signed:
        return _whole_numbers(column)
    values = numbers(column)
    if port.width is None:
        raise ValueError(f"the width of {port.name} is not known, so it has no signed numbers")
    half = 1 << port.width - 1
    if -half <= min(values) and max(values) < half:
        return [value & (half << 1) - 1 for value in values]
    place = next(k for k, value in enumerate(values) if not -half <= value < half)
    raise ValueError(
        f"sample {done + place + 1}: {values[place]} of {port.name} is no signed number of {port.width} bits, "
        f"which are {-half} to {half - 1}"
    )


def _whole_numbers(column: Any) -> Sequence[int]:
    """A column of whole numbers as it is. Raises TypeError where an entry is none."""
    values = column.tolist() if hasattr(column, "tolist") else column
    # gcd takes whole numbers alone, and with 1 it has nothing to reckon.
    math.gcd(1, *values)
    return values
