"""Results as numbers: what comes out of a program."""

from __future__ import annotations

import sys
from array import array
from collections.abc import Callable, Iterable, Iterator, Sequence
from typing import Any

from . import _decimals as decimals
from ._numbers import PIECE, numbers_of, words_of
from ._samples import are_many, widest
from ._streams import Port, Streams, column_of, numpy


class Results:
    """The results of a call. They are taken as they come, and become columns piece by piece.

    ``outputs`` gives the outputs; it is asked when the first results are there, and not where there are none.
    """

    #: The size of the words that the results come as, in bytes; 0 where they come as lines.
    word = 0

    def __init__(self, outputs: Callable[[], Sequence[Port]]) -> None:
        self._outputs = outputs
        self._waiting: list[bytes] = []
        self._size = 0
        self._parts: list[list[Any]] = []

    def take(self, data: bytes) -> None:
        """Takes what comes next."""
        self._waiting.append(data)
        self._size += len(data)
        if self._size >= PIECE:
            self._read()

    def streams(self) -> Streams:
        """The streams of the outputs. A last line without its LF counts for nothing."""
        self._read()
        ports = self._outputs()
        parts = zip(*self._parts) if self._parts else [()] * len(ports)
        return Streams({port.name: _joined(list(columns), port) for columns, port in zip(parts, ports)})

    def _read(self) -> None:
        """Makes columns of the rows that are whole."""
        data = b"".join(self._waiting)
        end = self._whole(data)
        if end:
            self._parts.append(self._columns(data[:end]))
        self._waiting = [data[end:]]
        self._size = len(data) - end

    def _whole(self, data: bytes) -> int:
        """How many bytes the whole rows take."""
        return data.rfind(b"\n") + 1

    def _columns(self, rows: bytes) -> list[Any]:
        """The columns of whole rows."""
        return _columns_of(rows, self._outputs())


class PackedResults(Results):
    """The results of a call that come as words of 1, 2 or 8 bytes, none of them narrower than an output."""

    def __init__(self, outputs: Callable[[], Sequence[Port]], word: int) -> None:
        super().__init__(outputs)
        self.word = word

    def _whole(self, data: bytes) -> int:
        return len(data) - len(data) % (self.word * len(self._outputs()))

    def _columns(self, rows: bytes) -> list[Any]:
        return _columns_of_words(rows, self.word, self._outputs())


def results_of(samples: Any, outputs: Callable[[], Sequence[Port]]) -> Results:
    """What takes the results of the samples, packed where that takes less time."""
    word = _word_of(outputs()) if are_many(samples) else 0
    return PackedResults(outputs, word) if word else Results(outputs)


def _word_of(ports: Sequence[Port]) -> int:
    """The bytes of a word for the numbers of these outputs; 0 where one has more than 64 bits, or how many is not known."""
    width = widest(ports)
    return next((word for word in (1, 2, 8) if 0 < width <= 8 * word), 0)


def streams_of(lines: bytes, outputs: Sequence[Port]) -> Streams:
    """The streams of the outputs, from the lines of results. A last line without its LF counts for nothing."""
    results = Results(lambda: outputs)
    results.take(lines)
    return results.streams()


def _columns_of(lines: bytes, ports: Sequence[Port]) -> list[Any]:
    """A column for each output, from whole lines. It is a list where the output's width is not known."""
    count = len(ports)
    if numpy is not None and widest(ports) <= 64:
        return _arrays_of(decimals.array_of(lines), ports)
    if word := _word_of(ports):
        return _columns_of_words(words_of(lines, word), word, ports)
    values = numbers_of(lines)
    columns = [signed_values(values[k::count], port) for k, port in enumerate(ports)]
    return [
        column if port.width is None else column_of(column, port.width, port.signed) for column, port in zip(columns, ports)
    ]


def _arrays_of(values: Any, ports: Sequence[Port]) -> list[Any]:
    """A column of numpy for each output, from its numbers row by row."""
    return [_array_of(values[k :: len(ports)], port) for k, port in enumerate(ports)]


def _array_of(values: Any, port: Port) -> Any:
    """Numbers of a port as a column of numpy."""
    assert port.width is not None
    if port.width == 64:
        return values.view(numpy.int64) if port.signed else numpy.ascontiguousarray(values)
    column = values.view(numpy.int64)
    return column - ((column >> port.width - 1) << port.width) if port.signed else numpy.ascontiguousarray(column)


def _columns_of_words(data: bytes, size: int, ports: Sequence[Port]) -> list[Any]:
    """A column for each output of at most 64 bits, from words of so many bytes."""
    count = len(ports)
    if numpy is not None:
        return _arrays_of(numpy.frombuffer(data, "=u8" if size == 8 else f">u{size}").astype(numpy.uint64), ports)
    if size == 8:
        words = array("Q", data)
        return [_column_of_numbers(words[k::count], port) for k, port in enumerate(ports)]
    # The last byte of a word is the lowest one.
    octets = [data[place :: size * count] for place in range(size * count)]
    return [_widened(octets[size * k : size * (k + 1)][::-1], port) for k, port in enumerate(ports)]


def _column_of_numbers(words: "array[int]", port: Port) -> Any:
    """Numbers of a port of at most 64 bits as a column."""
    if port.width == 64:
        return array("q", words.tobytes()) if port.signed else words
    return column_of(signed_values(words.tolist(), port), port.width, True) if port.signed else array("q", words.tobytes())


def _widened(octets: list[bytes], port: Port) -> Any:
    """Numbers of a port as a column, from their lowest bytes and, where they have more, their second ones."""
    assert port.width is not None
    wide = bytearray(8 * len(octets[0]))
    places = range(8) if sys.byteorder == "little" else range(7, -1, -1)
    for place, part in zip(places, octets):
        wide[place::8] = part
    if port.signed:
        last, bits = divmod(port.width - 1, 8)
        half = 1 << bits
        wide[places[last] :: 8] = octets[last].translate(bytes(n if n < half else (n - 2 * half) % 256 for n in range(256)))
        signs = octets[last].translate(bytes(0 if n < half else 255 for n in range(256)))
        for place in places[last + 1 :]:
            wide[place::8] = signs
    return array("q", wide)


def _joined(parts: list[Any], port: Port) -> Any:
    """A column of all its parts."""
    if port.width is None:
        return column_of([value for part in parts for value in part], None, port.signed)
    if not parts:
        return column_of([], port.width, port.signed)
    if len(parts) > 1 and numpy is not None:
        return numpy.concatenate(parts)
    first, *others = parts
    for part in others:
        first.extend(part)
    return first


def signed_values(values: list[int], port: Port) -> list[int]:
    """The values that numbers of a port stand for."""
    if not port.signed:
        return values
    if port.width is None:
        raise ValueError(f"the width of {port.name} is not known, so it has no signed numbers")
    half = 1 << port.width - 1
    return [(value ^ half) - half for value in values]


def rows_of(lines: Iterable[bytes], outputs: Sequence[Port]) -> Iterator[tuple[int, ...]]:
    """The row of each line of results."""
    if len(outputs) == 1 and not outputs[0].signed:
        for line in lines:
            yield (int(line),)
        return
    halves = [1 << port.width - 1 if port.signed and port.width else 0 for port in outputs]
    for line in lines:
        yield tuple([(int(word) ^ half) - half for word, half in zip(line.split(), halves)])
