"""Streams of whole numbers, by their names."""

from __future__ import annotations

import html
import operator
import struct
from array import array
from collections.abc import Iterable, Iterator, Mapping, Sequence
from dataclasses import dataclass
from typing import Any

try:
    import numpy
except ImportError:
    numpy = None  # type: ignore[assignment]


@dataclass(frozen=True)
class Port:
    """An input or an output of a program. The width is None where it is not known."""

    name: str
    width: int | None = None
    signed: bool = False


class Streams:
    """Named streams of equal length: a column of numbers for each name, and a row for each sample.

    ``streams["y"]`` is a column: a numpy array where numpy is there and else an ``array`` of the standard library; in both
    cases whole numbers of 64 bits, and a list (with numpy an array of objects) where a stream has more bits. Iterating gives
    rows, as tuples of Python's whole numbers, and ``len(streams)`` is their number. ``names`` has the names in their order.
    """

    def __init__(self, columns: Mapping[str, Any]) -> None:
        self._columns = dict(columns)
        lengths = {len(column) for column in self._columns.values()}
        if len(lengths) > 1:
            raise ValueError("the streams are not equally long: " + ", ".join(map(str, sorted(lengths))))
        self._length = lengths.pop() if lengths else 0

    @property
    def names(self) -> tuple[str, ...]:
        return tuple(self._columns)

    def __getitem__(self, name: str) -> Any:
        return self._columns[name]

    def __len__(self) -> int:
        return self._length

    def __iter__(self) -> Iterator[tuple[int, ...]]:
        return zip(*map(numbers, self._columns.values()))

    def __contains__(self, name: object) -> bool:
        return name in self._columns

    def keys(self) -> Iterable[str]:
        """The names, so that ``dict(streams)`` has the columns by name."""
        return self._columns.keys()

    def items(self) -> Iterable[tuple[str, Any]]:
        """The names with their columns."""
        return self._columns.items()

    def __eq__(self, other: object) -> bool:
        if not isinstance(other, Streams):
            return NotImplemented
        return self.names == other.names and all(
            numbers(self[name]) == numbers(other[name]) for name in self.names
        )

    __hash__ = None  # type: ignore[assignment]

    def rows(self, start: int = 0, stop: int | None = None) -> list[tuple[int, ...]]:
        """The rows from ``start`` on, up to the one before ``stop``."""
        return list(zip(*(numbers(column[start:stop]) for column in self._columns.values())))

    def __repr__(self) -> str:
        return f"Streams({', '.join(self.names)}: {len(self)} rows)"

    def _repr_html_(self) -> str:
        return table_of(self.names, self.rows(0, 20), len(self))


def table_of(names: Sequence[str], rows: Iterable[Sequence[int]], length: int) -> str:
    """A table in HTML with a numbered line for each row, and a line that says how many rows of ``length`` are not shown."""
    shown = list(rows)
    head = "".join(f"<th>{html.escape(name)}</th>" for name in ("", *names))
    lines = [
        f"<tr><th>{number}</th>" + "".join(f"<td>{value}</td>" for value in row) + "</tr>"
        for number, row in enumerate(shown)
    ]
    more = f"<p>and {length - len(shown):,} more</p>" if length > len(shown) else ""
    return f"<table><thead><tr>{head}</tr></thead><tbody>{''.join(lines)}</tbody></table>{more}"


def numbers(column: Any) -> list[int]:
    """A column as a list of Python's whole numbers. Raises TypeError where an entry is none."""
    plain = column.tolist() if hasattr(column, "tolist") else list(column)
    if set(map(type, plain)) <= {int}:
        return plain
    return [int(operator.index(value)) for value in plain]


def column_of(values: Sequence[int], width: int | None, signed: bool) -> Any:
    """Whole numbers as a column of a stream of so many bits. Without a width that of the greatest number decides."""
    if width is None:
        width = max(map(int.bit_length, values), default=1) + signed
    if numpy is not None:
        kind: Any = object if width > 64 else numpy.uint64 if width == 64 and not signed else numpy.int64
        column = numpy.empty(len(values), dtype=kind)
        column[:] = values
        return column
    if width > 64:
        return list(values)
    code = "Q" if width == 64 and not signed else "q"
    # An array takes packed numbers faster than a list of them.
    return array(code, struct.pack(f"{len(values)}{code}", *values))
