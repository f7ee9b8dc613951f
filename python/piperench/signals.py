"""Reads and writes files of signals: sound, pictures and tables.

>>> from piperench import Streams, signals
>>> signals.write_csv("squares.csv", Streams({"x": [1, 2, 3], "y": [1, 4, 9]}))
>>> signals.read_csv("squares.csv").rows()
[(1, 1), (2, 4), (3, 9)]
"""

from __future__ import annotations

import os
import re
import sys
import wave
from array import array
from collections.abc import Iterator, Sequence
from dataclasses import dataclass
from pathlib import Path
from typing import Any

from ._reports import read_columns
from ._streams import Streams, column_of, numbers

PathLike = str | os.PathLike[str]


# Sound

@dataclass(frozen=True)
class Sound:
    """Sound: samples for each second, bits of a sample, and a signed stream for each channel."""

    rate: int
    bits: int
    channels: Streams


def read_wav(path: PathLike, names: Sequence[str] | None = None) -> Sound:
    """Reads a WAV file of 8, 16 or 24 bits. Its channels are signed streams: x for one, left and right for two, else x0, x1 ..

    Samples of 8 bits, which a file holds from 0 to 255, become -128 to 127. ``names`` gives the channels other names.
    """
    with wave.open(os.fspath(path), "rb") as file:
        size, count, rate = file.getsampwidth(), file.getnchannels(), file.getframerate()
        data = file.readframes(file.getnframes())
    if size not in (1, 2, 3):
        raise ValueError(f"{path}: samples of {8 * size} bits are not read; 8, 16 and 24 are")
    values = _from_bytes(data[: len(data) - len(data) % (size * count)], size)
    if names is None:
        names = {1: ["x"], 2: ["left", "right"]}.get(count, [f"x{k}" for k in range(count)])
    if len(names) != count:
        raise ValueError(f"{path}: there are {count} channels, and {len(names)} names")
    channels = {name: column_of(values[k::count], 8 * size, True) for k, name in enumerate(names)}
    return Sound(rate, 8 * size, Streams(channels))


def write_wav(path: PathLike, channels: Streams | Sequence[int], *, rate: int, bits: int = 16) -> None:
    """Writes signed streams, or one signed column, as a WAV file of 8, 16 or 24 bits.

    Raises ValueError where a number does not fit, and writes nothing then.
    """
    if bits not in (8, 16, 24):
        raise ValueError(f"samples of {bits} bits are not written; 8, 16 and 24 are")
    named = dict(channels) if isinstance(channels, Streams) else {"x": channels}
    half = 1 << bits - 1
    columns = []
    for name, column in named.items():
        values = numbers(column)
        if values and not (-half <= min(values) and max(values) < half):
            raise ValueError(f"{name} goes from {min(values)} to {max(values)}, and {bits} bits hold {-half} to {half - 1}")
        columns.append(values)
    flat = [value for row in zip(*columns) for value in row] if len(columns) != 1 else columns[0]
    with wave.open(os.fspath(path), "wb") as file:
        file.setnchannels(len(columns))
        file.setsampwidth(bits // 8)
        file.setframerate(rate)
        file.writeframes(_to_bytes(flat, bits // 8))


def _from_bytes(data: bytes, size: int) -> list[int]:
    if size == 1:
        return [value - 128 for value in data]
    if size == 2:
        values = array("h", data)
        if sys.byteorder == "big":
            values.byteswap()
        return values.tolist()
    return [
        ((low | middle << 8 | high << 16) ^ 0x800000) - 0x800000
        for low, middle, high in zip(data[::3], data[1::3], data[2::3])
    ]


def _to_bytes(values: list[int], size: int) -> bytes:
    if size == 1:
        return bytes(value + 128 for value in values)
    return b"".join(value.to_bytes(size, "little", signed=True) for value in values)


# Pictures

@dataclass(frozen=True)
class Picture:
    """A picture: ``planes`` has a stream for each colour, grey or red, green and blue, with the pixels line by line."""

    width: int
    height: int
    maximum: int
    planes: Streams

    def lines(self, count: int, plane: str | None = None) -> Streams:
        """A plane as a stream of columns: ``line0`` is the pixel, ``line1`` the one above it, and so on; outside is 0.

        So a program sees ``count`` lines at once, without keeping one. ``plane`` is the first where it is left out.
        """
        pixels = numbers(self.planes[plane or self.planes.names[0]])
        late = [[0] * min(k * self.width, len(pixels)) + pixels[: max(len(pixels) - k * self.width, 0)] for k in range(count)]
        bits = self.maximum.bit_length()
        return Streams({f"line{k}": column_of(values, bits, False) for k, values in enumerate(late)})


def read_picture(path: PathLike) -> Picture:
    """Reads a PGM or PPM picture, plain or binary, of up to 65,535 shades."""
    data = Path(path).read_bytes()
    kind = data[:2]
    if kind not in (b"P2", b"P3", b"P5", b"P6"):
        raise ValueError(f"{path}: no PGM or PPM picture")
    head, at = _header(data, path)
    width, height, maximum = head
    if not 0 < maximum < 65536:
        raise ValueError(f"{path}: a picture has 1 to 65,535 shades, and not {maximum}")
    names = ["grey"] if kind in (b"P2", b"P5") else ["red", "green", "blue"]
    count = width * height * len(names)
    if kind in (b"P2", b"P3"):
        values = [int(word) for word in re.sub(rb"#[^\n]*", b" ", data[at:]).split()]
    elif maximum < 256:
        values = list(data[at : at + count])
    else:
        values = [int.from_bytes(data[k : k + 2], "big") for k in range(at, min(at + 2 * count, len(data) - 1), 2)]
    if len(values) < count:
        raise ValueError(f"{path}: {count} numbers are to follow, and there are {len(values)}")
    bits = maximum.bit_length()
    planes = {name: column_of(values[k : count : len(names)], bits, False) for k, name in enumerate(names)}
    return Picture(width, height, maximum, Streams(planes))


def write_picture(path: PathLike, planes: Streams | Sequence[int], *, width: int, maximum: int = 255) -> None:
    """Writes one stream as a binary PGM picture, or three as a binary PPM picture, of so many pixels in a line.

    Raises ValueError where the lines do not come out even, or a number does not fit, and writes nothing then.
    """
    columns = [numbers(column) for _, column in planes.items()] if isinstance(planes, Streams) else [numbers(planes)]
    if len(columns) not in (1, 3):
        raise ValueError(f"a picture has one stream or three, and not {len(columns)}")
    if not 0 < maximum < 65536:
        raise ValueError(f"a picture has 1 to 65,535 shades, and not {maximum}")
    height, rest = divmod(len(columns[0]), width)
    if rest:
        raise ValueError(f"{len(columns[0])} pixels make no lines of {width}")
    if any(values and not (0 <= min(values) and max(values) <= maximum) for values in columns):
        raise ValueError(f"a pixel is from 0 to {maximum}")
    flat = columns[0] if len(columns) == 1 else [value for pixel in zip(*columns) for value in pixel]
    head = f"P{5 if len(columns) == 1 else 6}\n{width} {height}\n{maximum}\n".encode()
    size = 1 if maximum < 256 else 2
    Path(path).write_bytes(head + (bytes(flat) if size == 1 else b"".join(value.to_bytes(2, "big") for value in flat)))


def _header(data: bytes, path: PathLike) -> tuple[list[int], int]:
    """Width, height and greatest number of a picture, and where its pixels begin."""
    head = []
    at = 2
    for _ in range(3):
        found = re.compile(rb"(?:\s|#[^\n]*\n)+(\d+)").match(data, at)
        if found is None:
            raise ValueError(f"{path}: the head of the picture is not whole")
        head.append(int(found[1]))
        at = found.end()
    return head, at + 1


# Tables

def read_csv(path: PathLike) -> Streams:
    """Reads a table of whole numbers with commas between: a line of names, and a line for each sample."""
    try:
        return read_columns(Path(path).read_bytes())
    except ValueError as error:
        raise ValueError(f"{path}: {error}") from None


def write_csv(path: PathLike, streams: Streams) -> None:
    """Writes streams as such a table."""
    with open(path, "w", encoding="utf-8") as file:
        file.write(",".join(streams.names) + "\n")
        file.writelines(_csv_lines(streams))


def _csv_lines(streams: Streams) -> Iterator[str]:
    columns: list[Any] = [streams[name] for name in streams.names]
    for row in zip(*map(numbers, columns)):
        yield ",".join(map(str, row)) + "\n"
