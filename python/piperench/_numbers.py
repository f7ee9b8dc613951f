"""Whole numbers as lines of decimals and as words of 1, 2 or 8 bytes. Called as a program, it turns one into the other.

Python takes about as long to write and to read a sample as the program takes to work on it, or longer. So where there are many
samples, a further Python stands behind the program in a pipeline, and for numbers above 8 bits one before it too:

    pieces | _numbers.py write | piperench run .. | _numbers.py read 2 | words

A piece has words, or lines that were made before. The further Pythons want no package, and no setting of their caller.
"""

from __future__ import annotations

import os
import struct
import sys
from array import array
from binascii import hexlify, unhexlify
from collections.abc import Sequence

#: The most bytes that are read at once: so many that they stay in the processor's cache till they are numbers.
PIECE = 1 << 16

#: The files of the program.
PROGRAM = [sys.executable, os.path.abspath(__file__)]

#: How it is called; ``write``, or ``read`` and the bytes of a word, come behind.
COMMAND = [sys.executable, "-I", "-S", PROGRAM[1]]

# What stands before each piece: how many numbers a line is to have; how many bytes a word has, or 0 where lines follow; and how many
# bytes follow.
_HEAD = struct.Struct("=3q")


# From numbers to lines

def ends_of(count: int) -> list[bytes]:
    """What stands behind each number of a line of so many."""
    return [b" "] * (count - 1) + [b"\n"]


def lines_of(numbers: Sequence[int], count: int) -> bytes:
    """Lines of so many numbers."""
    line = b"".join(b"%d" + end for end in ends_of(count))
    return line * (len(numbers) // count) % tuple(numbers)


# Words of two bytes become lines as a whole. Ten times a number has three figures of base 100. They make six decimals, and the last
# one, a zero, gives its place to the space or LF. The figures are a sum of what the two bytes bring. For 12,345, or 48 * 256 + 57:
#
#     12 28 80    10 * 48 * 256
#      0  5 70    10 * 57
#     12 34 50
#
# The sums of all numbers are one sum of two long integers with a figure in each byte. There a byte carries when it comes to 256. So
# that it carries when the figure comes to 100, the last two figures of the upper line are larger by 156.

_LIFT = 256 - 100


def _of_base_100(n: int) -> tuple[int, int, int]:
    """Ten times a number in base 100."""
    return n // 1000, n // 10 % 100, n % 10 * 10


# For each figure: what every upper and every lower byte brings. A lower byte brings nothing to the first.
_OF_UPPER = list(map(bytes, zip(*((a, b + _LIFT, c + _LIFT) for a, b, c in map(_of_base_100, range(0, 1 << 16, 256))))))
_OF_LOWER = list(map(bytes, zip(*(figures[1:] for figures in map(_of_base_100, range(256))))))

# The two decimals of each byte of the sum, as hexadecimal digits. What has carried is no longer larger.
_DECIMALS = bytes(int(str((n - _LIFT if n >= _LIFT else n) % 100), 16) for n in range(256))


def lines_of_words(words: bytes, count: int) -> bytes:
    """Lines of so many numbers below 65,536 from words of two bytes, the lower one first. Each number has five figures."""
    size = len(words) // 2 * 3
    uppers, lowers = bytearray(size), bytearray(size)
    for place, brought in enumerate(_OF_UPPER):
        uppers[place::3] = words[1::2].translate(brought)
    for place, brought in enumerate(_OF_LOWER, 1):
        lowers[place::3] = words[::2].translate(brought)
    sums = int.from_bytes(uppers, "big") + int.from_bytes(lowers, "big")
    text = bytearray(hexlify(sums.to_bytes(size, "big").translate(_DECIMALS)))
    text[5::6] = b"".join(ends_of(count)) * (size // 3 // count)
    return bytes(text)


# From lines to numbers

_WITH_COMMAS = bytes.maketrans(b" \n", b",,")
_WITH_TABS = bytes.maketrans(b" \n", b"\t\t")
_WITH_ZEROS = bytes.maketrans(b" ", b"0")

# For each place, the ones first: what each figure there is worth. A space is worth nothing.
_WORTHS = [
    bytes((byte - ord("0")) * power % 256 if chr(byte) in "0123456789" else 0 for byte in range(256)) for power in (1, 10, 100)
]

# What two figures are worth that stand in a byte as hexadecimal digits, the ones first.
_WORTHS_OF_TWO = bytes((byte >> 4) + 10 * (byte & 15) for byte in range(256))


def numbers_of(lines: bytes) -> list[int]:
    """The numbers of whole lines."""
    # Without it, what does not call this starts in half the time.
    import json

    # The reader of JSON takes less time than a call of int for each number.
    return json.loads(b"[" + lines[:-1].translate(_WITH_COMMAS) + b"]")


def words_of(lines: bytes, size: int) -> bytes:
    """The numbers of whole lines, each in 1 or 2 bytes, the upper one first, or in 8 bytes in the order of the machine."""
    if size == 1:
        return _single_bytes_of(lines)
    if size == 2:
        return _pairs_of(lines)
    numbers = numbers_of(lines)
    return struct.pack(f"={len(numbers)}Q", *numbers)


def _single_bytes_of(lines: bytes) -> bytes:
    """The numbers of whole lines, all below 256, each in a byte."""
    fields = _fields(lines, 4)
    # Each sum stays below 256, so no number carries into the one above it.
    total = sum(int.from_bytes(fields[place::4].translate(worth), "little") for place, worth in enumerate(_WORTHS))
    return total.to_bytes(len(fields) // 4, "big")


def _pairs_of(lines: bytes) -> bytes:
    """The numbers of whole lines, all below 65,536, each in two bytes, the upper one first."""
    figures = unhexlify(_fields(lines, 6).translate(_WITH_ZEROS)).translate(_WORTHS_OF_TWO)
    total = 0
    for place in range(3):
        part = bytearray(len(figures) // 3 * 2)
        part[::2] = figures[place::3]
        total += int.from_bytes(part, "little") * 100**place
    return total.to_bytes(len(part), "big")


def _fields(lines: bytes, size: int) -> bytes:
    """The numbers from the last to the first, each in so many bytes: its ones first, and spaces where it has no more figures."""
    return (lines[-2::-1] + b"\n").translate(_WITH_TABS).expandtabs(size)


# Pieces

def as_words(numbers: Sequence[int], count: int) -> bytes:
    """A piece to be written in lines of so many numbers."""
    try:
        return piece_of(struct.pack(f"={len(numbers)}Q", *numbers), count, 8)
    except struct.error:
        # A number is negative, or has more bits. The program is to see it as it is.
        return as_lines(numbers, count)


def as_lines(numbers: Sequence[int], count: int) -> bytes:
    """A piece that is written already, in lines of so many numbers."""
    return piece_of(lines_of(numbers, count), count, 0)


def piece_of(data: bytes, count: int, word: int) -> bytes:
    """A piece to be written in lines of so many numbers, from words of 2 or 8 bytes, or as it is where ``word`` is 0."""
    return _HEAD.pack(count, word, len(data)) + data


def _written(data: bytes, count: int, word: int) -> bytes:
    """The lines of a piece."""
    if word == 2:
        return lines_of_words(data, count)
    return lines_of(array("Q", data), count) if word else data


# The program

def write() -> None:
    """Writes the lines of pieces, until there are no more, or nobody reads on."""
    try:
        while head := sys.stdin.buffer.read(_HEAD.size):
            count, word, size = _HEAD.unpack(head)
            sys.stdout.buffer.write(_written(sys.stdin.buffer.read(size), count, word))
            sys.stdout.buffer.flush()
    except BrokenPipeError:
        os._exit(0)


def read(size: int) -> None:
    """Writes the words of lines. A last line without its LF counts for nothing."""
    rest = b""
    while data := os.read(sys.stdin.fileno(), PIECE):
        text = rest + data
        end = text.rfind(b"\n") + 1
        if end:
            sys.stdout.buffer.write(words_of(text[:end], size))
        rest = text[end:]


if __name__ == "__main__":
    if sys.argv[1] == "write":
        write()
    else:
        read(int(sys.argv[2]))
