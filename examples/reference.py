#!/usr/bin/env python3
"""What the programs of the guide, the idioms and the kernels are to write, by other definitions: on whole lists, with
numbers of any size.

usage: reference.py FOLDER [SAMPLES], as reference.py kernels/fir; without a folder it compares each stored file
"""
import base64, binascii, itertools, pathlib, sys, zlib
from math import cos, floor, pi, sin

here = pathlib.Path(__file__).resolve().parent
folders = {}


def example(name):
    def keep(function):
        folders[name] = function
        return function
    return keep


def signed(number, width):
    return number - (1 << width) if number >> (width - 1) else number


def at(values, n):
    """The value at place n, and 0 before the first."""
    return values[n] if n >= 0 else 0


def column(rows, k=0):
    return [row[k] for row in rows]


def ones(number):
    return bin(number).count("1")


# The programs of the guide

@example("guide/moving-sum")
def moving_sum(rows):
    x = column(rows)
    return [[sum(x[max(0, n - 3):n + 1])] for n in range(len(x))]


@example("guide/first-filter")
def first_filter(rows):
    x = column(rows)
    return [[(at(x, n) + 3 * at(x, n - 1) + 3 * at(x, n - 2) + at(x, n - 3)) // 8] for n in range(len(x))]


@example("guide/smoother")
def smoother(rows):
    s, results = 0, []
    for x, in rows:
        s = s - s // 16 + x
        results.append([s // 16])
    return results


@example("guide/edge-detector")
def edge_detector(rows):
    x = [signed(v, 8) for v, in rows]
    slopes = [x[n] - at(x, n - 1) for n in range(len(x))]
    steep = [abs(slope) > 20 for slope in slopes]
    return [[slope % 2**9, int(any(steep[max(0, n - 3):n + 1]))] for n, slope in enumerate(slopes)]


@example("guide/signed-taps")
def signed_taps(rows):
    x = [signed(v, 8) for v, in rows]
    return [[(3 * x[n] - 7 * at(x, n - 1)) % 2**17] for n in range(len(x))]


@example("guide/minute")
def minute(rows):
    x = column(rows)
    return [[sum(c * at(x, n - k) for k, c in enumerate((8, 9, 10, 11))), n] for n in range(len(x))]


@example("guide/complex-product")
def complex_product(rows):
    results = []
    for row in rows:
        a, b, c, d = (signed(v, 8) for v in row)
        product = complex(a, b) * complex(c, d)
        results.append([int(product.real) % 2**16, int(product.imag) % 2**17])
    return results


# Idioms

@example("idioms/negative-constant")
def negative_constant(rows):
    return [[(signed(x, 8) - 3) % 2**9, -signed(x, 8) % 2**9] for x, in rows]


@example("idioms/grow-and-wrap")
def grow_and_wrap(rows):
    return [[a + b, (a - b) % 256, (a - b) % 512] for a, b in rows]


@example("idioms/saturation")
def saturation(rows):
    return [[min(a + b, 255)] for a, b in rows]


@example("idioms/rotation")
def rotation(rows):
    return [[x * 8 % 255 if x < 255 else 255] for x, in rows]


@example("idioms/tree-of-choices")
def tree_of_choices(rows):
    return [[(3, 7, 9, 1)[k]] for k, in rows]


@example("idioms/hold-a-value")
def hold_a_value(rows):
    return [[([0] + [x for x, take in rows[:n + 1] if take])[-1]] for n in range(len(rows))]


@example("idioms/counter")
def counter(rows):
    return [[n % 256, x] for n, (x,) in enumerate(rows)]


@example("idioms/signed-recurrence")
def signed_recurrence(rows):
    sums = itertools.accumulate(signed(x, 8) for x, in rows)
    return [[s % 2**16, s // 2 % 2**16] for s in sums]


@example("idioms/one-after-the-other")
def one_after_the_other(rows):
    return [[sum(x ^ i for i in range(120)) % 256] for x, in rows]


@example("idioms/split-recurrence")
def split_recurrence(rows):
    seen = itertools.accumulate(column(rows), lambda a, b: a | b)
    return [[2**64 - 1 - s] for s in seen]

@example("idioms/signed-coefficients")
def signed_coefficients(rows):
    x = [signed(v, 8) for v, in rows]
    return [[(10 * at(x, n - 1) - 3 * (x[n] + at(x, n - 2))) % 2**18] for n in range(len(x))]


@example("idioms/symmetric-filter")
def symmetric_filter(rows):
    x = column(rows)
    return [[sum(c * at(x, n - k) for k, c in enumerate((3, 9, 20, 26, 20, 9, 3)))] for n in range(len(x))]


@example("idioms/rounding")
def rounding(rows):
    return [[floor(signed(a, 8) * signed(b, 8) / 16 + 0.5) % 2**13] for a, b in rows]


@example("idioms/signed-saturation")
def signed_saturation(rows):
    return [[max(-128, min(signed(a, 8) + signed(b, 8), 127)) % 2**8] for a, b in rows]


@example("idioms/constant-product")
def constant_product(rows):
    return [[7 * x, 10 * x] for x, in rows]


@example("idioms/short-feedback")
def short_feedback(rows):
    s, results = 0, []
    for x, in rows:
        s = x + s // 2 + s // 4
        results.append([s])
    return results


@example("idioms/crc-16")
def crc_16(rows):
    data = bytes(column(rows))
    return [[binascii.crc_hqx(data[: n + 1], 0xFFFF)] for n in range(len(data))]


@example("idioms/quarter-wave")
def quarter_wave(rows):
    phases = itertools.accumulate(step for step, in rows)
    return [[round(127 * sin(2 * pi * (phase // 16) / 16)) % 2**8] for phase in phases]



# Kernels

@example("guide/loop-and-function")
@example("kernels/fir")
def fir(rows):
    taps = [8, 9, 10, 11, 12, 13, 14, 15, 15, 14, 13, 12, 11, 10, 9, 8]
    x = column(rows)
    return [[sum(c * at(x, n - k) for k, c in enumerate(taps))] for n in range(len(x))]


@example("kernels/population-count")
def population_count(rows):
    return [[ones(x)] for x, in rows]


@example("kernels/target-recognition")
def target_recognition(rows):
    ring = ["..####..", ".######.", "###..###", "##....##", "##....##", "###..###", ".######.", "..####.."]
    picture = ["." * 8] * 7 + [format(x, "08b").replace("1", "#").replace("0", ".") for x, in rows]
    results = []
    for top in range(len(rows)):
        pixels = [(picture[top + r][c], ring[r][c]) for r in range(8) for c in range(8)]
        bright, stray = pixels.count(("#", "#")), pixels.count(("#", "."))
        results.append([bright, stray, int(bright >= 36 and stray <= 4)])
    return results


@example("kernels/cordic")
def cordic(rows):
    results = []
    for angle, in rows:
        z, x, y = signed(angle, 13), 607, 0
        for i, turn in enumerate([804, 475, 251, 127, 64, 32, 16, 8, 4, 2]):
            d = -1 if z < 0 else 1
            x, y, z = x - d * (y // 2**i), y + d * (x // 2**i), z - d * turn
        results.append([x % 2**12, y % 2**12])
    return results


def transform(values):
    """The cosine transform by its matrix, with factors rounded to a 64th."""
    factor = [[round(64 * cos((2 * n + 1) * k * pi / 16)) for n in range(8)] for k in range(8)]
    return [sum(f * v for f, v in zip(line, values)) for line in factor]


@example("kernels/dct8")
def dct8(rows):
    return [[y % 2**18 for y in transform([signed(x, 8) for x in row])] for row in rows]


@example("kernels/dct8x8")
def dct8x8(rows):
    picture = [[0] * 8] * 7 + [[signed(x, 8) for x in row] for row in rows]
    results = []
    for top in range(len(rows)):
        lines = [[y // 64 for y in transform(line)] for line in picture[top:top + 8]]
        columns = [[y // 64 for y in transform(c)] for c in zip(*lines)]
        results.append([columns[k][j] % 2**16 for j in range(4) for k in range(4)])
    return results


@example("kernels/idea")
def idea(rows):
    key = 0x00010002000300040005000600070008
    parts = []
    while len(parts) < 52:
        parts += [key >> shift & 0xffff for shift in range(112, -1, -16)]
        key = (key << 25 | key >> 103) % 2**128

    def times(a, b):
        return (a or 65536) * (b or 65536) % 65537 % 65536

    results = []
    for a, b, c, d in rows:
        k = iter(parts)
        for _ in range(8):
            a, b, c, d = times(a, next(k)), (b + next(k)) % 65536, (c + next(k)) % 65536, times(d, next(k))
            e = times(a ^ c, next(k))
            f = times(((b ^ d) + e) % 65536, next(k))
            e = (e + f) % 65536
            a, b, c, d = a ^ f, c ^ f, b ^ e, d ^ e
        results.append([times(a, next(k)), (c + next(k)) % 65536, (b + next(k)) % 65536, times(d, next(k))])
    return results


@example("kernels/n-queens")
def n_queens(rows):
    return [[int(all(len({q + s * row for row, q in enumerate(r)}) == 8 for s in (-1, 0, 1)))] for r in rows]


@example("kernels/image-over")
def image_over(rows):
    return [[(2 * (f * a + b * (255 - a)) + 255) // 510 for f, b in zip(r[:3], r[3:])] for a, *r in rows]


def remainders(bits, poly, width, first):
    """After each bit, the bits so far, with `first` laid over the first ones, times x^width over poly: what is left."""
    results = []
    for n in range(1, len(bits) + 1):
        number = int("".join(map(str, bits[:n])), 2) << width
        number ^= first << n
        for place in range(n + width - 1, width - 1, -1):
            if number >> place & 1:
                number ^= (1 << width | poly) << place - width
        results.append(number)
    return results


@example("kernels/crc-8")
def crc_8(rows):
    bits = [x >> k & 1 for x, in rows for k in range(7, -1, -1)]
    return [[r] for r in remainders(bits, 0x07, 8, 0)[7::8]]


@example("kernels/crc-32")
def crc_32(rows):
    bits = column(rows)
    results = [[int(format(r ^ 0xffffffff, "032b")[::-1], 2)] for r in remainders(bits, 0x04c11db7, 32, 0xffffffff)]
    for n in range(8, len(bits) + 1, 8):
        data = bytes(int("".join(map(str, bits[k:k + 8][::-1])), 2) for k in range(0, n, 8))
        assert results[n - 1] == [zlib.crc32(data)]
    return results


@example("kernels/cic")
def cic(rows):
    x = column(rows)
    for _ in range(3):
        x = [sum(x[max(0, n - 7):n + 1]) for n in range(len(x))]
    return [[y, int(n % 8 == 7)] for n, y in enumerate(x)]


@example("kernels/biquad")
def biquad(rows):
    x, y = [signed(v, 8) for v, in rows], []
    for n in range(len(x)):
        y.append(x[n] + 2 * at(x, n - 1) + at(x, n - 2) + at(y, n - 1) - at(y, n - 2) // 2)
    return [[v % 2**16] for v in y]


@example("kernels/biquad-14")
def biquad_14(rows):
    x, y = [signed(v, 14) for v, in rows], []  # y in halves
    for n in range(len(x)):
        ahead = 3 * (x[n] + 2 * at(x, n - 1) + at(x, n - 2)) // 16
        y.append(ahead + at(y, n - 1) - at(y, n - 2) // 4 - at(y, n - 2) // 8)
    return [[v // 2 % 2**15] for v in y]


@example("kernels/base64")
def base_64(rows):
    return [list(base64.b64encode(bytes(row))) for row in rows]


@example("kernels/convolutional-coder")
def convolutional_coder(rows):
    x = column(rows)
    taps = [[k for k in range(7) if g >> (6 - k) & 1] for g in (0o171, 0o133)]
    return [[sum(at(x, n - k) for k in t) % 2 for t in taps] for n in range(len(x))]


@example("kernels/viterbi-step")
def viterbi_step(rows):
    results = []
    for *sums, received in rows:
        into = {state: [] for state in range(4)}
        for old, bit in itertools.product(range(4), range(2)):
            memory = [bit, old >> 1, old & 1]  # the newest bit first
            sent = [sum(m for m, g in zip(memory, generator) if g) % 2 for generator in ((1, 1, 1), (1, 0, 1))]
            into[bit << 1 | old >> 1].append(sums[old] + ones((sent[0] << 1 | sent[1]) ^ received))
        came = [int(ways[1] < ways[0]) for ways in into.values()]
        results.append([min(ways) for ways in into.values()] + [sum(c << k for k, c in enumerate(came))])
    return results


@example("kernels/run-lengths")
def run_lengths(rows):
    runs = [len(list(run)) for _, run in itertools.groupby(column(rows))]
    return [[int(k == 0), k + 1] for length in runs for k in range(length)]


@example("kernels/quadrature-mixer")
def quadrature_mixer(rows):
    phase, results = 0, []
    for x, step in rows:
        i, q = (round(127 * cos(2 * pi * (phase + p) / 8)) * signed(x, 8) for p in (0, 2))
        results.append([i % 2**16, q % 2**16])
        phase += step
    return results


def expected(folder, samples):
    rows = [[int(word) for word in line.split()] for line in samples.read_text().splitlines()]
    return "".join(" ".join(map(str, row)) + "\n" for row in folders[folder](rows))


def main(words):
    if words:
        samples = pathlib.Path(words[1]) if words[1:] else here / words[0] / "samples.txt"
        sys.stdout.write(expected(words[0].strip("/"), samples))
        return 0
    differ = 0
    for folder in folders:
        for samples in sorted((here / folder).glob("samples*.txt")):
            stored = samples.with_name(samples.name.replace("samples", "expected"))
            if stored.read_text() != expected(folder, samples):
                print(f"{folder}: {stored.name} differs")
                differ = 1
    return differ


if __name__ == "__main__":
    sys.exit(main(sys.argv[1:]))
