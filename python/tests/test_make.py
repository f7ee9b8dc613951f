"""The programs that are written, against their models and against models of these tests."""

from __future__ import annotations

import binascii
import math
import random
import unittest

from piperench import Refused, make
from piperench.make import Made, signed_digits, units_of_digits, units_of_product

from .support import needs_programs

SIZES = (2, 3, 4, 5, 7, 8, 11, 16, 23, 32, 50, 64)


def random_fir(chance: random.Random) -> Made:
    taps = [chance.choice([0, 1, -1, chance.randrange(-200, 200)]) for _ in range(chance.randrange(1, 14))]
    if chance.random() < 0.5:
        taps += taps[::-1]
    return make.fir(taps, chance.choice([1, 4, 8, 12, 16]), signed=chance.random() < 0.7)


def random_biquad(chance: random.Random) -> Made:
    b = [chance.uniform(-2, 2) for _ in range(3)]
    a = [chance.choice([-1, 1]) * chance.choice([0, 0.5, 0.75, 1, 1.5]), chance.choice([0, 0.25, 0.5, 0.75, -0.5])]
    fraction = chance.choice([1, 2, 3])
    return make.biquad(b, a, chance.choice([4, 8]), fraction=fraction, guard=chance.choice([0, 2, 4]))


def random_cic(chance: random.Random) -> Made:
    return make.cic(
        chance.randrange(1, 4), chance.choice([1, 2, 3, 4, 8]), chance.choice([1, 8, 12]), delay=chance.choice([1, 2]),
        signed=chance.random() < 0.5,
    )


def random_crc(chance: random.Random) -> Made:
    width = chance.choice([3, 5, 8, 12, 16])
    bits = chance.choice([1, 1, min(4, width), min(8, width)])
    polynomial = chance.randrange(1, 1 << width)
    if bits > 1:
        polynomial = 1 | 1 << chance.randrange(1, width) if width > 1 else 1
    return make.crc(
        polynomial, width, bits=bits, initial=chance.randrange(1 << width), final=chance.randrange(1 << width),
        reflect=chance.random() < 0.5,
    )


def random_lfsr(chance: random.Random) -> Made:
    width = chance.randrange(2, 40)
    taps = {width, *(chance.randrange(1, width + 1) for _ in range(chance.randrange(4)))}
    return make.lfsr(taps, seed=chance.randrange(1, 1 << width))


def random_dds(chance: random.Random) -> Made:
    table = chance.randrange(1, 5)
    return make.dds(chance.randrange(table + 2, 20), chance.randrange(2, 17), table_bits=table)


def random_fixed(chance: random.Random) -> Made:
    return make.fixed(chance.uniform(-3, 3), chance.choice([1, 8, 16]), fraction=chance.randrange(0, 12))


MAKERS = (random_fir, random_fir, random_biquad, random_cic, random_crc, random_lfsr, random_dds, random_fixed)


def samples_for(chance: random.Random, made: Made, count: int) -> list[tuple[int, ...]]:
    """Samples of which many are at the ends of the range."""
    rows = []
    for _ in range(count):
        row = []
        for port in made.inputs:
            low, high = (-(1 << port.width - 1), (1 << port.width - 1) - 1) if port.signed else (0, (1 << port.width) - 1)
            row.append(chance.choice([low, high, chance.randint(low, high), chance.randint(low, high)]))
        rows.append(tuple(row))
    return rows


@needs_programs
class Programs(unittest.TestCase):
    def test_two_hundred_random_programs(self) -> None:
        chance = random.Random(44)
        refused = 0
        for number in range(200):
            made = MAKERS[number % len(MAKERS)](chance)
            samples = samples_for(chance, made, 40)
            stripes = SIZES[number % len(SIZES)]
            with self.subTest(number=number, text=made.text):
                expected = made.model(samples)
                self.assertEqual(made.program().eval(samples).rows(), expected)
                try:
                    self.assertEqual(made.program(stripes=stripes).run(samples).rows(), expected)
                except Refused as error:
                    self.assertEqual(error.status, 5, error.note)
                    refused += 1
        self.assertLess(refused, 20)

    def test_filters_of_many_taps_fit(self) -> None:
        chance = random.Random(3)
        half = [chance.randrange(-127, 128) for _ in range(32)]
        cases = [half + half[::-1], half[:16] + [100] + half[15::-1], [chance.randrange(-127, 128) for _ in range(64)]]
        for factors in cases:
            made = make.fir(factors, 8)
            samples = samples_for(chance, made, 200)
            self.assertEqual(made.program().run(samples).rows(), made.model(samples))

    def test_symmetry_saves_units(self) -> None:
        symmetric = make.fir([3, 7, 11, 11, 7, 3], 8).program().cost().units
        other = make.fir([3, 7, 11, 13, 19, 21], 8).program().cost().units
        self.assertLess(symmetric, other)

    def test_counted_units_are_those_of_the_compiler(self) -> None:
        for width, factor in ((8, 3), (8, 255), (12, 43), (16, 171), (24, 0x5555), (33, 11), (40, 0x155)):
            head = f"input x:{width}; "
            alone = make_cost(head + "output y = x;")
            product = make_cost(head + f"output y:{width} = x * {factor};")
            self.assertEqual(product - alone, units_of_product(width, factor.bit_length(), width), (width, factor))
            lines = make._Lines()
            term, below = "", 0
            digits = signed_digits(factor)[::-1]
            for sign, place in digits:
                moved = lines.shifted(term, below - place, width) if term else ""
                term = lines.total([(1, moved), (sign, "x")], width)[1] if term else "x"
                below = place
            if below:
                term = lines.shifted(term, below, width)
            counted = make_cost(head + lines.text() + f"output y:{width} = {term};") - alone
            self.assertEqual(counted, units_of_digits(width, signed_digits(factor)), (width, factor))

    def test_the_shorter_of_both_is_written(self) -> None:
        chance = random.Random(9)
        for _ in range(30):
            factor, bits = chance.randrange(1, 4096), chance.choice([8, 16, 24])
            made = make.fir([factor], bits, signed=False)
            product = make_cost(f"input x:{bits}; output y:{bits + factor.bit_length()} = x * {factor};")
            self.assertLessEqual(made.program().cost().units, product + 1, (factor, bits))

    def test_what_does_not_fit_is_refused(self) -> None:
        cases = [
            (make.crc(0x04C11DB7, 32, bits=8), 5), (make.biquad([1, 1, 1], [-1.77, 0.83], 32, fraction=10), 5),
            (make.fir([1] * 300, 8), 3), (make.fir([1 << 100], 64), 3),
        ]
        for made, status in cases:
            with self.assertRaises(Refused) as caught:
                made.program().run([0])
            self.assertEqual(caught.exception.status, status, made.text)

    def test_crc_of_ethernet_and_of_binascii(self) -> None:
        data = bytes(random.Random(5).randrange(256) for _ in range(100))
        ethernet = make.crc(0x04C11DB7, 32, initial=0xFFFFFFFF, final=0xFFFFFFFF, reflect=True)
        bits = [byte >> k & 1 for byte in data for k in range(8)]
        results = list(ethernet.program().run(bits)["y"])
        self.assertEqual(results[7::8], [binascii.crc32(data[: n + 1]) for n in range(len(data))])
        telegraph = make.crc(0x1021, 16, bits=8)
        self.assertEqual(telegraph.fabric, "base")
        results = list(telegraph.program().run(data)["y"])
        self.assertEqual(results, [binascii.crc_hqx(data[: n + 1], 0) for n in range(len(data))])

    def test_a_low_pass_lets_low_tones_pass(self) -> None:
        made = make.biquad([0.25, 0.5, 0.25], [-0.5, 0.5], 8, fraction=2)
        for turn, least, most in ((1 / 40, 0.8, 1.3), (0.48, 0, 0.1)):
            tone = [round(100 * math.sin(2 * math.pi * turn * n)) for n in range(400)]
            results = list(made.program().run(tone)["y"])[100:]
            self.assertTrue(least <= max(map(abs, results)) / 100 <= most, (turn, max(results)))


def make_cost(text: str) -> int:
    from piperench import Program

    return Program(text).cost().units


class Models(unittest.TestCase):
    """The models themselves, against published numbers and other ways to compute the same."""

    def test_check_sums_of_the_digits(self) -> None:
        # The check values of the catalogue of parametrised CRC algorithms, for the bytes "123456789".
        cases = [
            (dict(polynomial=0x07, width=8), 0xF4), (dict(polynomial=0x1021, width=16), 0x31C3),
            (dict(polynomial=0x1021, width=16, initial=0xFFFF), 0x29B1), (dict(polynomial=0x8005, width=16, reflect=True), 0xBB3D),
            (dict(polynomial=0x04C11DB7, width=32, initial=0xFFFFFFFF, final=0xFFFFFFFF, reflect=True), 0xCBF43926),
            (dict(polynomial=0x04C11DB7, width=32, initial=0xFFFFFFFF, final=0xFFFFFFFF), 0xFC891918),
        ]
        for words, check in cases:
            self.assertEqual(make.crc(**words, bits=8).model(b"123456789")[-1], (check,))

    def test_filters(self) -> None:
        self.assertEqual(make.fir([1, -2, 3], 8).model([1, 0, 0, -128]), [(1,), (-2,), (3,), (-128,)])
        self.assertEqual(make.fixed(-0.5, 8, fraction=1).model([3, -3, 127]), [(-2,), (1,), (-64,)])
        self.assertEqual(make.cic(2, 3, 8).model([1, 0, 0, 0, 0, 0]), [(1, 0), (2, 0), (3, 1), (2, 0), (1, 0), (0, 1)])
        # 1, then half of it each time, with two bits behind the point.
        self.assertEqual(make.biquad([1, 0, 0], [-0.5, 0], 8, fraction=1, guard=2).model([8, 0, 0, 0, 0]), [(8,), (4,), (2,), (1,), (0,)])

    def test_a_shift_register_of_greatest_period(self) -> None:
        states = [register for _, register in make.lfsr([4, 3]).model([0] * 30)]
        self.assertEqual(len(set(states[:15])), 15)
        self.assertEqual(states[:15], states[15:])

    def test_a_sine_is_one(self) -> None:
        made = make.dds(10, 12, table_bits=6)
        values = [y for y, in made.model([1] * 1024)]
        for n, value in enumerate(values):
            self.assertAlmostEqual(value / 2047, math.sin(2 * math.pi * (n + 1.5 - ((n + 1) % 4) + 0.5) / 1024), delta=0.02)

    def test_signed_digits_are_few_and_right(self) -> None:
        for value in range(1, 3000):
            digits = signed_digits(value)
            self.assertEqual(sum(sign << place for sign, place in digits), value)
            places = [place for _, place in digits]
            self.assertTrue(all(b - a >= 2 for a, b in zip(places, places[1:])))
            self.assertLessEqual(len(digits), bin(value).count("1"))

    def test_parameters_that_are_none(self) -> None:
        calls = [
            lambda: make.fir([], 8), lambda: make.fir([1.5], 8), lambda: make.fir([1], 0), lambda: make.fir([1], 65),
            lambda: make.biquad([1, 2], [1, 2], 8), lambda: make.biquad([1, 2, 1], [1, 2], 8, fraction=40),
            lambda: make.cic(0, 2, 8), lambda: make.crc(0, 8), lambda: make.crc(256, 8), lambda: make.crc(7, 8, bits=9),
            lambda: make.crc(7, 8, initial=256), lambda: make.lfsr([]), lambda: make.lfsr([1]), lambda: make.lfsr([4, 3], seed=0),
            lambda: make.dds(4, 8, table_bits=3), lambda: make.fixed(0.5, 8, fraction=-1),
        ]
        for number, call in enumerate(calls):
            with self.subTest(number=number), self.assertRaises(ValueError):
                call()

    def test_nothing_makes_nothing(self) -> None:
        self.assertEqual(make.fir([0, 0], 8).model([5, 6]), [(0,), (0,)])
        self.assertEqual(make.fir([1], 8).model([]), [])
