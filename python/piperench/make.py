"""Writes programs: filters, check sums and sources of signals, each with a plain model of the same arithmetic.

>>> from piperench import make
>>> smooth = make.fir([1, 2, 1], bits=8)
>>> smooth.model([4, 0, -1])
[(4,), (8,), (3,)]

``smooth.text`` is the program's text and ``smooth.program()`` the program, whose results are those of the model. Whether a
program fits on the fabric is found by compiling it: what does not fit raises Refused there.
"""

from __future__ import annotations

import math
from collections.abc import Callable, Iterable, Sequence
from dataclasses import dataclass, field
from typing import Any

from ._program import Program
from ._samples import columns_of
from ._streams import Port, numbers

Rows = list[tuple[int, ...]]

# A value that waits for a later one takes a register for each byte. Sums of the same factor wait as long as no more bytes do.
_BYTES_THAT_WAIT = 64

_COLUMNS_OF_BASE = 16


@dataclass(frozen=True)
class Made:
    """A program that was written here.

    ``text`` is its text, and ``constants`` has the whole numbers that stand for the factors that were asked for. ``signed``
    names its signed inputs and outputs; ``fabric`` and ``narrow`` are those that ``program`` compiles it for.
    """

    text: str
    inputs: tuple[Port, ...]
    outputs: tuple[str, ...]
    signed: tuple[str, ...]
    rule: Callable[[list[list[int]]], list[list[int]]] = field(repr=False)
    constants: tuple[int, ...] = ()
    fabric: str = "base"
    narrow: bool = False

    def program(self, **options: Any) -> Program:
        """The program; options are those of Program."""
        own = {"fabric": self.fabric, "narrow": self.narrow, "signed": self.signed}
        return Program(self.text, **{**own, **options})

    def model(self, samples: Any) -> Rows:
        """The rows that the program is to make of the samples, by plain arithmetic on whole numbers."""
        columns: list[list[int]] = [[] for _ in self.inputs]
        for part in columns_of(samples, self.inputs, 1 << 16):
            for column, more in zip(columns, part):
                column.extend(numbers(more))
        return list(zip(*self.rule(columns)))


# Filters

def fir(coefficients: Iterable[int], bits: int, *, signed: bool = True) -> Made:
    """A filter: y is the sum of ``coefficients[k]`` times x of k samples ago. No bit is lost.

    x has ``bits`` bits, two's complement unless ``signed`` is False. Samples with the same factor are added before they are
    multiplied, as in a symmetric filter. A factor becomes shifts and sums, where that takes no more units than a product.
    """
    factors = tuple(coefficients)
    _check_whole(factors)
    _check_bits(bits)
    least, most = _reach(factors, bits, signed)
    with_sign = least < 0
    width = _bits_for(least, most)
    lines = _Lines()
    lines.add(f"input x:{bits};")
    total = _weighted_sum(lines, "x", factors, bits, width, signed)
    lines.add(f"output y:{width} = {total};")
    names = (*(["x"] if signed else []), *(["y"] if with_sign else []))
    head = f"// y is the sum of {', '.join(map(str, factors[:8]))}{', ..' if len(factors) > 8 else ''} times x of 0, 1, .. samples ago."

    def rule(columns: list[list[int]]) -> list[list[int]]:
        return [_convolved(factors, columns[0])]

    return Made(f"{head}\n{lines.text()}", (Port("x", bits, signed),), ("y",), names, rule, factors)


def biquad(
    b: Sequence[float], a: Sequence[float], bits: int, *, fraction: int = 4, guard: int = 4, width: int | None = None
) -> Made:
    """A filter of second order: y = b0 x + b1 x@1 + b2 x@2 - a1 y@1 - a2 y@2.

    ``a`` is (a1, a2), or (a0, a1, a2), by whose a0 all factors are divided. The factors are rounded to ``fraction`` bits behind
    the point; ``constants`` has them times 2 to the power of that. x has ``bits`` bits, two's complement. y is kept with
    ``guard`` bits behind the point in ``width`` bits, and each part of it that is fed back is rounded down to such a number.
    """
    _check_bits(bits)
    if len(b) != 3 or len(a) not in (2, 3):
        raise ValueError("b has three factors, and a two or three")
    scale = a[0] if len(a) == 3 else 1.0
    ahead = tuple(round(value / scale * 2**fraction) for value in b)
    back = tuple(round(value / scale * 2**fraction) for value in a[-2:])
    kept = bits + guard + 4 if width is None else width
    if not 0 <= fraction < kept or not 0 <= guard < kept or kept > 64:
        raise ValueError("fraction and guard are not below 0 and less than the width, which is at most 64 bits")
    feedback = [
        (-sign, place - fraction, late) for late, factor in enumerate(back, 1) for sign, place in signed_digits(factor)
    ]
    lines = _Lines()
    _write_biquad(lines, ahead, feedback, bits, kept, fraction, guard)
    columns = 2 * _bytes(kept) + sum(_bytes(kept) + (_bytes(kept) if place % 8 else 0) for _, place, _ in feedback)
    head = (
        f"// y = ({ahead[0]} x + {ahead[1]} x@1 + {ahead[2]} x@2 - {back[0]} y@1 - {back[1]} y@2) / {2**fraction}, "
        f"with {guard} bits behind the point."
    )
    return Made(
        f"{head}\n{lines.text()}",
        (Port("x", bits, True),),
        ("y",),
        ("x", "y"),
        _biquad_rule(ahead, feedback, kept, fraction, guard),
        ahead + back,
        "base" if columns <= _COLUMNS_OF_BASE else "wide",
        True,
    )


def _write_biquad(
    lines: "_Lines", ahead: Sequence[int], feedback: Sequence[tuple[int, int, int]], bits: int, kept: int, fraction: int, guard: int
) -> None:
    """The recurrence holds y plus half of its range, an unsigned number: so a shift to the right needs no sign."""
    half = 1 << kept - 1
    wide = max(_signed_bits_for(*_reach(ahead, bits, True)), bits)
    lines.add(f"input x:{bits};")
    total = _weighted_sum(lines, "x", ahead, bits, wide, True)
    lines.add(f"let forward:{wide} = {total};")
    shift = f"<< {guard - fraction}" if guard >= fraction else f">> {fraction - guard}"
    lines.add(f"let scaled:{kept} = signed(forward) {shift};")
    offset = half - sum(sign * _moved(half, place) for sign, place, _ in feedback)
    lines.add(f"let fed:{kept} = cat(scaled) + {offset % (1 << kept)};")
    body = "fed"
    for sign, place, late in feedback:
        past = f"kept@{late}" if place == 0 else f"(kept@{late} {'<<' if place > 0 else '>>'} {abs(place)})"
        body += f" {'+' if sign > 0 else '-'} {past}"
    lines.add(f"rec kept:{kept} = {half} by {body};")
    lines.add(f"output y = signed(kept ^ {half}) >> {guard};")


def _biquad_rule(
    ahead: Sequence[int], feedback: Sequence[tuple[int, int, int]], kept: int, fraction: int, guard: int
) -> Callable[[list[list[int]]], list[list[int]]]:
    def rule(columns: list[list[int]]) -> list[list[int]]:
        past = [0, 0]
        results = []
        for total in _convolved(ahead, columns[0]):
            value = _moved(total, guard - fraction)
            value += sum(sign * _moved(past[late - 1], place) for sign, place, late in feedback)
            past = [_wrapped(value, kept), past[0]]
            results.append(past[0] >> guard)
        return [results]

    return rule


def cic(stages: int, rate: int, bits: int, *, delay: int = 1, signed: bool = True) -> Made:
    """A CIC decimator: ``stages`` integrators and as many combs of ``delay`` times ``rate`` samples.

    There is a result for each sample; ``keep`` is 1 at each result that a decimator by ``rate`` keeps. The integrators run
    over, and the combs make that good.
    """
    _check_bits(bits)
    if stages < 1 or rate < 1 or delay < 1:
        raise ValueError("stages, rate and delay are at least 1")
    span = rate * delay
    width = _bits_for(*_reach([span**stages], bits, signed))
    lines = _Lines()
    lines.add(f"input x:{bits};")
    lines.add(f"let wide:{width} = {'signed(x)' if signed else 'x'};")
    value = "cat(wide)"
    for k in range(stages):
        lines.add(f"rec sum[{k}]:{width} = 0 by sum[{k}]@1 + {value};")
        value = f"sum[{k}]"
    for k in range(stages):
        lines.add(f"let comb[{k}]:{width} = {value} - {value}@{span};")
        value = f"comb[{k}]"
    lines.add(f"output y = {value};")
    last = rate - 1
    size = max(last.bit_length(), 1)
    step = "count@1 + 1" if rate == 1 << size else f"count@1 == {last} ? 0 : count@1 + 1"
    lines.add(f"rec count:{size} = {last} by {step};")
    lines.add(f"output keep = count == {last};")

    def rule(columns: list[list[int]]) -> list[list[int]]:
        values = columns[0]
        for _ in range(stages):
            values = [sum(values[max(0, n - span + 1) : n + 1]) for n in range(len(values))]
        return [values, [int(n % rate == last) for n in range(len(values))]]

    head = f"// A CIC decimator by {rate} of {stages} stages, whose combs look back {span} samples."
    names = ("x", "y") if signed else ()
    return Made(f"{head}\n{lines.text()}", (Port("x", bits, signed),), ("y", "keep"), names, rule, narrow=True)


# Check sums and sequences

def crc(
    polynomial: int, width: int, *, bits: int = 1, initial: int = 0, final: int = 0, reflect: bool = False
) -> Made:
    """A check sum of ``width`` bits, of ``bits`` bits at each sample: 1, or 8 for bytes.

    ``polynomial`` is written as is usual, the highest power left out: 0x1021 is x^16 + x^12 + x^5 + 1. ``initial`` is what the
    register holds at first, and ``final`` is laid over each result. With ``reflect`` the lowest bit of each sample comes first
    and the results are turned round, as in Ethernet and zip; ``initial`` and ``final`` are those of the register turned round.
    """
    if not 0 < polynomial < 1 << width or not 1 <= bits <= width:
        raise ValueError("the polynomial is below 2 to the power of the width, and there are 1 to that many bits")
    if not (0 <= initial < 1 << width and 0 <= final < 1 << width):
        raise ValueError("initial and final have at most as many bits as the check sum")
    lines = _Lines()
    lines.add(f"input x:{bits};")
    if bits == 1:
        columns = _write_crc_of_bits(lines, polynomial, width, initial, reflect)
    else:
        columns = _write_crc_of_words(lines, polynomial, width, bits, initial, reflect)
    lines.add(f"output y = {f'crc ^ {final}' if final else 'crc'};")

    def rule(columns: list[list[int]]) -> list[list[int]]:
        return [_divided(columns[0], polynomial, width, bits, initial, final, reflect)]

    head = f"// The check sum of {width} bits with the polynomial {polynomial:#x}{', turned round' if reflect else ''}, {bits} bits at each sample."
    fabric = "base" if columns <= _COLUMNS_OF_BASE else "wide"
    return Made(f"{head}\n{lines.text()}", (Port("x", bits),), ("y",), (), rule, (polynomial,), fabric, True)


def _write_crc_of_bits(lines: "_Lines", polynomial: int, width: int, initial: int, reflect: bool) -> int:
    """One step of the division. Returns the columns that its stage needs."""
    if reflect:
        lines.add(f"rec crc:{width} = {initial} by (crc@1 >> 1) ^ (crc@1{{0..0}} ^ x ? {_reversed(polynomial, width)} : 0);")
    else:
        top = width - 1
        rest = f"cat(crc@1{{{top - 1}..0}}, 0)" if width > 1 else "0"
        lines.add(f"rec crc:{width} = {initial} by {rest} ^ (crc@1{{{top}..{top}}} ^ x ? {polynomial} : 0);")
    return 4 * _bytes(width) + 2 + (0 if reflect else _bytes(width))


def _write_crc_of_words(lines: "_Lines", polynomial: int, width: int, bits: int, initial: int, reflect: bool) -> int:
    """As many steps at once: the quotient of the bits that leave the register, and that many times the polynomial."""
    powers = [power for power in range(width) if polynomial >> power & 1]
    inverse = _inverse(polynomial, width, bits)
    if reflect:
        lines.add(f"fn quotient(t):{bits} {{ return {' ^ '.join(_shifted('t', k) for k in inverse)}; }}")
        moves = [width - bits - power for power in powers]
        rest = f"(r >> {bits})" if bits < width else "0"
        out = f"crc@1{{{bits - 1}..0}}"
    else:
        lines.add(f"fn quotient(t):{bits} {{ return {' ^ '.join(_shifted('t', -k) for k in inverse)}; }}")
        moves = powers
        rest = f"(r << {bits})" if bits < width else "0"
        out = f"crc@1{{{width - 1}..{width - bits}}}"
    parts = [_shifted("q", move) for move in moves]
    lines.add(f"fn rest(r, q):{width} {{ return {' ^ '.join([rest, *parts])}; }}")
    lines.add(f"rec crc:{width} = {initial} by rest(crc@1, quotient({out} ^ x));")
    small, large = _bytes(bits), _bytes(width)
    sums = large + small * len(inverse) + large * len(powers)
    shifts = small * sum(k % 8 > 0 for k in [bits, *inverse]) + large * sum(move % 8 > 0 for move in [bits, *moves])
    return sums + shifts


def lfsr(taps: Iterable[int], *, seed: int = 1) -> Made:
    """A shift register with feedback: its new bit is the exclusive or of the bits of ``taps`` samples ago.

    ``taps`` are the exponents of the polynomial, as (16, 14, 13, 11), and the greatest is the register's width. The lowest bit
    of ``seed`` is the newest. y is x, one bit, with the new bit laid over it, so that x = 0 gives the sequence itself;
    ``register`` is the whole register.
    """
    exponents = tuple(sorted(set(taps), reverse=True))
    if not exponents or exponents[-1] < 1 or exponents[0] < 2:
        raise ValueError("taps are exponents from 1 on, and the greatest is at least 2")
    width = exponents[0]
    if not 0 < seed < 1 << width:
        raise ValueError(f"the seed is a number of {width} bits, and not 0")
    lines = _Lines()
    lines.add("input x:1;")
    fresh = " ^ ".join(f"state@1{{{tap - 1}..{tap - 1}}}" for tap in exponents)
    lines.add(f"rec state:{width} = {seed} by cat(state@1{{{width - 2}..0}}, {fresh});")
    lines.add("output y = x ^ state{0..0};")
    lines.add("output register = state;")

    def rule(columns: list[list[int]]) -> list[list[int]]:
        past = [seed >> place & 1 for place in range(width - 1, -1, -1)]
        for _ in columns[0]:
            past.append(sum(past[-tap] for tap in exponents) % 2)
        fresh_bits = past[width:]
        states = [sum(past[n + width - k] << k for k in range(width)) for n in range(len(fresh_bits))]
        return [[x ^ bit for x, bit in zip(columns[0], fresh_bits)], states]

    columns = 3 * _bytes(width) + 2 * len(exponents)
    head = f"// A shift register of {width} bits with the taps {', '.join(map(str, exponents))}."
    fabric = "base" if columns <= _COLUMNS_OF_BASE else "wide"
    return Made(f"{head}\n{lines.text()}", (Port("x", 1),), ("y", "register"), (), rule, exponents, fabric)


# Sources of signals

def dds(phase_bits: int, bits: int, *, table_bits: int = 4) -> Made:
    """A sine of ``bits`` bits, two's complement: each sample is the step by which the phase turns, 2^phase_bits for a turn.

    A quarter of the wave stands in a table of 2^table_bits entries, each for the middle of its part of the circle; the other
    quarters are the same turned round.
    """
    if not 1 <= table_bits <= phase_bits - 2 or bits < 2:
        raise ValueError("the phase has at least two bits more than the table's places, and the sine at least two bits")
    table = [_sine(k, table_bits, bits) for k in range(1 << table_bits)]
    lines = _Lines()
    lines.add(f"input step:{phase_bits};")
    lines.add(f"rec phase:{phase_bits} = 0 by phase@1 + step;")
    top, low = phase_bits - 3, phase_bits - 2 - table_bits
    lines.add(f"let back = phase{{{phase_bits - 2}..{phase_bits - 2}}};")
    lines.add(f"let minus = phase{{{phase_bits - 1}..{phase_bits - 1}}};")
    lines.add(f"let place = phase{{{top}..{low}}} ^ (back ? {(1 << table_bits) - 1} : 0);")
    values = list(map(str, table))
    for bit in range(table_bits):
        pairs = list(zip(values[::2], values[1::2]))
        for k, (even, odd) in enumerate(pairs):
            lines.add(f"let quarter{bit}[{k}] = place{{{bit}..{bit}}} ? {odd} : {even};")
        values = [f"quarter{bit}[{k}]" for k in range(len(pairs))]
    lines.add(f"let size:{bits} = {values[0]};")
    lines.add(f"output y:{bits} = minus ? 0 - size : size;")

    def rule(columns: list[list[int]]) -> list[list[int]]:
        phase = 0
        results = []
        for step in columns[0]:
            phase = (phase + step) % (1 << phase_bits)
            results.append(_sine(phase >> low, table_bits, bits))
        return [results]

    head = f"// A sine of {bits} bits; a turn is {1 << phase_bits}."
    return Made(f"{head}\n{lines.text()}", (Port("step", phase_bits),), ("y",), ("y",), rule, tuple(table), narrow=True)


def fixed(value: float, bits: int, *, fraction: int = 8) -> Made:
    """y is x times ``value``, rounded down: ``value`` is rounded to ``fraction`` bits behind the point.

    ``constants`` has that number times 2 to the power of ``fraction``. x has ``bits`` bits, and both are two's complement.
    """
    _check_bits(bits)
    if fraction < 0:
        raise ValueError("fraction is not below 0")
    factor = round(value * 2**fraction)
    width = _signed_bits_for(*_reach([factor], bits, True))
    lines = _Lines()
    lines.add(f"input x:{bits};")
    total = _weighted_sum(lines, "x", [factor], bits, width, True)
    lines.add(f"let whole:{width} = {total};")
    lines.add(f"output y = signed(whole) >> {fraction};" if fraction else "output y = whole;")

    def rule(columns: list[list[int]]) -> list[list[int]]:
        return [[x * factor >> fraction for x in columns[0]]]

    head = f"// y = {factor} / {2**fraction} x, rounded down."
    return Made(f"{head}\n{lines.text()}", (Port("x", bits, True),), ("y",), ("x", "y"), rule, (factor,))


# Shifts and sums

def signed_digits(value: int) -> list[tuple[int, int]]:
    """A number as a sum of powers of two with signs, in the fewest: pairs of 1 or -1 and the power, the lowest first.

    >>> signed_digits(7)
    [(-1, 0), (1, 3)]
    """
    digits = []
    place = 0
    while value:
        if value & 1:
            digit = 2 - (value & 3)
            digits.append((digit, place))
            value -= digit
        value >>= 1
        place += 1
    return digits


def units_of_product(bits: int, factor_bits: int, width: int) -> int:
    """The units of a product of an unsigned stream of so many bits and a factor, cut to the width: a row for each bit of it."""
    return sum(_chains(_bytes(min(width, bits + row + 1)) - row // 8) for row in range(min(width, factor_bits)))


def units_of_digits(width: int, digits: Sequence[tuple[int, int]]) -> int:
    """The units of the same by shifts and sums."""
    places = [place for _, place in digits]
    shifts = sum(1 for low, high in zip([0, *places], places) if (high - low) % 8)
    return (len(digits) - 1) * _chains(_bytes(width)) + shifts


class _Lines:
    """The lines of a program that is being written. All sums are made modulo 2 to the power of their width."""

    def __init__(self) -> None:
        self._lines: list[str] = []
        self._sums = 0

    def add(self, line: str) -> None:
        self._lines.append(line)

    def text(self) -> str:
        return "".join(line + "\n" for line in self._lines)

    def named(self, expression: str, width: int) -> str:
        """A name of its own for an expression."""
        name = f"s{self._sums}"
        self._sums += 1
        self.add(f"let {name}:{width} = {expression};")
        return name

    def total(self, terms: Sequence[tuple[int, str]], width: int) -> tuple[int, str]:
        """A sum of terms with signs, as a term: one operator a line, in the order of the terms."""
        sign, name = terms[0]
        count = self._sums
        self._sums += len(terms) > 1
        for place, (other, term) in enumerate(terms[1:]):
            if sign == other:
                expression = f"{name} + {term}"
            elif sign > 0:
                expression = f"{name} - {term}"
            else:
                expression, sign = f"{term} - {name}", 1
            name = f"s{count}[{place}]"
            self.add(f"let {name}:{width} = {expression};")
        return sign, name

    def shifted(self, term: str, by: int, width: int) -> str:
        """A term times 2 to the power of ``by``."""
        return self.named(f"{term} << {by}", width)


def _weighted_sum(lines: _Lines, name: str, factors: Sequence[int], bits: int, width: int, signed: bool) -> str:
    """The sum of factors times a stream of 0, 1, .. samples ago, modulo 2^width.

    The stream is widened to the width of the sum once; so sums need no sign, and each takes a unit. Powers of two with the same
    place are added first, and then moved up together.
    """
    if not any(factors):
        return "0"
    if signed:
        lines.add(f"let wide:{width} = signed({name});")
    lines.add(f"let v:{width} = {'cat(wide)' if signed else name};")
    planes: dict[int, list[tuple[int, str]]] = {}
    for factor, taps in _by_factor(factors, _bytes(width)):
        sign, term = lines.total([(s, f"v@{k}" if k else "v") for s, k in taps], width)
        digits = signed_digits(factor)
        # A sample that is not widened makes a product of fewer units.
        alone = not signed and len(taps) == 1
        operand = f"{name}@{taps[0][1]}" if alone and taps[0][1] else name if alone else term
        if units_of_product(bits if alone else width, factor.bit_length(), width) < units_of_digits(width, digits):
            digits, term = [(1, 0)], lines.named(f"{operand} * {factor}", width)
        for digit, place in digits:
            planes.setdefault(place, []).append((digit * sign, term))
    sign, term, below = 0, "", 0
    for place in sorted(planes, reverse=True):
        terms = planes[place]
        if term:
            terms = [(sign, lines.shifted(term, below - place, width)), lines.total(terms, width)]
        sign, term = lines.total(terms, width)
        below = place
    if below:
        term = lines.shifted(term, below, width)
    return term if sign > 0 else f"0 - {term}"


def _by_factor(factors: Sequence[int], size: int) -> list[tuple[int, list[tuple[int, int]]]]:
    """Each factor without its sign, and its taps with their signs, in the order in which the last tap of each comes.

    Where too many sums would wait for their last tap, each tap stands alone.
    """
    groups: dict[int, list[tuple[int, int]]] = {}
    for tap, factor in enumerate(factors):
        if factor:
            groups.setdefault(abs(factor), []).append((1 if factor > 0 else -1, tap))
    spans = [(taps[0][1], taps[-1][1]) for taps in groups.values()]
    waiting = max(sum(first <= tap < last for first, last in spans) for tap in range(len(factors)))
    if waiting * size > _BYTES_THAT_WAIT:
        return [(abs(factor), [(1 if factor > 0 else -1, tap)]) for tap, factor in enumerate(factors) if factor]
    return sorted(groups.items(), key=lambda group: group[1][-1][1])


# Arithmetic

def _convolved(factors: Sequence[int], values: Sequence[int]) -> list[int]:
    return [sum(c * values[n - k] for k, c in enumerate(factors) if k <= n) for n in range(len(values))]


def _divided(
    words: Sequence[int], polynomial: int, width: int, bits: int, initial: int, final: int, reflect: bool
) -> list[int]:
    """The check sum after each word, bit by bit with the highest first; what is turned round is turned back for that."""
    register = _reversed(initial, width) if reflect else initial
    results = []
    for word in words:
        for place in range(bits) if reflect else range(bits - 1, -1, -1):
            leaves = register >> width - 1 ^ word >> place & 1
            register = register << 1 & (1 << width) - 1 ^ (polynomial if leaves else 0)
        results.append((_reversed(register, width) if reflect else register) ^ final)
    return results


def _inverse(polynomial: int, width: int, bits: int) -> list[int]:
    """The places k at which the quotient of x^width times t by the polynomial has t shifted down by k."""
    places, rest = [], 1 << bits - 1
    for k in range(bits):
        if rest >> bits - 1 - k & 1:
            places.append(k)
            # What one step takes off the highest powers below.
            for power in range(width):
                if polynomial >> power & 1 and bits - 1 - k - (width - power) >= 0:
                    rest ^= 1 << bits - 1 - k - (width - power)
    return places


def _sine(part: int, table_bits: int, bits: int) -> int:
    """The sine of the middle of a part of the circle, of which there are four times as many as the table has entries."""
    return round(((1 << bits - 1) - 1) * math.sin(math.pi / 2 * (part + 0.5) / (1 << table_bits)))


def _shifted(name: str, by: int) -> str:
    return name if by == 0 else f"({name} << {by})" if by > 0 else f"({name} >> {-by})"


def _moved(value: int, by: int) -> int:
    """A value times a power of two, rounded down."""
    return value << by if by >= 0 else value >> -by


def _wrapped(value: int, width: int) -> int:
    """The number of so many bits, two's complement, that is the value modulo 2^width."""
    half = 1 << width - 1
    return (value + half) % (1 << width) - half


def _reversed(value: int, width: int) -> int:
    return int(format(value, f"0{width}b")[::-1], 2)


def _reach(factors: Sequence[int], bits: int, signed: bool) -> tuple[int, int]:
    """The least and the greatest value of the sum of factors times numbers of so many bits."""
    low, high = (-(1 << bits - 1), (1 << bits - 1) - 1) if signed else (0, (1 << bits) - 1)
    ends = [(factor * low, factor * high) for factor in factors]
    return sum(map(min, ends)), sum(map(max, ends))


def _bits_for(least: int, most: int) -> int:
    """The bits that hold all values between, two's complement where the least is below 0."""
    return _signed_bits_for(least, most) if least < 0 else max(most.bit_length(), 1)


def _signed_bits_for(least: int, most: int) -> int:
    """The bits that hold all values between as two's complement."""
    return max((~least).bit_length() if least < 0 else 0, most.bit_length()) + 1


def _bytes(bits: int) -> int:
    return (bits + 7) // 8


def _chains(cells: int) -> int:
    return max(cells + 3, 0) // 4


def _check_whole(factors: Sequence[int]) -> None:
    if not factors or not all(isinstance(factor, int) for factor in factors):
        raise ValueError("the coefficients are whole numbers, at least one")


def _check_bits(bits: int) -> None:
    if not 1 <= bits <= 64:
        raise ValueError("x has 1 to 64 bits")
