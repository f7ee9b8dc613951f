"""Draws a handshake, as handshake.v prints it, as waves.

waves.py TITLE <printed >picture.svg
"""

import sys
from html import escape

LEFT, CLOCK, TOP, ROW, HIGH, SLOPE = 92, 74, 30, 31, 18, 4
NAMES = ["clock", "in_valid", "in_ready", "x", "out_valid", "out_ready", "y"]
SIDES = [("in", 1, "#0969da"), ("out", 4, "#1a7f37")]
GAP = 14
STYLE = """
text { font: 13px "DejaVu Sans Mono", Menlo, Consolas, monospace; fill: #1f2328 }
.small { font-size: 11px; fill: #57606a; text-anchor: middle }
.value { text-anchor: middle }
.wave { fill: none; stroke: #1f2328; stroke-width: 1.6 }
.bus { fill: #f6f8fa; stroke: #1f2328; stroke-width: 1.4 }
.any { fill: #eaeef2; stroke: #afb8c1; stroke-width: 1 }
.edge { stroke: #d0d7de; stroke-width: 1 }
"""


def top_of(row):
    """The upper end of a row: the rows of the input, and those of the output, have a gap before them."""
    return TOP + row * ROW + (GAP if row >= 1 else 0) + (GAP if row >= 4 else 0)


def at(clock):
    """The place of the rising edge at which a clock begins."""
    return LEFT + clock * CLOCK


def ticks(clocks):
    """The wave of the clock: it rises where a clock begins."""
    low, high = top_of(0) + HIGH, top_of(0)
    path = f"M{LEFT - 12} {low}"
    for clock in range(clocks):
        path += f" H{at(clock)} V{high} H{at(clock) + CLOCK // 2} V{low}"
    return f'<path class="wave" d="{path} H{at(clocks)} V{high} h10"/>'


def level(row, bits):
    """The wave of a signal of one bit."""
    high = top_of(row)
    places = [high if bit == "1" else high + HIGH for bit in bits]
    path = f"M{LEFT - 12} {places[0]}"
    for clock, place in enumerate(places):
        path += f" H{at(clock)} L{at(clock) + SLOPE} {place}"
    return f'<path class="wave" d="{path} H{at(len(bits)) + 10}"/>'


def bus(row, numbers, valid, moved):
    """The numbers of a port, each in one box from the clock in which it comes to that in which it moves on; grey where none counts."""
    start = 0
    for clock, number in enumerate(numbers):
        shown = valid[clock] == "1"
        goes_on = clock + 1 < len(numbers) and valid[clock + 1] == valid[clock] and not (shown and moved[clock])
        if goes_on:
            continue
        left, right, high = at(start), at(clock + 1), top_of(row)
        middle, half = high + HIGH / 2, HIGH / 2
        kind = "bus" if shown else "any"
        yield (
            f'<path class="{kind}" d="M{left} {middle} l{SLOPE} {-half} H{right - SLOPE} l{SLOPE} {half} '
            f'l{-SLOPE} {half} H{left + SLOPE} z"/>'
        )
        if shown:
            yield f'<text class="value" x="{(left + right) / 2}" y="{middle + 4.5}">{escape(number)}</text>'
        start = clock + 1


def marks(row, moved, colour):
    """A bar at each rising edge at which both signals of a side are high, over the rows of that side."""
    for clock, moves in enumerate(moved):
        if moves:
            place, high = at(clock + 1), top_of(row)
            path = f"M{place} {high - 5} V{high + 2 * ROW + HIGH + 5}"
            yield f'<path d="{path}" stroke="{colour}" stroke-width="2.5" stroke-opacity="0.75"/>'
            for line in (row, row + 1):
                yield f'<circle cx="{place}" cy="{top_of(line)}" r="3.6" fill="{colour}"/>'


def drawn(title, clocks):
    """The lines of the picture."""
    columns = dict(zip(NAMES[1:], zip(*clocks)))
    width, height = at(len(clocks)) + 18, top_of(len(NAMES) - 1) + HIGH + 14
    yield f'<svg xmlns="http://www.w3.org/2000/svg" viewBox="0 0 {width} {height}" width="{width}" height="{height}">'
    yield f"<title>{escape(title)}</title>\n<style>{STYLE}</style>"
    yield f'<rect width="{width}" height="{height}" rx="6" fill="white"/>'
    for clock in range(len(clocks) + 1):
        yield f'<path class="edge" d="M{at(clock)} {TOP - 6} V{height - 8}"/>'
    for clock in range(len(clocks)):
        yield f'<text class="small" x="{at(clock) + CLOCK / 2}" y="{TOP - 14}">{clock}</text>'
    for row, name in enumerate(NAMES):
        yield f'<text x="4" y="{top_of(row) + HIGH / 2 + 4.5}">{name}</text>'
    yield ticks(len(clocks))
    for side, row, colour in SIDES:
        valid, ready = columns[f"{side}_valid"], columns[f"{side}_ready"]
        moved = [pair == ("1", "1") for pair in zip(valid, ready)]
        yield from bus(row + 2, columns[NAMES[row + 2]], valid, moved)
        yield level(row, valid)
        yield level(row + 1, ready)
        yield from marks(row, moved, colour)
    yield "</svg>"


def main():
    clocks = [line.split() for line in sys.stdin if line.strip()]
    print("\n".join(drawn(sys.argv[1], clocks)))


main()
