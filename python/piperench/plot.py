"""Drawings of signals, spectra, schedules and units. In a notebook they show themselves.

>>> from piperench import plot
>>> drawing = plot.lines({"x": [0, 3, 1, 2]})
>>> drawing.save("x.svg")

They are SVG made here, so that nothing else is needed. ``figure`` of a drawing gives the same lines to matplotlib.
"""

from __future__ import annotations

import cmath
import html
import math
import os
import shutil
import subprocess
from collections.abc import Mapping, Sequence
from dataclasses import dataclass, field
from pathlib import Path
from typing import Any

from ._program import Program
from ._reports import Trace
from ._streams import Streams, numbers, numpy

_COLOURS = ("#1f5fa8", "#c4511c", "#2f7d4f", "#8a3f97", "#8c6d1f", "#b3304f")

# The size of a panel, what is around its box, and the room between its box and its line.
_WIDTH, _HEIGHT = 720, 150
_LEFT, _RIGHT, _TOP, _BOTTOM = 64, 14, 26, 24
_INSIDE = 5

# Of a stream with more samples than this in a panel the least and the greatest of each part are drawn.
_POINTS = 1400


@dataclass(frozen=True)
class Panel:
    """Lines over one scale: a name, and for each point its place across and its height."""

    name: str
    across: Sequence[float]
    heights: Sequence[float]
    across_name: str = "sample"


@dataclass(frozen=True)
class Drawing:
    """A drawing in SVG, with the panels that it was made of, where it was made of some."""

    svg: str
    panels: tuple[Panel, ...] = field(default=(), repr=False)

    def save(self, path: str | os.PathLike[str]) -> None:
        """Writes the drawing to a file."""
        Path(path).write_text(self.svg, encoding="utf-8")

    def figure(self) -> Any:
        """The panels as a figure of matplotlib. Raises ImportError where that is not installed."""
        if not self.panels:
            raise ValueError("this drawing has no panels")
        from matplotlib.figure import Figure

        figure = Figure(figsize=(9, 2 * len(self.panels)), layout="constrained")
        axes = figure.subplots(len(self.panels), squeeze=False)[:, 0]
        for place, (panel, axis) in enumerate(zip(self.panels, axes)):
            axis.plot(panel.across, panel.heights, color=_COLOURS[place % len(_COLOURS)], linewidth=1)
            axis.set_title(panel.name, loc="left")
            axis.set_xlabel(panel.across_name)
        return figure

    def _repr_svg_(self) -> str:
        return self.svg


def lines(streams: Streams | Mapping[str, Any], names: Sequence[str] | None = None) -> Drawing:
    """Streams below one another, a panel for each; ``names`` chooses some of them."""
    chosen = names if names is not None else streams.keys()
    return _drawing([_panel_of(name, streams[name]) for name in chosen])


def separate(streams: Streams | Mapping[str, Any], width: int = 420) -> list[Drawing]:
    """A drawing for each stream, so wide, for a page that places them."""
    return [_drawing([_panel_of(name, column)], width, place) for place, (name, column) in enumerate(streams.items())]


def _panel_of(name: str, column: Any) -> Panel:
    values = numbers(column)
    return Panel(name, range(len(values)), values)


def spectrum(column: Any, *, rate: float = 1.0, name: str = "spectrum") -> Drawing:
    """The spectrum of a stream in decibels below its greatest part, up to half of ``rate``. A Hann window is laid over it."""
    values = numbers(column)
    count = len(values)
    if count < 2:
        raise ValueError("a spectrum wants at least two samples")
    mean = sum(values) / count
    size = 1 << (count - 1).bit_length()
    wave = [(value - mean) * (0.5 - 0.5 * math.cos(2 * math.pi * k / count)) for k, value in enumerate(values)]
    parts = [abs(part) for part in _transform(wave + [0.0] * (size - count))[: size // 2 + 1]]
    greatest = max(parts) or 1.0
    decibels = [max(20 * math.log10(max(part / greatest, 1e-9)), -120.0) for part in parts]
    across = [k * rate / size for k in range(len(decibels))]
    return _drawing([Panel(f"{name}, dB", across, decibels, "frequency")])


def schedule(trace: Trace) -> Drawing:
    """The schedule of a run, as ``pipelens chart`` draws it."""
    return Drawing(trace.chart())


def units(program: Program) -> Drawing:
    """The units of a program by stage, drawn by ``dot`` of Graphviz. Raises FileNotFoundError where that is not installed."""
    dot = shutil.which("dot")
    if dot is None:
        raise FileNotFoundError("dot, of Graphviz, is not on the PATH; Program.graph has the graph as a text")
    drawn = subprocess.run([dot, "-Tsvg"], input=program.graph(), capture_output=True, text=True, check=True).stdout
    return Drawing(drawn[drawn.index("<svg") :])


def _transform(wave: list[float]) -> list[complex]:
    """The Fourier transform of 2^k numbers."""
    if numpy is not None:
        return list(numpy.fft.fft(wave))
    if len(wave) == 1:
        return [complex(wave[0])]
    even, odd = _transform(wave[::2]), _transform(wave[1::2])
    half = len(even)
    turned = [cmath.exp(-2j * math.pi * k / len(wave)) * odd[k] for k in range(half)]
    return [a + b for a, b in zip(even, turned)] + [a - b for a, b in zip(even, turned)]


# Drawing

def _drawing(panels: Sequence[Panel], width: int = _WIDTH, first: int = 0) -> Drawing:
    """The panels below one another, with the colours from ``first`` on."""
    height = _HEIGHT * max(len(panels), 1)
    body = "".join(
        _panel(panel, _HEIGHT * place, width, _COLOURS[(first + place) % len(_COLOURS)]) for place, panel in enumerate(panels)
    )
    svg = (
        f'<svg xmlns="http://www.w3.org/2000/svg" viewBox="0 0 {width} {height}" width="{width}" height="{height}" '
        f'font-family="sans-serif" font-size="11" fill="#333"><rect width="100%" height="100%" fill="#fff"/>{body}</svg>'
    )
    return Drawing(svg, tuple(panels))


def _panel(panel: Panel, top: int, width: int, colour: str) -> str:
    """The title, the box with its scale, and the line of a panel."""
    low, high = min(panel.heights, default=0), max(panel.heights, default=0)
    if low == high:
        low, high = low - 1, high + 1
    inner_width, inner_height = width - _LEFT - _RIGHT, _HEIGHT - _TOP - _BOTTOM
    base = top + _TOP + inner_height
    last = panel.across[-1] if len(panel.across) else 0
    across = inner_width / (last or 1)
    up = (inner_height - 2 * _INSIDE) / (high - low)

    def level(value: float) -> float:
        return base - _INSIDE - (value - low) * up

    points = " ".join(f"{_LEFT + x * across:.1f},{level(y):.1f}" for x, y in _thinned(panel))
    marks = "".join(
        f'<text x="{_LEFT - 6}" y="{level(value) + 4:.1f}" text-anchor="end">{_short(value)}</text>' for value in (low, high)
    )
    zero = f'<path d="M{_LEFT} {level(0):.1f}H{_LEFT + inner_width}" stroke="#ccc"/>' if low < 0 < high else ""
    return (
        f'<text x="{_LEFT}" y="{top + 16}" font-weight="bold" fill="{colour}">{html.escape(panel.name)}</text>'
        f'<rect x="{_LEFT}" y="{top + _TOP}" width="{inner_width}" height="{inner_height}" fill="none" stroke="#bbb"/>{zero}'
        f'<polyline points="{points}" fill="none" stroke="{colour}" stroke-width="1.2"/>{marks}'
        f'<text x="{_LEFT}" y="{base + 15}">0</text>'
        f'<text x="{_LEFT + inner_width}" y="{base + 15}" text-anchor="end">{panel.across_name} {_short(last)}</text>'
    )


def _thinned(panel: Panel) -> list[tuple[float, float]]:
    """The points of a panel; of many, the least and the greatest of each part."""
    points = list(zip(panel.across, panel.heights))
    if len(points) <= _POINTS:
        return points
    size = math.ceil(2 * len(points) / _POINTS)
    thin: list[tuple[float, float]] = []
    for start in range(0, len(points), size):
        part = points[start : start + size]
        ends = {min(part, key=lambda point: point[1]), max(part, key=lambda point: point[1])}
        thin.extend(sorted(ends))
    return thin


def _short(value: float) -> str:
    return f"{value:,}" if isinstance(value, int) and abs(value) < 10**7 else f"{value:.4g}"
