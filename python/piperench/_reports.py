"""What the programs tell, read back: configurations, logs, costs, findings and columns."""

from __future__ import annotations

import html
import json
import re
from collections.abc import Sequence
from dataclasses import dataclass, field
from functools import cached_property

from ._call import call, failure
from ._refused import Finding, Place
from ._results import streams_of
from ._streams import Port, Streams, column_of

_CHECKPOINT = b"PICK"


def widths_of(content: bytes) -> tuple[list[int], list[int]]:
    """The widths of the inputs and of the outputs, from the first words of a configuration or a checkpoint.

    What is cut off ends the lists; ``piperench`` says what is wrong with such a file.
    """
    words = [int.from_bytes(content[at : at + 4], "big") for at in range(0, min(len(content), 4096), 4)]
    if content.startswith(_CHECKPOINT):
        del words[:3]
    columns = words[1] >> 16 if len(words) > 1 else 0
    at = 3
    inputs = words[at + 1 : at + 1 + min(words[at], columns)] if len(words) > at else []
    at += 1 + len(inputs)
    outputs: list[int] = []
    count = min(words[at], 64) if len(words) > at else 0
    at += 1
    while len(outputs) < count and at < len(words) and words[at] <= 128:
        outputs.append(words[at])
        at += 1 + (words[at] + 7) // 8
    return inputs, outputs


class Trace:
    """A run with the log of each cycle. ``text`` is all that ``piperench trace`` wrote; in a notebook it shows its chart."""

    def __init__(self, text: str, outputs: Sequence[Port]) -> None:
        self.text = text
        self._outputs = outputs

    @cached_property
    def results(self) -> Streams:
        """The results of the samples."""
        lines = "".join(line for line in self.text.splitlines(keepends=True) if line[:1].isdigit())
        return streams_of(lines.encode(), self._outputs)

    @cached_property
    def log(self) -> list[str]:
        """The lines of the log, one for each cycle, and the line at the end."""
        return [line for line in self.text.splitlines() if not line[:1].isdigit()]

    @property
    def cycles(self) -> int:
        """How many cycles advanced."""
        return sum(line.startswith("cycle") for line in self.log)

    @property
    def stalls(self) -> int:
        """How many cycles were stalled."""
        return sum(line.startswith("stall") for line in self.log)

    def chart(self, first: int | None = None, last: int | None = None) -> str:
        """The log as a picture, in SVG: stripes down, cycles across, a colour for each stage.

        It shows the cycles from ``first`` to ``last``, or all without them, at most 400.
        """
        return self._drawn("chart", first, last)

    def wave(self, first: int | None = None, last: int | None = None) -> str:
        """The log as a waveform, in VCD, for GTKWave and its like: the cycles from ``first`` to ``last``, or all without them."""
        return self._drawn("wave", first, last)

    def _drawn(self, task: str, first: int | None, last: int | None) -> str:
        words = [f"--{name}={cycle}" for name, cycle in (("from", first), ("to", last)) if cycle is not None]
        status, note, told = call("pipelens", [task, "/dev/stdin", *words], None, [self.text.encode()])
        if status:
            raise failure("pipelens", status, note)
        return told.decode()

    def _repr_svg_(self) -> str:
        return self.chart()

    def __repr__(self) -> str:
        return f"Trace({len(self.results)} rows, {self.cycles} cycles, {self.stalls} stalls)"


@dataclass(frozen=True)
class Stage:
    """What a stage has in use: columns, those that write a register, and those that change their state."""

    columns: int
    registers: int
    states: int


@dataclass(frozen=True)
class Speed:
    """On so many stripes ``samples`` samples go through in ``cycles`` cycles, and the whole run takes ``run`` cycles."""

    stripes: int
    samples: int
    cycles: int
    run: int


@dataclass(frozen=True)
class Cost:
    """What a program costs, as ``pipelens cost`` tells it. ``text`` is all that it tells.

    ``other_way`` has the units and stages with narrowed equations, or without them for a program that is narrowed; it is None
    where the program does not fit that way. ``fullest`` is the number of the fullest stage.
    """

    text: str
    equations: int = field(init=False)
    units: int = field(init=False)
    other_way: tuple[int, int] | None = field(init=False)
    fullest: int = field(init=False)
    columns: int = field(init=False)
    stages: tuple[Stage, ...] = field(init=False)
    speeds: tuple[Speed, ...] = field(init=False)

    def __post_init__(self) -> None:
        text = self.text
        other = re.search(r"^with(?:out)? --narrow: units (\d+) stages (\d+)$", text, re.M)
        fullest = re.search(r"^fullest stage (\d+), with \d+ of (\d+) columns", text, re.M)
        stages = re.findall(r"^ *\d+ +(\d+) +(\d+) +(\d+)$", text, re.M)
        speeds = re.findall(r"^ *(\d+) +[01]\.\d{3} +(\d+) in +(\d+) +(\d+)$", text, re.M)
        values = {
            "equations": self._number("equations"),
            "units": self._number("units"),
            "other_way": (int(other[1]), int(other[2])) if other else None,
            "fullest": int(fullest[1]) if fullest else 0,
            "columns": int(fullest[2]) if fullest else 0,
            "stages": tuple(Stage(*map(int, stage)) for stage in stages),
            "speeds": tuple(Speed(*map(int, speed)) for speed in speeds),
        }
        for name, value in values.items():
            object.__setattr__(self, name, value)

    def _number(self, name: str) -> int:
        found = re.search(rf"^{name} (\d+)$", self.text, re.M)
        if found is None:
            raise ValueError(f"pipelens cost tells no {name}")
        return int(found[1])

    def __str__(self) -> str:
        return self.text

    def _repr_html_(self) -> str:
        rows = "".join(
            f"<tr><td>{s.stripes}</td><td>{s.samples} in {s.cycles}</td><td>{s.run:,}</td></tr>" for s in self.speeds
        )
        return (
            f"<p>{self.equations:,} equations, {self.units:,} units, {len(self.stages):,} stages</p>"
            "<table><thead><tr><th>stripes</th><th>samples in cycles</th><th>cycles of a run</th></tr></thead>"
            f"<tbody>{rows}</tbody></table>"
        )


# Findings

def findings_of_json(told: str, path: str | None) -> list[Finding]:
    """The findings of ``pipelens why --json``, an object in each line."""
    findings = []
    for line in told.splitlines():
        if line.strip():
            one = json.loads(line)
            place = Place(one["line"], one["column"], one.get("end_column"), path)
            findings.append(Finding(place, one["severity"], str(one["code"]), one["message"]))
    return findings


def findings_of_text(told: str, path: str | None) -> list[Finding]:
    """The finding of ``pipelens why`` as people read it: place and note, the line with marks, and the explanation."""
    lines = told.splitlines()
    head = re.match(r"[^:]*:(\d+):(\d+): (.*)", lines[0]) if lines else None
    if head is None:
        return []
    at, marks = 1, 1
    while at < len(lines) and re.match(r" +(\d+ )?\| ?", lines[at]):
        marks = max(marks, lines[at].count("^")) if re.match(r" +\| *\^+ *$", lines[at]) else marks
        at += 1
    column = int(head[2])
    place = Place(int(head[1]), column, column + marks, path)
    return [Finding(place, "error", head[3], "\n".join(lines[at:]))]


# Columns

def read_columns(told: bytes) -> Streams:
    """A text of a line of names and a line of whole numbers for each sample, with commas between."""
    head, _, rest = told.partition(b"\n")
    names = [name.strip() for name in head.decode().strip().split(",")]
    values = list(map(int, rest.replace(b",", b" ").split()))
    count = len(names)
    if len(values) % count:
        raise ValueError(f"a line has not {count} numbers")
    return Streams({name: column_of(values[k::count], *_kind(values[k::count])) for k, name in enumerate(names)})


def _kind(values: Sequence[int]) -> tuple[int, bool]:
    """The bits that a column needs, and whether it is signed."""
    low, high = min(values, default=0), max(values, default=0)
    if low < 0:
        return max((~low).bit_length(), high.bit_length()) + 1, True
    return max(high.bit_length(), 1), False


def escaped(text: str) -> str:
    """A text as it stands in HTML."""
    return html.escape(text)
