"""A page about a program and a run of it, in HTML, without files beside it."""

from __future__ import annotations

import base64
import html
import os
from dataclasses import dataclass, field
from pathlib import Path
from typing import Any

from . import plot, signals
from ._program import Program
from ._refused import Finding, Refused
from ._reports import Cost
from ._results import streams_of
from ._streams import Streams, numbers, table_of

#: How many rows are shown, how many samples the schedule is drawn for, and how many names stand open.
ROWS, SCHEDULED, OPEN = 20, 48, 6

_STYLE = """
:root { color-scheme: light; }
* { box-sizing: border-box; }
body { margin: 0 auto; max-width: 1040px; padding: 1.2rem; font: 15px/1.5 system-ui, sans-serif; color: #222; background: #fff; }
h1 { font-size: 1.5rem; margin: 0; } h2 { font-size: 1.1rem; margin: 2rem 0 .5rem; border-bottom: 1px solid #ddd; }
p { margin: .4rem 0; } .note { color: #666; }
.wide { overflow-x: auto; } .wide > svg { display: block; }
.plots { display: grid; grid-template-columns: repeat(auto-fill, minmax(min(100%, 440px), 1fr)); gap: .3rem 1rem; }
.plots > svg { width: 100%; height: auto; }
summary { color: #666; cursor: pointer; margin: .4rem 0; }
table { border-collapse: collapse; font-variant-numeric: tabular-nums; }
th, td { padding: .15rem .7rem; text-align: right; border-bottom: 1px solid #eee; } th { color: #666; font-weight: 600; }
ol.code { margin: 0; padding: .6rem 0 .6rem 3.2rem; background: #f7f7f5; font: 13px/1.5 ui-monospace, monospace; overflow-x: auto; }
ol.code li { padding-left: .5rem; } ol.code li::marker { color: #999; } ol.code code { white-space: pre; }
.finding { margin: .2rem .6rem .5rem 0; padding: .3rem .6rem; border-left: 4px solid #b3304f; background: #fbeef1; white-space: pre-wrap; }
.finding.warning { border-color: #b7791f; background: #fdf6e7; }
.verdict { font-weight: 600; } .bad { color: #b3304f; } .good { color: #2f7d4f; }
"""


@dataclass
class Report:
    """What the page tells. What could not be had is None, and ``refusals`` says why."""

    program: Program
    findings: list[Finding]
    cost: Cost | None = None
    inputs: Streams | None = None
    names: Streams | None = None
    outputs: Streams | None = None
    schedule: str | None = None
    refusals: list[Exception] = field(default_factory=list)

    def html(self) -> str:
        """The page."""
        name = html.escape(os.path.basename(self.program.path) if self.program.path else "program")
        parts = [
            f"<!doctype html><html lang=en><head><meta charset=utf-8><title>{name}</title>",
            '<meta name=viewport content="width=device-width, initial-scale=1">',
            f"<style>{_STYLE}</style></head><body><h1>{name}</h1>",
            self._verdict(),
            self._code(),
            self._costs(),
            self._plots(),
            self._schedule(),
            self._rows(),
            "</body></html>\n",
        ]
        return "\n".join(part for part in parts if part)

    def _verdict(self) -> str:
        errors = sum(finding.severity == "error" for finding in self.findings)
        warnings = len(self.findings) - errors
        words = "refused" if errors else "accepted"
        told = f", with {warnings} warning{'s' if warnings != 1 else ''}" if warnings else ""
        options = f"{self.program.fabric} fabric, {self.program.stripes} stripes{', narrowed' if self.program.narrow else ''}"
        lines = [f'<p><span class="verdict {"bad" if errors else "good"}">{words}{told}</span> <span class=note>{options}</span></p>']
        if not errors:
            lines += [f'<p class="finding">{html.escape(str(error))}</p>' for error in self.refusals]
        return "".join(lines)

    def _code(self) -> str:
        lines = []
        for number, line in enumerate(self.program.text.splitlines(), 1):
            told = "".join(
                f'<div class="finding {html.escape(finding.severity)}">{html.escape(f"{finding.code}, column {finding.place.column}")}\n'
                f"{html.escape(finding.message)}</div>"
                for finding in self.findings
                if finding.place.line == number
            )
            lines.append(f"<li><code>{html.escape(line)}</code>{told}</li>")
        return f"<h2>Program</h2><ol class=code>{''.join(lines)}</ol>"

    def _costs(self) -> str:
        if self.cost is None:
            return ""
        cost = self.cost
        other = ""
        if cost.other_way:
            way = "without narrowing" if self.program.narrow else "narrowed"
            other = f"<p class=note>{way}: {cost.other_way[0]:,} units, {cost.other_way[1]:,} stages</p>"
        return f"<h2>Costs</h2><div class=wide>{cost._repr_html_()}</div>{other}"

    def _plots(self) -> str:
        parts = []
        for title, streams in (("Inputs", self.inputs), ("Outputs", self.outputs), ("Names", self.names)):
            if streams is not None and len(streams) and streams.names:
                drawn = "".join(drawing.svg for drawing in plot.separate(streams))
                plots = f"<div class=plots>{drawn}</div>"
                if title == "Names" and len(streams.names) > OPEN:
                    plots = f"<details><summary>{len(streams.names)} names</summary>{plots}</details>"
                parts.append(f"<h2>{title}</h2>{plots}")
        return "".join(parts)

    def _schedule(self) -> str:
        if self.schedule is None:
            return ""
        # As an image, so that the style of the picture is no style of the page.
        picture = base64.b64encode(self.schedule.encode()).decode()
        return (
            "<h2>Schedule of the first samples</h2>"
            f'<div class=wide><img alt="the stages in the stripes by cycle" src="data:image/svg+xml;base64,{picture}"></div>'
        )

    def _rows(self) -> str:
        if self.inputs is None or self.outputs is None or not len(self.outputs):
            return ""
        rows = [a + b for a, b in zip(self.inputs.rows(0, ROWS), self.outputs.rows(0, ROWS))]
        names = [*self.inputs.names, *self.outputs.names]
        return f"<h2>First rows</h2><div class=wide>{table_of(names, rows, len(self.outputs))}</div>"


def report(program: Program, samples: str | os.PathLike[str] | Any) -> Report:
    """A report on a program and a run on samples: a file of samples, of a table (.csv) or of sound (.wav), or streams."""
    made = Report(program, program.why())
    if any(finding.severity == "error" for finding in made.findings):
        return made
    try:
        given = _samples(program, samples)
        made.cost = program.cost(samples=max(_length(given), 1))
        made.outputs = program.run(given)
    except Refused as error:
        made.refusals.append(error)
        made.outputs = error.results if isinstance(error.results, Streams) else None
    if made.outputs is None or not len(made.outputs):
        return made
    made.inputs = _read(program, given, len(made.outputs))
    rows = made.inputs.rows(0, SCHEDULED)
    made.schedule = program.trace(rows).chart()
    made.names = _names(program, made.inputs)
    return made


def _names(program: Program, inputs: Streams) -> Streams | None:
    """The streams that are neither inputs nor outputs, where the built pipelens tells them."""
    shown = {port.name for port in program.inputs + program.outputs}
    try:
        every = program.signals(inputs)
    except (NotImplementedError, Refused):
        return None
    return Streams({name: column for name, column in every.items() if name not in shown})


def _samples(program: Program, samples: Any) -> Any:
    """A file of samples as its path, and every other file as streams that are named like the inputs."""
    if not isinstance(samples, (str, os.PathLike)):
        return samples
    ending = Path(samples).suffix.lower()
    if ending == ".csv":
        return signals.read_csv(samples)
    if ending == ".wav":
        return signals.read_wav(samples, [port.name for port in program.inputs]).channels
    return samples


def _length(samples: Any) -> int:
    if isinstance(samples, (str, os.PathLike)):
        with open(samples, "rb") as file:
            return sum(bool(line.strip()) for line in file)
    return len(samples)


def _read(program: Program, samples: Any, count: int) -> Streams:
    """The first samples as streams. The lines of a file are known to be good as far as there are results."""
    if isinstance(samples, Streams):
        return Streams({name: column[:count] for name, column in samples.items()})
    if isinstance(samples, (str, os.PathLike)):
        with open(samples, "rb") as file:
            lines = [line for line in file if line.strip()][:count]
        # Blanks and leading zeros as a file of samples may have them, and lines of results have not.
        plain = [b" ".join(b"%d" % int(word) for word in line.split()) for line in lines]
        return streams_of(b"".join(line + b"\n" for line in plain), program.inputs)
    rows = [row if hasattr(row, "__len__") else (row,) for row in samples[:count]]
    return Streams({port.name: numbers([row[k] for row in rows]) for k, port in enumerate(program.inputs)})
