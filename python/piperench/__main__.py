"""``python -m piperench report PROGRAM SAMPLES -o report.html``: a page about a program and a run of it."""

from __future__ import annotations

import argparse
import sys
from pathlib import Path

from ._page import report
from ._program import Program


def main(words: list[str] | None = None) -> int:
    """Does what the words ask for. Returns 0, or 1 where the program, its samples or a file cannot be used."""
    parser = argparse.ArgumentParser(prog="python -m piperench", description="A page about a program and a run of it.")
    tasks = parser.add_subparsers(dest="task", required=True)
    task = tasks.add_parser("report", help="write a page in HTML: the program, its costs, signals, schedule and rows")
    task.add_argument("program", help="the file of the program")
    task.add_argument("samples", help="a file of samples, a table (.csv) or sound (.wav)")
    task.add_argument("-o", "--output", default="report.html", help="the page; report.html where it is left out")
    task.add_argument("--fabric", choices=("base", "wide"), default="base")
    task.add_argument("--narrow", action="store_true", help="leave out what no output shows")
    task.add_argument("--stripes", type=int, default=16, help="2 to 256; 16 where it is left out")
    task.add_argument("--signed", default="", help="the signed inputs and outputs, with commas between")
    asked = parser.parse_args(words)
    names = [name for name in asked.signed.split(",") if name]
    try:
        program = Program(
            Path(asked.program), fabric=asked.fabric, narrow=asked.narrow, stripes=asked.stripes, signed=names
        )
        made = report(program, asked.samples)
        Path(asked.output).write_text(made.html(), encoding="utf-8")
    except (OSError, ValueError, MemoryError) as error:
        print(f"piperench: {error}", file=sys.stderr)
        return 1
    for line in [*map(str, made.findings), *map(str, made.refusals)]:
        print(line, file=sys.stderr)
    return int(bool(made.refusals) or any(finding.severity == "error" for finding in made.findings))


if __name__ == "__main__":
    sys.exit(main())
