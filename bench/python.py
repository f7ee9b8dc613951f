#!/usr/bin/env python3
"""Times `Program.run` of the Python package against the command on files.

    bench/python.py [--calls N] [--rounds N] [--all] [SAMPLES [WORD]]

takes so many samples, 1000000 where none is said, of the workloads whose name has the word. A round times the command, by the clock,
`piperench run PROGRAM SAMPLES >RESULTS`, and then `Program.run`, from the numbers to columns of numbers. A call has 15 rounds for
each workload and form of its samples, or N. Each call is a process of its own, and there is one of them, or N. For each call the
script prints the medians of its rounds and their ratio, and at the end those of all rounds together, with the ratio of each call
beside. The numbers have to be those of the file.

The rule of measuring, which was settled before it was used: `bench/python.py --calls 5`, once without numpy and once with it, on a
machine of four processors with nothing else to do. For each workload and form the 75 times of the command are pooled, and so are
those of `Program.run`; the ratio is that of the two medians. All five calls are reported, whatever they give. `Program.run` takes at
most twice the time of the command if no such ratio is above 2.

The forms are rows, lists by name and, where numpy is installed, its arrays by name. The filter has one input, so its lists by name
are the same list. `--all` has two further forms: arrays of the standard library, which are made into lists or arrays of numpy first,
and one array of numpy, whose columns are arrays by name.

It wants the built program (crates/piperench/out/piperench, which the launcher at the top builds, or the one in PIPERENCH)."""

import argparse
import array
import multiprocessing
import os
import pathlib
import statistics
import subprocess
import sys
import tempfile
import time

from compare import ROOT, TAPS, TOOL, XOR, numbers

sys.path.insert(0, str(ROOT / "python"))
from piperench import Program  # noqa: E402

try:
    import numpy
except ImportError:
    numpy = None

# name, program, the widths of its inputs
WORKLOADS = [
    ("exclusive or, 8 bits", XOR, {"a": 8, "b": 8}),
    ("exclusive or, 16 bits", XOR.replace(":8", ":16"), {"a": 16, "b": 16}),
    ("exclusive or, 64 bits", XOR.replace(":8", ":64"), {"a": 64, "b": 64}),
    ("filter", TAPS, {"x": 8}),
]


def options_of_call():
    parser = argparse.ArgumentParser(description="Times Program.run of the Python package against the command on files.")
    parser.add_argument("--calls", type=int, default=1, metavar="N", help="how many processes measure, one after another (1)")
    parser.add_argument("--rounds", type=int, default=15, metavar="N", help="how many times each is timed in a call (15)")
    parser.add_argument("--all", action="store_true", help="two further forms of samples")
    parser.add_argument("samples", type=int, nargs="?", default=1_000_000, help="how many samples (1000000)")
    parser.add_argument("word", nargs="?", default="", help="what is in the names of the workloads")
    return parser.parse_args()


def samples_of(widths, count):
    draw = numbers()
    return {name: [next(draw) % 2**width if width < 24 else next(draw) ** 3 % 2**width for _ in range(count)] for name, width in widths.items()}


def forms_of(columns, further):
    """The same samples as rows, as columns and as arrays."""
    if len(columns) > 1:
        yield "list of rows", list(zip(*columns.values()))
        yield "lists by name", columns
    else:
        yield "list", list(*columns.values())
    if further:
        yield "arrays by name", {name: array.array("Q", column) for name, column in columns.items()}
    if numpy is not None:
        by_name = {name: numpy.array(column, dtype=numpy.uint64) for name, column in columns.items()}
        yield "numpy by name", by_name
        if further:
            yield "numpy", numpy.array(list(by_name.values())).T.copy()


def seconds_of(call):
    begin = time.perf_counter()
    result = call()
    return time.perf_counter() - begin, result


def command(program, samples, results):
    with open(results, "wb") as to:
        subprocess.run([TOOL, "run", program, samples], stdout=to, check=True)


def rounds_of_form(count, program, samples, values):
    """The seconds of the command and of `Program.run`, a pair for each round."""
    results = samples.with_name("results.txt")
    rounds = []
    for _ in range(count):
        of_command, _ = seconds_of(lambda: command(program, samples, results))
        of_run, made = seconds_of(lambda: Program(program).run(values))
        rounds.append((of_command, of_run))
    if list(map(int, results.read_text().split())) != made["y"].tolist():
        raise ValueError(f"the results differ: {program.read_text()}")
    return rounds


def rounds_of_call(options):
    """The rounds of a call, by workload and form."""
    made = {}
    with tempfile.TemporaryDirectory() as folder:
        work = pathlib.Path(folder)
        os.environ["PIPERENCH_BIN"] = folder
        (work / "piperench").symlink_to(TOOL.resolve())
        program, samples = work / "program.dil", work / "samples.txt"
        for name, text, widths in WORKLOADS:
            if options.word not in name:
                continue
            program.write_text(text + "\n")
            columns = samples_of(widths, options.samples)
            samples.write_text("".join(" ".join(map(str, row)) + "\n" for row in zip(*columns.values())))
            for form, values in forms_of(columns, options.all):
                made[name, form] = rounds_of_form(options.rounds, program, samples, values)
    return made


def medians_of(rounds):
    """The medians of the command and of `Program.run`, and their ratio."""
    theirs, ours = map(statistics.median, zip(*rounds))
    return theirs, ours, ours / theirs


def table(made, calls=()):
    """Prints a line for each workload and form, with the ratio of each call where there are several."""
    print(f"{'workload':22} {'samples':16} {'command, s':>10} {'Program.run, s':>14} {'ratio':>6}" + "  of each call" * bool(calls))
    for key, rounds in made.items():
        ratios = "".join(f"  {medians_of(call[key])[2]:.2f}" for call in calls)
        print("{:22} {:16} {:10.3f} {:14.3f} {:6.2f}".format(*key, *medians_of(rounds)) + ratios, flush=True)


def main():
    options = options_of_call()
    print(f"numpy {numpy.__version__ if numpy else 'is not installed'}, Python {sys.version.split()[0]}, rounds: {options.rounds}")
    calls = []
    with multiprocessing.get_context("spawn").Pool(1, maxtasksperchild=1) as processes:
        for made in processes.imap(rounds_of_call, [options] * options.calls):
            calls.append(made)
            print(f"call {len(calls)}")
            table(made)
    if len(calls) > 1:
        print("all calls together")
        table({key: [times for call in calls for times in call[key]] for key in calls[0]}, calls)


if __name__ == "__main__":
    main()
