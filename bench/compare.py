#!/usr/bin/env python3
"""Times the program and the simulator in plain C on the same configurations and samples.

    bench/compare.py [SAMPLES [WORD]]      so many samples, 200000 where none is said, of the workloads whose name has the word

For each workload: the processor time of each (user and system, the best of five runs, in turn with those of the other), and
their ratio, program to simulator: below 1 the program is the faster one. Their texts have to be the same, byte by byte. It wants the built program
(crates/piperench/out/piperench, which the launcher at the top builds, or the one in PIPERENCH) and a C compiler, cc or that in CC."""

import os
import pathlib
import resource
import subprocess
import sys
import tempfile

HERE = pathlib.Path(__file__).resolve().parent
ROOT = HERE.parent
TOOL = pathlib.Path(os.environ.get("PIPERENCH", ROOT / "crates" / "piperench" / "out" / "piperench"))
ROUNDS = 5
TAPS = "input x:8; const c = [8, 9, 10, 11, 12, 13, 14, 15, 15, 14, 13, 12, 11, 10, 9, 8]; let s[0]:24 = x * c[0]; for i in 1..16 { let s[i]:24 = s[i-1] + x@i * c[i]; } output y = s[15];"
CHAIN = "input x:16; const c = [" + ", ".join(str((37 * i + 48) % 251) for i in range(100)) + "]; let t[0] = x; for i in 1..101 { let t[i]:16 = (t[i-1] + c[i-1]) ^ t[i-1]@1; } output y = t[100];"
XOR = "input a:8; input b:8; output y = a ^ b;"


def example(name):
    return (ROOT / "examples" / name / "program.dil").read_text()


# name, program, fabric, stripes, the widths of the inputs (none: the example's own samples, over and over)
WORKLOADS = [
    ("filter", TAPS, "base", 4, [8]),
    ("filter", TAPS, "base", 32, [8]),
    ("chain of 100", CHAIN, "base", 16, [16]),
    ("exclusive or", XOR, "base", 16, [8, 8]),
    ("filter, wide", TAPS, "wide", 16, [8]),
    ("cipher", example("kernels/idea"), "base", 16, "kernels/idea"),
    ("rotation", example("kernels/cordic"), "base", 16, "kernels/cordic"),
    ("complex product", example("guide/complex-product"), "base", 16, "guide/complex-product"),
]


def numbers():
    seed = 12345
    while True:
        seed = (seed * 1103515245 + 12345) & 0x7FFFFFFF
        yield seed >> 8


def write_samples(path, source, count):
    if isinstance(source, str):
        lines = (ROOT / "examples" / source / "samples.txt").read_text().splitlines()
        text = [lines[k % len(lines)] + "\n" for k in range(count)]
    else:
        draw = numbers()
        text = [" ".join(str(next(draw) % 2**width) for width in source) + "\n" for _ in range(count)]
    path.write_text("".join(text))


def seconds_of(command, out, stdin=None):
    before = resource.getrusage(resource.RUSAGE_CHILDREN)
    with open(out, "wb") as to:
        subprocess.run(command, stdin=open(stdin, "rb") if stdin else None, stdout=to, check=True)
    after = resource.getrusage(resource.RUSAGE_CHILDREN)
    return after.ru_utime + after.ru_stime - before.ru_utime - before.ru_stime


def best_in_turn(first, second):
    """The best times of two calls that are made in turn: each a command, where its text goes, and its standard input if it has one."""
    rounds = [(seconds_of(*first), seconds_of(*second)) for _ in range(ROUNDS)]
    return [min(times) for times in zip(*rounds)]


def main():
    count = int(sys.argv[1]) if len(sys.argv) > 1 else 200000
    word = sys.argv[2] if len(sys.argv) > 2 else ""
    failed = False
    with tempfile.TemporaryDirectory() as folder:
        work = pathlib.Path(folder)
        simulator = work / "simulator"
        subprocess.run([os.environ.get("CC", "cc"), "-O3", "-march=x86-64-v2", "-o", simulator, HERE / "simulator.c"], check=True)
        program, configuration, samples = work / "program.dil", work / "configuration", work / "samples.txt"
        print(f"{'workload':16} {'stripes':>7} {'program, s':>11} {'simulator, s':>13} {'ratio':>6}")
        for name, text, fabric, stripes, source in WORKLOADS:
            if word not in name:
                continue
            program.write_text(text + "\n")
            with open(configuration, "wb") as to:
                subprocess.run([TOOL, "compile", program, "--fabric", fabric], stdout=to, check=True)
            write_samples(samples, source, count)
            call = [TOOL, "exec", configuration, samples, "--stripes", str(stripes)]
            other = [simulator, configuration, str(stripes)]
            ours, theirs = best_in_turn((call, work / "ours"), (other, work / "theirs", samples))
            same = (work / "ours").read_bytes() == (work / "theirs").read_bytes()
            failed = failed or not same
            print(f"{name:16} {stripes:7} {ours:11.2f} {theirs:13.2f} {ours / theirs:6.2f}{'' if same else '  the texts differ'}", flush=True)
    sys.exit(1 if failed else 0)


if __name__ == "__main__":
    main()
