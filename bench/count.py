#!/usr/bin/env python3
"""Counts the instructions of a sample, of the program and of the simulator in plain C.

    bench/count.py [WORD]      the workloads whose name has the word; all where none is said

Runs both under callgrind with 2,000 samples and with 5,000, and divides what the 3,000 more cost. Counts are the same whatever
else the machine does. It wants what bench/compare.py wants, and valgrind."""

import os
import pathlib
import re
import subprocess
import sys
import tempfile

from compare import HERE, TOOL, WORKLOADS, write_samples

FEW, MORE = 2000, 5000


def instructions(command, stdin=None):
    words = ["valgrind", "--tool=callgrind", "--callgrind-out-file=/dev/null", *command]
    ran = subprocess.run(
        words,
        stdin=open(stdin, "rb") if stdin else None,
        stdout=subprocess.DEVNULL,
        stderr=subprocess.PIPE,
        text=True,
        check=True,
    )
    return int(re.search(r"Collected : (\d+)", ran.stderr)[1])


def main():
    word = sys.argv[1] if len(sys.argv) > 1 else ""
    with tempfile.TemporaryDirectory() as folder:
        work = pathlib.Path(folder)
        simulator = work / "simulator"
        subprocess.run([os.environ.get("CC", "cc"), "-O3", "-march=x86-64-v2", "-o", simulator, HERE / "simulator.c"], check=True)
        program, configuration, samples = work / "program.dil", work / "configuration", work / "samples.txt"
        print(f"{'workload':16} {'stripes':>7} {'program':>9} {'simulator':>10} {'ratio':>6}")
        for name, text, fabric, stripes, source in WORKLOADS:
            if word not in name:
                continue
            program.write_text(text)
            made = subprocess.run([TOOL, "compile", program, "--fabric", fabric], stdout=subprocess.PIPE, check=True)
            configuration.write_bytes(made.stdout)
            counts = []
            for count in (FEW, MORE):
                write_samples(samples, source, count)
                ours = instructions([TOOL, "exec", configuration, samples, "--stripes", str(stripes)])
                theirs = instructions([simulator, configuration, str(stripes)], samples)
                counts.append((ours, theirs))
            ours, theirs = ((more - few) / (MORE - FEW) for few, more in zip(*counts))
            print(f"{name:16} {stripes:7} {ours:9.0f} {theirs:10.0f} {ours / theirs:6.2f}")


if __name__ == "__main__":
    main()
