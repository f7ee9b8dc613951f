#!/usr/bin/env python3
"""Times `eval` and the same sums written plainly in Rust on u128 (plain.rs), and compares their texts.

    bench/evaluate.py [SAMPLES]     so many samples of each program, 1000000 where none is said

It prints the processor time of each (user and system, the best of five runs, in turn) and their ratio. It wants the built program
(crates/piperench/out/piperench, or the one in PIPERENCH) and `rustc`, or the compiler in RUSTC."""

import os
import pathlib
import subprocess
import sys
import tempfile

from compare import HERE, TAPS, TOOL, best_in_turn, write_samples

SUM = "input x:8; let s[0]:24 = x; for i in 1..101 { let s[i]:24 = s[i-1] + x; } output y = s[100];"


def main():
    count = int(sys.argv[1]) if len(sys.argv) > 1 else 1000000
    failed = False
    with tempfile.TemporaryDirectory() as folder:
        work = pathlib.Path(folder)
        plain, program, samples = work / "plain", work / "program.dil", work / "samples.txt"
        subprocess.run([os.environ.get("RUSTC", "rustc"), "-O", HERE / "plain.rs", "-o", plain], check=True)
        write_samples(samples, [8], count)
        print(f"{'program':12} {'eval, s':>8} {'plain, s':>9} {'ratio':>6}")
        for name, text in [("filter", TAPS), ("sum of 100", SUM)]:
            program.write_text(text + "\n")
            ours, theirs = best_in_turn(([TOOL, "eval", program, samples], work / "ours"), ([plain, name], work / "theirs", samples))
            same = (work / "ours").read_bytes() == (work / "theirs").read_bytes()
            failed = failed or not same
            print(f"{name:12} {ours:8.2f} {theirs:9.2f} {ours / theirs:6.1f}{'' if same else '  the texts differ'}", flush=True)
    sys.exit(1 if failed else 0)


main()
