#!/usr/bin/env python3
"""Times `compile` of the program and of a second one in plain Rust (second/, beside this folder), and compares their configuration
files.

    bench/compile.py [RUNS]         the best of so many runs of each, 7 where none is said

It compares first what both make of every program under examples/, on both fabrics, narrowed and not: files, notes and statuses.
Then it prints for generated programs of 300 to 32,000 units the processor time of each (user and system, the process's start
included) and their ratio: below 2 the program takes less than twice the plain one's time. Their files have to be the same, byte by
byte. It wants the built program (crates/piperench/out/piperench, or the one in PIPERENCH) and `cargo`, or the one in CARGO."""

import os
import pathlib
import resource
import subprocess
import sys
import tempfile

from compare import ROOT, TOOL

SIZES = [300, 1000, 3000, 10000, 32000]
# The most units that one equation for each allows.
EQUATIONS = 16380


def table(count, low, step):
    return ", ".join(str(low + (37 * i + 11) % step) for i in range(1, count + 1))


def turns(units):
    k = min(units, EQUATIONS) // 3
    return f"input x:16; const c = [{table(k, 0, 256)}]; let t[0] = x; for i in 1..{k + 1} {{ let t[i]:16 = (t[i-1] + c[i-1]) ^ t[i-1]@1; }} output y = t[{k}];"


def written(units):
    k = min(units, EQUATIONS) // 3
    lines = "".join(f"let t{i}:16 = (t{i - 1} + {(37 * i + 11) % 256}) ^ t{i - 1}@1;\n" for i in range(1, k + 1))
    return f"input x:16;\nlet t0 = x;\n{lines}output y = t{k};\n"


def broad_turns(units):
    k = units // 6
    return f"input x:120; const c = [{table(k, 0, 256)}]; let t[0] = x; for i in 1..{k + 1} {{ let t[i]:120 = (t[i-1] + c[i-1]) ^ t[i-1]@1; }} output y = t[{k}];"


def sums(units):
    k = units // 2
    return f"input x:64; let t[0] = x; for i in 1..{k + 1} {{ let t[i]:64 = t[i-1] + x; }} output y = t[{k}];"


def filter_of(units):
    k = units // 10
    return f"input x:8; const c = [{table(k, 128, 128)}]; fn tap(a, k) {{ return a * k; }} let d[0] = x; let s[0]:24 = tap(x, c[0]); for i in 1..{k} {{ let d[i] = d[i-1]@1; let s[i]:24 = s[i-1] + tap(d[i], c[i]); }} output y = s[{k - 1}];"


def lanes(units):
    k = min(units, EQUATIONS) // 24
    return f"input x:16; const c = [{table(8 * k, 0, 256)}]; for j in 0..8 {{ let t[j*{k + 1}] = x; for i in 1..{k + 1} {{ let t[j*{k + 1}+i]:16 = (t[j*{k + 1}+i-1] + c[j*{k}+i-1]) ^ t[j*{k + 1}+i-1]@1; }} }} let s[0] = t[{k}]; for j in 1..8 {{ let s[j]:16 = s[j-1] + t[j*{k + 1}+{k}]; }} output y = s[7];"


def recurrences(units):
    k = min(units, EQUATIONS) // 3
    return f"input x:16; let t[0] = x; for i in 1..{k + 1} {{ rec r[i]:16 = i % 65536 by r[i]@1 + t[i-1]; let t[i]:16 = r[i] ^ t[i-1]; }} output y = t[{k}];"


# name, the options, the program of about so many units
WORKLOADS = [
    ("turns, as of `gen`", [], turns),
    ("turns, narrowed", ["--narrow"], turns),
    ("turns, wide", ["--fabric", "wide"], turns),
    ("turns written out", [], written),
    ("turns of 120 bits", [], broad_turns),
    ("the same, wide", ["--fabric", "wide"], broad_turns),
    ("sums of 64 bits", [], sums),
    ("filter", [], filter_of),
    ("filter, wide", ["--fabric", "wide"], filter_of),
    ("eight chains", [], lanes),
    ("recurrences", [], recurrences),
]


def answer_of(command):
    done = subprocess.run(command, capture_output=True)
    return done.stdout, done.stderr, done.returncode


def milliseconds_of(command):
    """The processor time of one run."""
    child = subprocess.Popen(command, stdout=subprocess.DEVNULL, stderr=subprocess.DEVNULL)
    _, _, usage = os.wait4(child.pid, 0)
    child.returncode = 0
    return 1000 * (usage.ru_utime + usage.ru_stime)


def best_of(runs, commands):
    """The least time of each command. They run in turns, so that what else the machine does meets each of them."""
    times = [[milliseconds_of(command) for command in commands] for _ in range(runs)]
    return [min(column) for column in zip(*times)]


def differing_examples(plain):
    count, different = 0, []
    for program in sorted(ROOT.glob("examples/**/*.dil")):
        for fabric in ["base", "wide"]:
            for narrow in [[], ["--narrow"]]:
                words = [program, "--fabric", fabric] + narrow
                count += 1
                if answer_of([TOOL, "compile"] + words) != answer_of([plain, "compile"] + words):
                    different.append(" ".join(map(str, words)))
    print(f"{count} calls on examples, {len(different)} differ", *different, sep="\n  ", flush=True)
    return bool(different)


def units_of(plain, words):
    """How many units there are, by the plain compiler."""
    return int(subprocess.run([plain, "units", *words], capture_output=True, text=True, check=True).stdout)


def built_second():
    """The plain compiler, built."""
    folder = ROOT / "second"
    subprocess.run([os.environ.get("CARGO", "cargo"), "build", "--release", "--offline", "--quiet"], cwd=folder, check=True)
    return folder / "target" / "release" / "second"


def main():
    runs = int(sys.argv[1]) if len(sys.argv) > 1 else 7
    # As the launcher does.
    _, most = resource.getrlimit(resource.RLIMIT_STACK)
    resource.setrlimit(resource.RLIMIT_STACK, (1 << 30 if most == resource.RLIM_INFINITY else min(1 << 30, most), most))
    with tempfile.TemporaryDirectory() as folder:
        work = pathlib.Path(folder)
        plain, program = built_second(), work / "program.dil"
        failed = differing_examples(plain)
        print(f"{'program':20} {'units':>6} {'program, ms':>12} {'plain, ms':>10} {'ratio':>6}")
        for name, options, text_of in WORKLOADS:
            seen = set()
            for size in SIZES:
                program.write_text(text_of(size) + "\n")
                ours, theirs = [TOOL, "compile", program] + options, [plain, "compile", program] + options
                units = units_of(plain, [program] + options)
                if units in seen:
                    continue
                seen.add(units)
                same = answer_of(ours) == answer_of(theirs)
                failed = failed or not same
                our_time, their_time = best_of(runs, [ours, theirs])
                print(f"{name:20} {units:6} {our_time:12.1f} {their_time:10.1f} {our_time / their_time:6.2f}{'' if same else '  the files differ'}", flush=True)
    sys.exit(1 if failed else 0)


if __name__ == "__main__":
    main()
