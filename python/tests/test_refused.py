"""What is refused, and what is raised where a program cannot do what was asked for."""

from __future__ import annotations

import os
import tempfile
import unittest
from pathlib import Path

from piperench import Configuration, Place, Program, Refused, share
from piperench._find import FOLDER, executable
from piperench._reports import findings_of_json, findings_of_text

from .support import BOTH, SUM, environment, needs_programs, stand_in, sums

# Program, status, note, line, column.
WRONG = [
    ("input x:8;\noutput y = x\n", 3, "syntax: token 9", 3, 1),
    ("input x:8;\noutput y = z;", 3, "scope: rule 2 item 1", 2, 12),
    ("input x:8;\nrec s = 0 by s@1 + x; output y = s;", 4, "no width: equation 2", 2, None),
    ("input x:64;\nrec s:64 = 0 by (s@1 + x) ^ (s@1 >> 3) ^ (s@1 >> 5); output y = s;", 5, "no fit: unit", 2, None),
    ("input x:8;\noutput y = x{1..1};" + "output z0 = x;" * 1 + " output x1 = " + "(" * 300 + "x" + ")" * 300 + ";", 6, "limit: nesting 256", 2, None),
]


@needs_programs
class Refusals(unittest.TestCase):
    def test_programs(self) -> None:
        for text, status, note, line, column in WRONG:
            with self.subTest(text[:40]):
                with self.assertRaises(Refused) as caught:
                    Program(text).run([1])
                error = caught.exception
                self.assertEqual(error.status, status)
                self.assertTrue(error.note.startswith(note), error.note)
                self.assertIsNotNone(error.place)
                self.assertEqual(error.place.line, line)
                if column is not None:
                    self.assertEqual(error.place.column, column)
                self.assertIn(error.note, str(error))
                self.assertGreater(len(str(error).splitlines()), 1)

    def test_every_call_that_compiles_is_refused_alike(self) -> None:
        program = Program(WRONG[1][0])
        calls = [
            lambda: program.eval([1]), lambda: program.trace([1]), lambda: program.compile(), lambda: program.checkpoint([1]),
            lambda: program.cost(), lambda: program.graph(), lambda: list(program.stream([1])),
        ]
        for call in calls:
            with self.assertRaises(Refused) as caught:
                call()
            self.assertEqual((caught.exception.status, caught.exception.note), (3, WRONG[1][2]))
            self.assertEqual(caught.exception.place.line, 2)

    def test_options_that_help_are_no_note(self) -> None:
        program = Program("input x:64;\nrec s:64 = 1 by (s@1 ^ x) & s@1;\noutput y = s{31..0};")
        for call in program.cost, program.graph:
            with self.assertRaises(Refused) as caught:
                call()
            self.assertEqual((caught.exception.status, caught.exception.note), (5, "no fit: unit 3"))

    def test_findings(self) -> None:
        (finding,) = Program(WRONG[1][0]).why()
        self.assertEqual((finding.severity, finding.place.line, finding.place.column, finding.place.end_column), ("error", 2, 12, 13))
        self.assertIn("`z`", finding.message)
        with tempfile.TemporaryDirectory() as folder:
            path = Path(folder, "wrong.dil")
            path.write_text(WRONG[1][0])
            self.assertEqual(Program(path).why()[0].place.file, str(path))
        self.assertEqual([f for f in Program(SUM).why() if f.severity == "error"], [])

    def test_bad_samples(self) -> None:
        cases = [
            (SUM, [1, 2, 256, 3], 3, [(1,), (3,)]),
            (SUM, [1, -2, 3], 2, [(1,)]),
            (SUM, [1 << 70], 1, []),
            (BOTH, [(1, 2), (256, 1)], 2, [(3, 511)]),
        ]
        for text, samples, line, rows in cases:
            with self.subTest(samples=samples), self.assertRaises(Refused) as caught:
                Program(text).run(samples)
            error = caught.exception
            self.assertEqual((error.status, error.note, error.place), (7, f"bad sample: line {line}", Place(line)))
            self.assertEqual(error.results.rows(), rows)
            self.assertIn(str(samples[line - 1]), str(error))

    def test_bad_samples_of_a_file(self) -> None:
        with tempfile.TemporaryDirectory() as folder:
            path = Path(folder, "samples.txt")
            path.write_text("1\n\n2 3\n")
            for call in (Program(SUM).run, Program(SUM).trace, Program(SUM).compile().exec, Program(SUM).checkpoint([1]).move):
                with self.assertRaises(Refused) as caught:
                    call(path)
                self.assertEqual(caught.exception.place, Place(3, file=str(path)))
                self.assertIn("2 3", str(caught.exception))

    def test_what_is_no_number(self) -> None:
        for samples in ([1.5], ["1"], [None], [(1.5,)], "abc", {"x": [2.0]}, [1, True, 2.5], [1 << 70, 0.5]):
            with self.subTest(samples=samples), self.assertRaises((TypeError, FileNotFoundError)):
                Program(SUM).run(samples)
        with self.assertRaises(TypeError):
            Program("input x:40; output y = x;").run([1.5])

    def test_truth_values_are_numbers(self) -> None:
        for width in (1, 40):
            self.assertEqual(Program(f"input x:{width}; output y = x;").run([True, False]).rows(), [(1,), (0,)])

    def test_samples_of_another_shape(self) -> None:
        cases = [(BOTH, [1, 2]), (BOTH, [(1, 2, 3)]), (BOTH, [(1, 2), (3,)]), (BOTH, {"a": [1]}), (BOTH, {"a": [1], "b": [1, 2]}),
                 (SUM, [(1, 2)]), (SUM, {"z": [1]})]
        for text, samples in cases:
            with self.subTest(samples=samples), self.assertRaises((ValueError, TypeError)):
                Program(text).run(samples)

    def test_files_that_are_not_there(self) -> None:
        calls = [
            lambda: Program("no such program"), lambda: Program(Path("no such program")),
            lambda: Program(SUM).run("no such samples"), lambda: Program(SUM).compile().exec(Path("no such samples")),
            lambda: share([(SUM, "no such samples")]), lambda: Configuration.load("no such file"),
        ]
        for call in calls:
            with self.assertRaises(FileNotFoundError):
                call()

    def test_options_that_are_none(self) -> None:
        calls = [
            lambda: Program(SUM, stripes=1), lambda: Program(SUM, stripes=257), lambda: Program(SUM, fabric="large"),
            lambda: Program(SUM).run([1], stripes=0), lambda: Program(SUM, signed=["z"]), lambda: Program(SUM).stream([1], ahead=0),
        ]
        for call in calls:
            with self.assertRaises(ValueError):
                call()

    def test_bad_stalls_and_configurations(self) -> None:
        with self.assertRaises(Refused) as caught:
            Program(SUM).run([1], stall="..x")
        self.assertEqual((caught.exception.status, caught.exception.note), (8, "bad stall: byte 2"))
        content = Program(SUM).compile().content
        for wrong in (b"", content[:9], b"PIP3" + content[4:], content + b"\0"):
            with self.assertRaises(Refused) as caught:
                Configuration(wrong).exec([1])
            self.assertEqual(caught.exception.status, 9)
            with self.assertRaises(Refused):
                Configuration(wrong).show()

    def test_share(self) -> None:
        with self.assertRaises(Refused) as caught:
            share([(SUM, [1, 2, 3]), (SUM, [4, 256]), (SUM, [5])])
        error = caught.exception
        self.assertEqual((error.status, error.note, error.place), (7, "program 1: bad sample: line 2", Place(2)))
        self.assertEqual([part.rows() for part in error.results], [sums([1, 2, 3]), [(4,)], [(5,)]])
        with self.assertRaises(Refused) as caught:
            share([(SUM, [1]), (WRONG[1][0], [1])])
        self.assertEqual((caught.exception.status, caught.exception.place.line), (3, 2))
        with self.assertRaises(Refused) as caught:
            share([(SUM, [1])] * 9)
        self.assertEqual(caught.exception.note, "bad list: line 9")

    def test_eval_takes_sixteen_mebibytes(self) -> None:
        with self.assertRaises(Refused) as caught:
            Program("input x:128; output y = x;").eval([(1 << 128) - 1] * 430_000)
        self.assertEqual((caught.exception.status, caught.exception.note), (6, "limit: sample-bytes 16777216"))


class Answers(unittest.TestCase):
    """Statuses that the built programs give where something is wanting, from stand-ins."""

    def raised(self, script: str) -> BaseException:
        with stand_in("piperench", script):
            try:
                Program(SUM).run([1, 2, 3])
            except Exception as error:
                return error
        raise AssertionError("nothing was raised")

    def test_statuses(self) -> None:
        cases = [
            ("echo 'read fault' >&2; exit 10", OSError, "read fault"),
            ("echo 'write fault' >&2; exit 11", BrokenPipeError, "write fault"),
            ("echo 'out of memory' >&2; exit 12", MemoryError, "out of memory"),
            ("echo 'usage: piperench ..' >&2; exit 2", ValueError, "usage"),
            ("kill -SEGV $$", ChildProcessError, "signal 11"),
            ("exit 77", ChildProcessError, "status 77"),
        ]
        for script, kind, words in cases:
            error = self.raised(script)
            self.assertIsInstance(error, kind, script)
            self.assertNotIsInstance(error, Refused)
            self.assertIn(words, str(error))

    def test_a_refusal_without_an_explanation_is_its_note(self) -> None:
        error = self.raised("echo 'bad stall: byte 2' >&2; exit 8")
        self.assertIsInstance(error, Refused)
        self.assertEqual((str(error), error.status, error.place), ("bad stall: byte 2", 8, None))

    def test_only_the_last_line_is_the_note(self) -> None:
        error = self.raised("echo 'piperench: proving and building' >&2; echo 'bad stall: byte 2' >&2; exit 8")
        self.assertEqual(error.note, "bad stall: byte 2")

    def test_a_program_that_reads_nothing(self) -> None:
        with stand_in("piperench", "exit 0"):
            self.assertEqual(Program(SUM).run([1] * 1_000_000).rows(), [])

    def test_where_programs_are_looked_for(self) -> None:
        with tempfile.TemporaryDirectory() as folder, environment(FOLDER, folder):
            with self.assertRaisesRegex(FileNotFoundError, f"{FOLDER} names {folder}"):
                Program(SUM).run([1])
        with stand_in("piperench", "echo 7"):
            self.assertEqual(os.path.dirname(executable("piperench")), os.environ[FOLDER])
            self.assertEqual(Program(SUM).run([1]).rows(), [(7,)])

    def test_columns_of_signals(self) -> None:
        with stand_in("pipelens", "test \"$1 $4 $5 $6\" = 'signals --csv --signed x' || exit 9; printf 'x,t[0]\\n1,18446744073709551615\\n-128,3\\n'"):
            streams = Program(SUM, signed=["x"]).signals([1, 2])
        self.assertEqual(streams.names, ("x", "t[0]"))
        self.assertEqual(list(streams), [(1, 2**64 - 1), (-128, 3)])


class Findings(unittest.TestCase):
    def test_text(self) -> None:
        told = (
            "program.dil:3:28: scope: rule 2 item 2\n  3 | for i in 1..3 { let a[i] = b[i-1] ^ z; let b[i] = x; }\n"
            "    |                            ^^^^^^\n`b[i-1]` is used before it is assigned.\nAssign it before.\n"
        )
        (finding,) = findings_of_text(told, None)
        self.assertEqual(finding.place, Place(3, 28, 34))
        self.assertEqual((finding.code, finding.severity), ("scope: rule 2 item 2", "error"))
        self.assertEqual(finding.message, "`b[i-1]` is used before it is assigned.\nAssign it before.")

    def test_json(self) -> None:
        told = (
            '{"file":"program.dil","line":2,"column":5,"end_column":6,"severity":"warning","code":"unused","message":"Nobody reads `k`."}\n'
            '{"file":"program.dil","line":3,"column":1,"end_column":4,"severity":"error","code":"syntax: token 9","message":"a\\nb"}\n'
        )
        first, second = findings_of_json(told, "own.dil")
        self.assertEqual((first.place, first.severity), (Place(2, 5, 6, "own.dil"), "warning"))
        self.assertEqual(str(second), "own.dil:3:1: error: syntax: token 9\na\nb")

    def test_json_is_asked_for_first(self) -> None:
        script = """test "$*" = "why program.dil --fabric base --json" || exit 2
        echo '{"file":"program.dil","line":1,"column":7,"end_column":8,"severity":"warning","code":"w","message":"m"}'"""
        with stand_in("pipelens", script):
            (finding,) = Program(SUM).why()
        self.assertEqual((finding.place, finding.severity, finding.code, finding.message), (Place(1, 7, 8), "warning", "w", "m"))
