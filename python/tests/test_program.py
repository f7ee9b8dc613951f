"""Every call of a program, against `eval` and against models of its own."""

from __future__ import annotations

import array
import os
import random
import tempfile
import unittest
from pathlib import Path

from piperench import Checkpoint, Configuration, Program, Refused, Streams, share

from .support import BOTH, SUM, needs_programs, sums

try:
    import numpy
except ImportError:
    numpy = None

VALUES = [chance.randrange(256) for chance in [random.Random(7)] for _ in range(300)]
PAIRS = list(zip(VALUES, VALUES[::-1]))


@needs_programs
class Runs(unittest.TestCase):
    def test_run_and_eval_give_the_sums(self) -> None:
        for fabric in ("base", "wide"):
            for narrow in (False, True):
                program = Program(SUM, fabric=fabric, narrow=narrow)
                self.assertEqual(program.eval(VALUES).rows(), sums(VALUES))
                for stripes in (2, 3, 16, 256):
                    self.assertEqual(program.run(VALUES, stripes=stripes).rows(), sums(VALUES))

    def test_samples_come_in_every_form(self) -> None:
        program = Program(SUM)
        forms = [
            VALUES, tuple(VALUES), bytes(VALUES), array.array("B", VALUES), array.array("q", VALUES), iter(VALUES),
            (value for value in VALUES), [(value,) for value in VALUES], [[value] for value in VALUES], {"x": VALUES},
            {"x": array.array("H", VALUES)}, Streams({"x": VALUES}),
        ]
        for form in forms:
            self.assertEqual(program.run(form).rows(), sums(VALUES), type(form))

    def test_rows_and_columns_of_two_inputs(self) -> None:
        expected = [(a + b, a - b) for a, b in PAIRS]
        program = Program(BOTH, signed=["less"])
        a, b = map(list, zip(*PAIRS))
        for form in (PAIRS, [list(pair) for pair in PAIRS], {"a": a, "b": b}, {"b": bytes(b), "a": a}, zip(a, b)):
            self.assertEqual(list(program.run(form)), expected)
        self.assertEqual(program.run(PAIRS).names, ("sum", "less"))
        self.assertEqual(list(program.run(PAIRS)["less"]), [a - b for a, b in PAIRS])

    def test_no_samples_make_no_rows(self) -> None:
        for form in ([], iter(()), {"x": []}):
            results = Program(SUM).run(form)
            self.assertEqual((len(results), results.names, list(results)), (0, ("y",), []))

    def test_a_file_of_samples(self) -> None:
        with tempfile.TemporaryDirectory(prefix="a folder ") as folder:
            path = Path(folder, "some samples.txt")
            path.write_text("\n".join(map(str, VALUES)) + "\n")
            for form in (path, str(path)):
                self.assertEqual(Program(SUM).run(form).rows(), sums(VALUES))
            program = Path(folder, "a program.dil")
            program.write_text(SUM)
            self.assertEqual(Program(program).run(path).rows(), sums(VALUES))
            self.assertEqual(Program(str(program)).eval(path).rows(), sums(VALUES))

    def test_signed_columns_at_their_ends(self) -> None:
        for width in (1, 2, 8, 12, 13, 16, 63, 64, 65, 128):
            half = 1 << width - 1
            values = [-half, half - 1, -1, 0]
            program = Program(f"input x:{width}; output y = x; output z:{width} = 0 - x;", signed=True)
            for results in (program.run(values), program.eval(values), Streams(dict(program.run(values).items()))):
                self.assertEqual([int(y) for y in results["y"]], values)
                self.assertEqual([int(z) for z in results["z"]], [-half, 1 - half, 1 if width > 1 else -1, 0])
            for wrong in (-half - 1, half):
                with self.assertRaisesRegex(ValueError, f"sample 2: {wrong} of x is no signed number of {width} bits"):
                    program.run([0, wrong])

    def test_unsigned_columns_at_their_ends(self) -> None:
        for width in (1, 8, 12, 13, 63, 64, 65, 128):
            values = [0, 1, (1 << width) - 1]
            results = Program(f"input x:{width}; output y = x;").run(values)
            self.assertEqual(results.rows(), [(value,) for value in values])

    def test_a_width_that_the_text_leaves_open_is_found(self) -> None:
        program = Program("input x:8; output y = signed(x) * 3;", signed=["x", "y"])
        self.assertEqual(program.outputs[0].width, 11)
        self.assertEqual(program.run([-128, 127, -1]).rows(), [(-384,), (381,), (-3,)])

    def test_names_in_comments_and_hexadecimal_widths(self) -> None:
        text = "// input no:8;\ninput // output\n a:0x8; output y = a; // output z = a;\noutput z:0x10 = y;"
        program = Program(text)
        self.assertEqual([(port.name, port.width) for port in program.inputs], [("a", 8)])
        self.assertEqual([port.name for port in program.outputs], ["y", "z"])
        self.assertEqual(program.run([3]).rows(), [(3, 3)])

    def test_stalls_change_no_row(self) -> None:
        for stall in ("", "iob.", "o" * 40 + "i" * 7):
            self.assertEqual(Program(SUM).run(VALUES, stall=stall, stripes=2).rows(), sums(VALUES))

    @unittest.skipIf(numpy is None, "numpy is not installed")
    def test_arrays_of_numpy(self) -> None:
        program = Program(BOTH, signed=["less"])
        for kind in (numpy.uint8, numpy.int64, numpy.uint64):
            results = program.run(numpy.array(PAIRS, dtype=kind))
            self.assertEqual(results.rows(), [(a + b, a - b) for a, b in PAIRS])
        self.assertEqual(results["less"].dtype, numpy.int64)
        column = numpy.array(VALUES, dtype=numpy.int16)
        self.assertEqual(Program(SUM).run(column).rows(), sums(VALUES))
        self.assertEqual(Program(SUM).run(list(column)).rows(), sums(VALUES))
        wide = Program("input x:128; output y = x;").run([1 << 127])
        self.assertEqual((wide["y"].dtype, wide["y"][0]), (numpy.dtype(object), 1 << 127))
        with self.assertRaises(TypeError):
            program.run(numpy.array([[1.5, 2.5]]))


@needs_programs
class Further(unittest.TestCase):
    def test_trace(self) -> None:
        program = Program(SUM, stripes=4)
        trace = program.trace(VALUES, stall="o" * 60)
        self.assertEqual(trace.results.rows(), sums(VALUES))
        end = trace.log[-1].split()
        self.assertEqual((trace.cycles, trace.stalls), (int(end[2]), int(end[4])))
        self.assertGreater(trace.stalls, 0)
        self.assertTrue(trace.chart().startswith("<svg"))
        self.assertEqual(trace._repr_svg_(), trace.chart())
        self.assertIn("$enddefinitions", trace.wave())
        self.assertIn("left out: the first 1 and the last ", trace.chart(1, 2))
        self.assertIn("$enddefinitions $end\n#10\n", trace.wave(first=1))

    def test_configuration(self) -> None:
        program = Program(BOTH, signed=["less"], stripes=3)
        made = program.compile()
        self.assertEqual(made.exec(PAIRS), program.eval(PAIRS))
        self.assertEqual(made.exec(PAIRS, stripes=40, stall="oob"), program.eval(PAIRS))
        self.assertRegex(made.show(), r"^stages \d+ inputs 2 outputs 2\n")
        with tempfile.TemporaryDirectory() as folder:
            made.save(Path(folder, "both.configuration"))
            loaded = Configuration.load(Path(folder, "both.configuration"), signed=["out1"])
        self.assertEqual(loaded.exec(PAIRS).names, ("out0", "out1"))
        self.assertEqual(loaded.exec(PAIRS).rows(), program.eval(PAIRS).rows())
        self.assertEqual([port.width for port in loaded.inputs + loaded.outputs], [8, 8, 9, 9])

    def test_checkpoints_go_on(self) -> None:
        program = Program(SUM)
        for first, second in ((0, 5), (1, 1), (100, 200)):
            mark = program.checkpoint(VALUES[:first], stripes=4)
            self.assertEqual(mark.samples, first)
            self.assertEqual(mark.move(VALUES[first:], stripes=30).rows(), sums(VALUES)[first:])
            later = mark.extend(VALUES[first:second], stripes=2)
            self.assertEqual(later.samples, max(first, second))
            self.assertEqual(later.move(VALUES[max(first, second) :]).rows(), sums(VALUES)[max(first, second) :])
        with tempfile.TemporaryDirectory() as folder:
            later.save(os.path.join(folder, "mark"))
            again = Checkpoint.load(os.path.join(folder, "mark"))
        self.assertEqual(again.move(VALUES[200:]).rows(), sums(VALUES)[200:])

    def test_cost_has_the_cycles_of_runs(self) -> None:
        program = Program(SUM)
        cost = program.cost(samples=len(VALUES))
        self.assertEqual(cost.columns, 16)
        self.assertEqual(len(cost.stages), int(program.compile().show().split()[1]))
        for speed in cost.speeds:
            self.assertEqual(program.trace(VALUES, stripes=speed.stripes).cycles, speed.run)
        narrow = Program(SUM, narrow=True).cost()
        self.assertEqual(cost.other_way, (narrow.units, len(narrow.stages)))
        self.assertIn("<table>", cost._repr_html_())

    def test_share(self) -> None:
        both = Program(BOTH, signed=["less"])
        first, second, third = share([(SUM, VALUES), (both, PAIRS, 7), (SUM, VALUES[:3], 2)], stripes=2)
        self.assertEqual(first.rows(), sums(VALUES))
        self.assertEqual(second, both.eval(PAIRS))
        self.assertEqual(third.rows(), sums(VALUES[:3]))

    def test_graph(self) -> None:
        self.assertTrue(Program(SUM).graph().startswith("digraph units {"))

    def test_signals(self) -> None:
        text = "input x:8; let twice:9 = x + x; let less:9 = twice - 3; output y = less;"
        program = Program(text, signed=["y"])
        streams = program.signals(VALUES, signed=["less"])
        self.assertEqual(streams.names, ("x", "twice", "less", "y"))
        self.assertEqual(list(streams["x"]), VALUES)
        self.assertEqual(list(streams["twice"]), [2 * x for x in VALUES])
        expected = [(2 * x - 3 + 256) % 512 - 256 for x in VALUES]
        self.assertEqual((list(streams["less"]), list(streams["y"])), (expected, expected))
        self.assertEqual(list(Program(text).signals(VALUES)["less"]), [(2 * x - 3) % 512 for x in VALUES])
        halves = Program("input x:8; let less = signed(x - 3); let half = less >> 1; output y = half;").signals([1, 5])
        self.assertEqual(halves.rows(), [(1, -2, -1, -1), (5, 2, 1, 1)])
        with self.assertRaisesRegex(ValueError, "signed names more"):
            program.signals(VALUES, signed=["more"])
        with self.assertRaises(Refused):
            program.signals([256])

    def test_the_deepest_program_finds_its_stack(self) -> None:
        # A tree of some 32,000 levels: brackets around chains around brackets, each as long as nesting allows.
        inner = "x"
        for depth in range(250, 0, -1):
            inner = "(" + " ^ ".join([inner] + ["x"] * (255 - depth)) + ")"
        with self.assertRaises(Refused) as caught:
            Program(f"input x:8; output y = {inner};").eval([5])
        self.assertEqual(caught.exception.note, "limit: equations 16384")


class Tables(unittest.TestCase):
    def test_rows_columns_and_names(self) -> None:
        streams = Streams({"a": [1, 2, 3], "b": array.array("q", [4, 5, 6])})
        self.assertEqual((streams.names, len(streams)), (("a", "b"), 3))
        self.assertEqual(list(streams), [(1, 4), (2, 5), (3, 6)])
        self.assertEqual(streams.rows(1, 2), [(2, 5)])
        self.assertEqual(streams, Streams({"a": (1, 2, 3), "b": [4, 5, 6]}))
        self.assertNotEqual(streams, Streams({"a": (1, 2, 3), "b": [4, 5, 7]}))
        self.assertEqual(list(dict(streams)), ["a", "b"])
        self.assertIn("a", streams)
        with self.assertRaisesRegex(ValueError, "not equally long: 1, 2"):
            Streams({"a": [1], "b": [1, 2]})

    def test_a_table_is_cut_after_twenty_rows(self) -> None:
        shown = Streams({"<a>": range(23)})._repr_html_()
        self.assertEqual(shown.count("<tr>"), 21)
        self.assertIn("<th>&lt;a&gt;</th>", shown)
        self.assertIn("and 3 more", shown)
