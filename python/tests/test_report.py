"""Drawings, and the page about a program."""

from __future__ import annotations

import contextlib
import html.parser
import io
import math
import tempfile
import unittest
import xml.etree.ElementTree as tree
from pathlib import Path

from piperench import Program, Streams, plot, signals
from piperench.__main__ import main
from piperench._page import Report

from .support import BOTH, SUM, needs_programs, stand_in

try:
    import matplotlib
except ImportError:
    matplotlib = None


def words_of(svg: str) -> list[str]:
    return [text for element in tree.fromstring(svg).iter() if (text := (element.text or "").strip())]


class Drawings(unittest.TestCase):
    def test_lines(self) -> None:
        drawing = plot.lines(Streams({"x": [0, 10, -10, 5], "<y>": [3, 3, 3, 3]}))
        svg = drawing._repr_svg_()
        self.assertTrue({"x", "<y>", "10", "-10", "sample 3"} <= set(words_of(svg)))
        points = [line.get("points").split() for line in tree.fromstring(svg).iter() if line.tag.endswith("polyline")]
        self.assertEqual([len(line) for line in points], [4, 4])
        heights = [float(point.split(",")[1]) for point in points[0]]
        self.assertEqual(sorted(range(4), key=heights.__getitem__), [1, 3, 0, 2])
        self.assertEqual(plot.lines({"a": [1], "b": [2]}, ["b"]).panels[0].name, "b")

    def test_a_drawing_for_each_stream(self) -> None:
        first, second = plot.separate({"a": [1, 2], "b": [3, 3, 3]}, width=300)
        self.assertEqual([first.panels[0].name, second.panels[0].name], ["a", "b"])
        for drawing, last in ((first, "sample 1"), (second, "sample 2")):
            root = tree.fromstring(drawing.svg)
            self.assertEqual(root.get("viewBox"), "0 0 300 150")
            self.assertIn(last, words_of(drawing.svg))
            (line,) = [element for element in root.iter() if element.tag.endswith("polyline")]
            # The line goes from the box's left side, at 64, to its right side, 14 before the end.
            ends = [point.split(",")[0] for point in line.get("points").split()]
            self.assertEqual((ends[0], ends[-1]), ("64.0", "286.0"))

    def test_many_samples_keep_their_peaks(self) -> None:
        values = [0] * 100_000
        values[77_777] = 1000
        (panel,) = plot.lines({"x": values}).panels
        thin = plot._thinned(panel)
        self.assertLess(len(thin), 2000)
        self.assertIn((77_777, 1000), thin)

    def test_few_samples(self) -> None:
        for values in ([], [5]):
            tree.fromstring(plot.lines({"x": values}).svg)

    def test_a_tone_is_the_greatest_part_of_its_spectrum(self) -> None:
        for count, tone in ((256, 32), (1000, 125)):
            wave = [round(1000 * math.sin(2 * math.pi * tone * n / count)) for n in range(count)]
            (panel,) = plot.spectrum(wave, rate=8000).panels
            peak = panel.across[max(range(len(panel.heights)), key=panel.heights.__getitem__)]
            self.assertAlmostEqual(peak, 1000, delta=8000 / 256)
            self.assertEqual((max(panel.heights), panel.across[-1]), (0, 4000))
        with self.assertRaises(ValueError):
            plot.spectrum([1])

    @unittest.skipIf(matplotlib is None, "matplotlib is not installed")
    def test_figures_of_matplotlib(self) -> None:
        figure = plot.lines({"x": [1, 4, 2], "y": [0, 0, 1]}).figure()
        self.assertEqual([list(axis.lines[0].get_ydata()) for axis in figure.axes], [[1, 4, 2], [0, 0, 1]])
        figure.savefig(io.BytesIO(), format="png")


@needs_programs
class Pages(unittest.TestCase):
    def setUp(self) -> None:
        scratch = tempfile.TemporaryDirectory()
        self.addCleanup(scratch.cleanup)
        self.folder = Path(scratch.name)

    def page(self, text: str, samples: str, *words: str, name: str = "samples.txt") -> tuple[int, str, str]:
        """The status of a call of the command, the page, and what was written to standard error."""
        Path(self.folder, "p<1>.dil").write_text(text)
        if samples:
            Path(self.folder, name).write_text(samples)
        out = Path(self.folder, "page.html")
        told = io.StringIO()
        with contextlib.redirect_stderr(told):
            status = main(["report", str(self.folder / "p<1>.dil"), str(self.folder / name), "-o", str(out), *words])
        return status, out.read_text() if out.exists() else "", told.getvalue()

    def test_a_program_that_runs(self) -> None:
        status, page, told = self.page(BOTH, "1 2\n\n007 255 \r\n" + "9 9\n" * 30, "--signed", "less", "--stripes", "4")
        self.assertEqual((status, told), (0, ""))
        checked(self, page)
        for words in ("p&lt;1&gt;.dil", "accepted", "Program", "Costs", "Inputs", "Outputs", "Schedule", "First rows", "4 stripes"):
            self.assertIn(words, page)
        self.assertIn("<tr><th>1</th><td>7</td><td>255</td><td>262</td><td>-248</td></tr>", page)
        self.assertIn("and 12 more", page)

    def test_a_program_that_is_refused(self) -> None:
        status, page, told = self.page("input x:8;\noutput y = z & 1;", "1\n")
        self.assertEqual(status, 1)
        checked(self, page)
        self.assertIn("refused", page)
        second = page.split("<li>")[2]
        self.assertIn("column 12", second)
        self.assertIn("`z`", second)
        self.assertRegex(told, r"scope(-2|: rule 2 item 1)\n`z` is used before it is assigned")

    def test_samples_that_are_refused(self) -> None:
        status, page, told = self.page(SUM, "1\n2\n256\n")
        self.assertEqual(status, 1)
        checked(self, page)
        self.assertIn("bad sample: line 3: 256", page)
        self.assertIn("<tr><th>1</th><td>2</td><td>3</td></tr>", page)
        self.assertIn("bad sample: line 3", told)

    def test_files_that_are_not_there(self) -> None:
        status, page, told = self.page(SUM, "")
        self.assertEqual((status, page), (1, ""))
        self.assertIn("samples.txt", told)

    def test_tables_and_sound(self) -> None:
        status, page, _ = self.page(SUM, "x\n1\n2\n", name="samples.csv")
        self.assertEqual(status, 0)
        self.assertIn("<tr><th>1</th><td>2</td><td>3</td></tr>", page)
        signals.write_wav(self.folder / "samples.wav", [-5, 7], rate=8000, bits=8)
        status, page, _ = self.page("input x:8; output y = signed(x) << 1;", "", "--signed", "x,y", name="samples.wav")
        self.assertEqual(status, 0)
        self.assertIn("<tr><th>0</th><td>-5</td><td>-10</td></tr>", page)

    def test_warnings_stand_at_their_lines(self) -> None:
        program = Program("input x:8;\nlet k = x;\noutput y = x;")
        finding = '{"file":"f","line":2,"column":5,"end_column":6,"severity":"warning","code":"unused","message":"Nobody reads k."}'
        with stand_in("pipelens", f"test $1 = why || exit 2; echo '{finding}'"):
            (found,) = program.why()
            page = Report(program, [found]).html()
        checked(self, page)
        self.assertIn("accepted, with 1 warning", page)
        self.assertIn("Nobody reads k.", page.split("<li>")[2])

    def test_many_names_are_folded(self) -> None:
        program = Program("input x:8;\noutput y = x;")
        for count, folded in ((6, False), (7, True)):
            names = Streams({f"n{k}": [k, k + 1] for k in range(count)})
            page = Report(program, [], inputs=Streams({"x": [1, 2]}), names=names, outputs=Streams({"y": [1, 2]})).html()
            checked(self, page)
            self.assertEqual(f"<summary>{count} names</summary>" in page, folded)
            titles = [page.index(f"<h2>{title}</h2>") for title in ("Inputs", "Outputs", "Names", "First rows")]
            self.assertEqual(titles, sorted(titles))
            self.assertEqual(page.count("<polyline"), count + 2)

    def test_schedules_and_units(self) -> None:
        trace = Program(SUM, stripes=3).trace([1, 2, 3])
        self.assertEqual(plot.schedule(trace).svg, trace.chart())
        try:
            drawn = plot.units(Program(SUM))
        except FileNotFoundError as error:
            self.assertIn("dot", str(error))
            return
        tree.fromstring(drawn.svg)


class Outside(html.parser.HTMLParser):
    """Collects what a page would fetch from elsewhere, and the elements that are open."""

    def __init__(self) -> None:
        super().__init__()
        self.fetched: list[str] = []
        self.open: list[str] = []

    def handle_starttag(self, tag: str, attrs: list[tuple[str, str | None]]) -> None:
        self.fetched += [
            f"{tag} {name}={value}"
            for name, value in attrs
            if name in ("src", "href", "srcset") and not (value or "").startswith("data:")
        ]
        if tag not in ("meta", "br", "img"):
            self.open.append(tag)

    def handle_startendtag(self, tag: str, attrs: list[tuple[str, str | None]]) -> None:
        self.fetched += [f"{tag} {name}={value}" for name, value in attrs if name in ("src", "href", "xlink:href")]

    def handle_endtag(self, tag: str) -> None:
        assert self.open and self.open[-1] == tag, (tag, self.open)
        self.open.pop()


def checked(test: unittest.TestCase, page: str) -> None:
    """The page is whole, and fetches nothing."""
    parser = Outside()
    parser.feed(page)
    parser.close()
    test.assertEqual((parser.fetched, parser.open), ([], []))
    test.assertNotIn("@import", page)
    test.assertNotIn("url(", page)
