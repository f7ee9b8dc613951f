"""Programs, their configurations and their checkpoints."""

from __future__ import annotations

import os
import re
import tempfile
from collections.abc import Callable, Iterable, Iterator, Sequence
from contextlib import contextmanager
from functools import cached_property
from pathlib import Path
from typing import Any

from . import _reports as reports
from ._call import WAIT, Call, Feed, call, failure, pipe
from ._refused import Finding, Place, Refused
from ._reports import Cost, Trace
from ._results import Results, results_of, rows_of, streams_of
from ._samples import counted_pieces, feed_of, pieces_of
from ._streams import Port, Streams

#: What `signed` takes: the names of the signed inputs and outputs, or True for all of them.
Signed = bool | Iterable[str]

_COMMENT = re.compile(rb"//[^\n]*")
_PORT = re.compile(rb"\b(input|output)\s+([A-Za-z_][A-Za-z0-9_]*)\s*(?::\s*(0x[0-9A-Fa-f]+|[0-9]+))?")
_NO_STREAM = re.compile(r"no stream: (.*)")
_BAD_LINE = re.compile(r"(?:program (\d+): )?bad sample: line (\d+)")


class Program:
    """A program of the stream language, given as its text or as the path of its file.

    A string with a semicolon or a line feed is a text, and every other one a path; the file is read once, here. ``fabric`` is
    "base" or "wide", ``narrow`` leaves out what no output shows, and ``stripes``, 2 to 256, is the size of the machine.
    ``signed`` names the inputs and outputs whose numbers are two's complement: -1 goes in and comes out as -1.

    Samples are whole numbers for a program of one input, rows of numbers, or a mapping from the names of the inputs to their
    columns; lists, tuples, arrays and iterables serve alike. A path is a file of samples.
    """

    def __init__(
        self,
        source: str | bytes | os.PathLike[str],
        *,
        fabric: str = "base",
        narrow: bool = False,
        stripes: int = 16,
        signed: Signed = (),
    ) -> None:
        if fabric not in ("base", "wide"):
            raise ValueError(f"a fabric is base or wide, and not {fabric}")
        self.fabric = fabric
        self.narrow = narrow
        self.stripes = _lawful_stripes(stripes)
        self.path: str | None = None
        if isinstance(source, bytes):
            self._text = source
        elif isinstance(source, str) and (";" in source or "\n" in source):
            self._text = source.encode()
        else:
            self.path = os.fspath(source)
            self._text = Path(source).read_bytes()
        self._signed = signed if isinstance(signed, bool) else frozenset(signed)
        self._check_signed()

    @property
    def text(self) -> str:
        """The text of the program."""
        return self._text.decode(errors="replace")

    @cached_property
    def _declared(self) -> list[tuple[str, Port]]:
        """Each input and output in the order of the text, with the width that the text declares."""
        found = _PORT.findall(_COMMENT.sub(b" ", self._text))
        return [
            (kind.decode(), Port(name.decode(), int(width, 0) if width[:2] == b"0x" else int(width) if width else None))
            for kind, name, width in found
        ]

    def _check_signed(self) -> None:
        if isinstance(self._signed, bool):
            return
        unknown = self._signed - {port.name for _, port in self._declared}
        if unknown:
            raise ValueError(f"signed names what is no input or output: {', '.join(sorted(unknown))}")

    def _ports(self, kind: str) -> list[Port]:
        return [
            Port(port.name, port.width, self._signed if isinstance(self._signed, bool) else port.name in self._signed)
            for sort, port in self._declared
            if sort == kind
        ]

    @cached_property
    def inputs(self) -> list[Port]:
        """The inputs: their names and widths, and which are signed."""
        return self._ports("input")

    @cached_property
    def outputs(self) -> list[Port]:
        """The outputs: their names and widths, and which are signed. A width that the text leaves open is the compiler's."""
        ports = self._ports("output")
        if all(port.width is not None for port in ports):
            return ports
        for fabric in (self.fabric, "wide"):
            status, _, made = self._call("piperench", ["compile"], fabric=fabric)
            if status == 0:
                widths = reports.widths_of(made)[1]
                return [Port(port.name, width, port.signed) for port, width in zip(ports, widths)]
        return ports

    # Runs

    def run(self, samples: Any, *, stripes: int | None = None, stall: str | None = None) -> Streams:
        """The results of the samples, from a machine. ``stall`` is a text of turns in which a side of it is held."""
        return self._streams("run", samples, self._machine(stripes), stall)

    def eval(self, samples: Any) -> Streams:
        """The same results by the meaning of the text, without a machine. The samples are at most 16 MiB of text."""
        return self._streams("eval", samples, [])

    def trace(self, samples: Any, *, stripes: int | None = None, stall: str | None = None) -> Trace:
        """The results of the samples, and the log of each cycle."""
        written: list[bytes] = []
        status, note = self._sampled("trace", samples, self._machine(stripes), stall, written.append)
        trace = Trace(b"".join(written).decode(), self.outputs)
        if status:
            raise self._failure(status, note, samples, trace.results)
        return trace

    def stream(self, samples: Iterable[Any], *, stripes: int | None = None, ahead: int = 4096) -> Iterator[tuple[int, ...]]:
        """Yields the row of each sample as it comes.

        The machine works on several samples at once, so a row comes when some more samples were taken, or at their end. At most
        ``ahead`` samples are taken whose rows are not yet yielded, or one for each stage of the program and 34 more where that
        is more. ``ahead=1`` serves a source that gives its samples slowly.
        """
        if ahead < 1:
            raise ValueError("ahead is at least 1")
        return self._stream(samples, self._machine(stripes), ahead)

    def _stream(self, samples: Iterable[Any], options: list[str], ahead: int) -> Iterator[tuple[int, ...]]:
        # With so many samples under way the program has rows to write before it reads on: 16 wait on either side of the machine,
        # and each stage works on one.
        held = self.compile().stages + 33
        most = max(ahead, held + 1)
        chunk = (most - held + 1) // 2
        waiting = 0

        def pieces() -> Iterator[bytes]:
            nonlocal waiting
            source = counted_pieces(samples, self.inputs, chunk)
            while True:
                while waiting + chunk > most:
                    yield WAIT
                count, piece = next(source, (0, b""))
                if not count:
                    return
                waiting += count
                yield piece

        with self._folder() as folder, Call("piperench", self._words("run", options, "/dev/stdin"), folder) as running:
            rest = b""
            for data in running.exchange(pieces()):
                *lines, rest = (rest + data).split(b"\n")
                for row in rows_of(lines, self.outputs):
                    waiting -= 1
                    yield row
            status, note = running.end()
        if status:
            raise self._failure(status, note, None, None)

    def signals(self, samples: Any, *, signed: Iterable[str] = ()) -> Streams:
        """Every name of the program as a stream. A signed stream has its values, and so have those that ``signed`` names.

        Raises ValueError where ``signed`` names no stream.
        """
        ports = [port.name for port in self.inputs + self.outputs if port.signed]
        names = sorted({*signed, *ports})
        listed = ["--signed", ",".join(names)] if names else []
        with self._folder() as folder:
            if isinstance(samples, (str, os.PathLike)):
                file = _existing(samples)
            else:
                file = "samples.txt"
                with open(os.path.join(folder, file), "wb") as written:
                    written.writelines(pieces_of(samples, self.inputs))
            status, note, told = call("pipelens", ["signals", "program.dil", file, "--csv", *listed, *self._options()], folder)
        unknown = _NO_STREAM.match(note)
        if status == 2 and unknown:
            raise ValueError(f"signed names {unknown[1]}, which is no stream")
        if status:
            raise self._failure(status, note, samples, None)
        return reports.read_columns(told)

    # What is told of a program

    def cost(self, samples: int = 1000) -> Cost:
        """Equations, units and stages of the program, and the cycles of a run of so many samples by stripes."""
        status, note, told = self._call("pipelens", ["cost"], ["--samples", str(samples)])
        if status:
            raise self._failure(status, note, None, None)
        return Cost(told.decode())

    def why(self) -> list[Finding]:
        """What is wrong with the program, and what it is warned of; an empty list where all is well."""
        status, note, told = self._call("pipelens", ["why"], ["--json"])
        if status == 2:
            status, note, told = self._call("pipelens", ["why"])
            findings = reports.findings_of_text(told.decode(errors="replace"), self.path) if status else []
        else:
            findings = reports.findings_of_json(told.decode(errors="replace"), self.path)
        if status and not findings:
            raise failure("pipelens", status, note)
        return findings

    def graph(self) -> str:
        """The units of the program by stage with their wires, in the language of Graphviz."""
        status, note, told = self._call("pipelens", ["graph"])
        if status:
            raise self._failure(status, note, None, None)
        return told.decode()

    def compile(self) -> "Configuration":
        """The program as a configuration."""
        status, note, made = self._call("piperench", ["compile"])
        if status:
            raise self._failure(status, note, None, None)
        return Configuration(made, stripes=self.stripes, inputs=self.inputs, outputs=self._named(made))

    def checkpoint(self, samples: Any, *, stripes: int | None = None, stall: str | None = None) -> "Checkpoint":
        """What the program has come to after the samples, and how many they were."""
        written: list[bytes] = []
        status, note = self._sampled("checkpoint", samples, self._machine(stripes), stall, written.append)
        if status:
            raise self._failure(status, note, samples, None)
        return Checkpoint(b"".join(written), stripes=self.stripes, inputs=self.inputs, outputs=self.outputs)

    def _named(self, made: bytes) -> list[Port]:
        widths = reports.widths_of(made)[1]
        return [Port(port.name, width, port.signed) for port, width in zip(self._ports("output"), widths)]

    # Calls

    @contextmanager
    def _folder(self, stall: str | None = None) -> Iterator[str]:
        """A folder of this call, with the program, and with the stall text where there is one."""
        with tempfile.TemporaryDirectory(prefix="piperench-") as folder:
            Path(folder, "program.dil").write_bytes(self._text)
            if stall is not None:
                Path(folder, "stall.txt").write_text(stall)
            yield folder

    def _options(self, fabric: str | None = None) -> list[str]:
        return ["--fabric", fabric or self.fabric, *(["--narrow"] if self.narrow else [])]

    def _machine(self, stripes: int | None) -> list[str]:
        return ["--stripes", str(self.stripes if stripes is None else _lawful_stripes(stripes))]

    def _words(self, mode: str, options: Sequence[str], file: str, stall: str | None = None) -> list[str]:
        held = [] if stall is None else ["--stall", "stall.txt"]
        return [mode, "program.dil", file, *self._options(), *options, *held]

    def _call(
        self, name: str, task: list[str], options: Sequence[str] = (), fabric: str | None = None
    ) -> tuple[int, str, bytes]:
        with self._folder() as folder:
            return call(name, [*task, "program.dil", *self._options(fabric), *options], folder)

    def _sampled(
        self,
        mode: str,
        samples: Any,
        options: Sequence[str],
        stall: str | None,
        take: Callable[[bytes], object],
        word: int = 0,
    ) -> tuple[int, str]:
        with self._folder(stall) as folder:
            if isinstance(samples, (str, os.PathLike)):
                return pipe("piperench", self._words(mode, options, _existing(samples), stall), folder, Feed(), take)
            words = self._words(mode, options, "/dev/stdin", stall)
            # What `eval` takes is counted in bytes of text, so there each number is as short as it can be.
            feed = feed_of(samples, self.inputs, zeros=mode != "eval")
            return pipe("piperench", words, folder, feed, take, word)

    def _streams(self, mode: str, samples: Any, options: Sequence[str], stall: str | None = None) -> Streams:
        results = results_of(samples, lambda: self.outputs)
        status, note = self._sampled(mode, samples, options, stall, results.take, results.word)
        if status:
            raise self._failure(status, note, samples, results)
        return results.streams()

    def _failure(self, status: int, note: str, samples: Any, results: Results | Streams | None) -> Exception:
        """The exception for an answer: a refusal has the place, and the words of ``pipelens why``."""
        error = failure("piperench", status, note)
        if not isinstance(error, Refused):
            return error
        bad = _BAD_LINE.match(note)
        if bad or status > 6:
            return _of_samples(error, samples, results.streams() if isinstance(results, Results) else results)
        try:
            errors = [finding for finding in self.why() if finding.severity == "error"]
        except (OSError, NotImplementedError, ValueError, MemoryError):
            return error
        if not errors:
            return error
        return Refused(status, note, errors[0].place, f"{errors[0].place}: {note}\n{errors[0].message}")

    def __repr__(self) -> str:
        where = f"{self.path}, " if self.path else ""
        inputs, outputs = (", ".join(port.name for port in self._ports(kind)) for kind in ("input", "output"))
        return f"Program({where}{inputs} -> {outputs})"


class _Stored:
    """What the program has written about a program, as bytes: to be kept in a file, and to go on from."""

    _mode: str

    def __init__(
        self,
        content: bytes,
        *,
        stripes: int = 16,
        inputs: Sequence[Port] | None = None,
        outputs: Sequence[Port] | None = None,
        signed: Iterable[str] = (),
    ) -> None:
        self.content = content
        self.stripes = _lawful_stripes(stripes)
        names = frozenset(signed)
        widths = reports.widths_of(content)
        self.inputs = list(inputs) if inputs is not None else _numbered("in", widths[0], names)
        self.outputs = list(outputs) if outputs is not None else _numbered("out", widths[1], names)

    def save(self, path: str | os.PathLike[str]) -> None:
        """Writes the bytes to a file, which ``piperench`` reads too."""
        Path(path).write_bytes(self.content)

    def _call(
        self,
        mode: str,
        samples: Any,
        stripes: int | None,
        stall: str | None,
        take: Callable[[bytes], object],
        word: int = 0,
    ) -> tuple[int, str]:
        size = self.stripes if stripes is None else _lawful_stripes(stripes)
        with tempfile.TemporaryDirectory(prefix="piperench-") as folder:
            Path(folder, "content").write_bytes(self.content)
            options = ["--stripes", str(size)]
            if stall is not None:
                Path(folder, "stall.txt").write_text(stall)
                options += ["--stall", "stall.txt"]
            if isinstance(samples, (str, os.PathLike)):
                return pipe("piperench", [mode, "content", _existing(samples), *options], folder, Feed(), take)
            # A damaged file may name no inputs; the program says what is wrong with it before it reads a sample.
            feed = feed_of(samples, self.inputs) if self.inputs else Feed()
            return pipe("piperench", [mode, "content", "/dev/stdin", *options], folder, feed, take, word)

    def _streams(self, mode: str, samples: Any, stripes: int | None, stall: str | None) -> Streams:
        results = results_of(samples, lambda: self.outputs)
        status, note = self._call(mode, samples, stripes, stall, results.take, results.word)
        if status:
            error = failure("piperench", status, note)
            if isinstance(error, Refused) and status != 9:
                raise _of_samples(error, samples, results.streams())
            raise error
        return results.streams()


class Configuration(_Stored):
    """A compiled program. ``Configuration.load(path)`` reads one from a file; its inputs are then named in0, in1 and so on,
    and its outputs out0, out1 and so on, and ``signed`` names those of them that are two's complement."""

    @classmethod
    def load(cls, path: str | os.PathLike[str], *, stripes: int = 16, signed: Iterable[str] = ()) -> "Configuration":
        """The configuration of a file that ``piperench compile`` or ``save`` has written."""
        return cls(Path(path).read_bytes(), stripes=stripes, signed=signed)

    def exec(self, samples: Any, *, stripes: int | None = None, stall: str | None = None) -> Streams:
        """The results of the samples, from a machine with this configuration."""
        return self._streams("exec", samples, stripes, stall)

    @property
    def stages(self) -> int:
        """How many stages it has."""
        return int.from_bytes(self.content[8:12], "big")

    def show(self) -> str:
        """A summary, stage by stage."""
        with tempfile.TemporaryDirectory(prefix="piperench-") as folder:
            Path(folder, "content").write_bytes(self.content)
            status, note, told = call("piperench", ["show", "content"], folder)
        if status:
            raise failure("piperench", status, note)
        return told.decode()

    def __repr__(self) -> str:
        return f"Configuration({len(self.content)} bytes)"


class Checkpoint(_Stored):
    """What a program has come to after some samples. ``samples`` is their number. ``Checkpoint.load(path)`` reads one from a
    file, with names as those of a loaded configuration."""

    @classmethod
    def load(cls, path: str | os.PathLike[str], *, stripes: int = 16, signed: Iterable[str] = ()) -> "Checkpoint":
        """The checkpoint of a file that ``piperench checkpoint``, ``extend`` or ``save`` has written."""
        return cls(Path(path).read_bytes(), stripes=stripes, signed=signed)

    @property
    def samples(self) -> int:
        """How many samples came before."""
        return int.from_bytes(self.content[4:12], "big")

    def move(self, samples: Any, *, stripes: int | None = None, stall: str | None = None) -> Streams:
        """The results of further samples."""
        return self._streams("move", samples, stripes, stall)

    def extend(self, samples: Any, *, stripes: int | None = None, stall: str | None = None) -> "Checkpoint":
        """The checkpoint after further samples."""
        written: list[bytes] = []
        status, note = self._call("extend", samples, stripes, stall, written.append)
        if status:
            error = failure("piperench", status, note)
            raise _of_samples(error, samples, None) if isinstance(error, Refused) and status != 9 else error
        return Checkpoint(b"".join(written), stripes=self.stripes, inputs=self.inputs, outputs=self.outputs)

    def __repr__(self) -> str:
        return f"Checkpoint(after {self.samples} samples)"


def share(entries: Sequence[tuple[Any, ...]], *, stripes: int = 16) -> list[Streams]:
    """Runs up to eight programs in turns on the same stripes, and returns the results of each.

    An entry is a program, its samples and its quota: how many samples it is fed in each turn, 1 where the quota is left out.
    The programs are compiled for the base fabric, and not narrowed. Where one is refused, or its samples end with a bad one,
    Refused is raised; its ``results`` has then the streams of all programs, as far as they came.
    """
    programs = [Program(entry[0]) if not isinstance(entry[0], Program) else entry[0] for entry in entries]
    with tempfile.TemporaryDirectory(prefix="piperench-") as folder:
        lines = []
        for number, (program, entry) in enumerate(zip(programs, entries)):
            Path(folder, f"program{number}.dil").write_bytes(program._text)
            file = Path(folder, f"samples{number}.txt")
            if isinstance(entry[1], (str, os.PathLike)):
                file.symlink_to(_existing(entry[1]))
            else:
                with file.open("wb") as written_file:
                    written_file.writelines(pieces_of(entry[1], program.inputs))
            lines.append(f"program{number}.dil samples{number}.txt {entry[2] if len(entry) > 2 else 1}\n")
        Path(folder, "list").write_text("".join(lines))
        status, note, written = call("piperench", ["share", "list", "--stripes", str(_lawful_stripes(stripes))], folder)
    parts: list[list[bytes]] = [[] for _ in programs]
    for line in written.split(b"\n")[:-1]:
        parts[line[0] - ord("0")].append(line[3:])
    results = [
        streams_of(b"".join(part + b"\n" for part in lines), program.outputs) for program, lines in zip(programs, parts)
    ]
    if status:
        error = failure("piperench", status, note)
        raise _of_share(error, programs, entries, results) if isinstance(error, Refused) else error
    return results


def _of_share(
    error: Refused, programs: list[Program], entries: Sequence[tuple[Any, ...]], results: list[Streams]
) -> Refused:
    """The refusal of a program of a list, with the explanation of that program."""
    part = re.match(r"program (\d+): (.*)", error.note)
    if not part:
        return error
    number = int(part[1])
    cause = programs[number]._failure(error.status, part[2], entries[number][1], None)
    place = cause.place if isinstance(cause, Refused) else None
    return Refused(error.status, error.note, place, f"program {number}: {cause}", results)


def _of_samples(error: Refused, samples: Any, results: Streams | None) -> Refused:
    """The refusal of samples, with the line, what stands in it, and the results of those before."""
    bad = _BAD_LINE.match(error.note)
    if not bad:
        return Refused(error.status, error.note, None, None, results)
    line = int(bad[2])
    file = os.fspath(samples) if isinstance(samples, (str, os.PathLike)) else None
    words = "It is to have one number for each input, each below 2 to the power of the input's width."
    held = _line_of(samples, line)
    shown = f": {held}" if held is not None else ""
    return Refused(error.status, error.note, Place(line, file=file), f"{error.note}{shown}\n{words}", results)


def _line_of(samples: Any, line: int) -> str | None:
    """What stands in a line of the samples, counted from 1, where they can be looked at again."""
    if isinstance(samples, (str, os.PathLike)):
        try:
            with open(samples, "rb") as file:
                for number, text in enumerate(file, 1):
                    if number == line:
                        return text.rstrip(b"\r\n")[:200].decode(errors="replace")
        except OSError:
            pass
        return None
    if isinstance(samples, Sequence) or hasattr(samples, "tolist"):
        return str(samples[line - 1])[:200] if line <= len(samples) else None
    return None


def _numbered(name: str, widths: Sequence[int], signed: frozenset[str]) -> list[Port]:
    return [Port(f"{name}{k}", width, f"{name}{k}" in signed) for k, width in enumerate(widths)]


def _lawful_stripes(stripes: int) -> int:
    if not isinstance(stripes, int) or not 2 <= stripes <= 256:
        raise ValueError(f"a machine has 2 to 256 stripes, and not {stripes}")
    return stripes


def _existing(path: str | os.PathLike[str]) -> str:
    """The absolute path of a file that is there; raises what opening it raises."""
    os.stat(path)
    return os.path.abspath(path)
