"""Calls of the built programs, by pipes."""

from __future__ import annotations

import errno
import os
import re
import select
import subprocess
import tempfile
from collections.abc import Callable, Iterable, Iterator, Sequence
from dataclasses import dataclass
from typing import Any

from ._find import executable
from ._numbers import COMMAND, PIECE
from ._refused import Refused

# The size that a program's pipes are to have: several pieces either way, so that the program works while one is made or read.
_PIPE = 1 << 20

# The programs go down a syntax tree by calling themselves, so they want a deep stack: 1 GiB, or what the hard limit lets.
# A shell sets the limit, so that the limits of the Python process stay as they are.
_WITH_A_DEEP_STACK = """\
most=$(ulimit -H -s)
ulimit -S -s 1048576 2>/dev/null || ulimit -S -s "$most" 2>/dev/null
exec "$0" "$@"
"""

# What F_SETPIPE_SZ of Linux is; the module fcntl names it from Python 3.10 on, but only on Linux.
_SET_PIPE_SIZE = 1031

#: The bytes that a source of samples yields for: nothing now, first read what the program writes.
WAIT = b""


# What the launchers tell of a build, and the lines of `pipelens` that name options that help, or the call which tells more.
_ASIDE = re.compile(r"(piperench|pipelens): |(With|On) `--.*` the program fits\.$|`pipelens why .* tells more$")


@dataclass(frozen=True)
class Feed:
    """What a call is given, piece by piece. Where it is packed, each piece is one for ``_numbers.write``."""

    pieces: Iterable[bytes] = ()
    packed: bool = False


class Call:
    """A running call of a program. Its standard input takes samples, and what it writes is read as it comes.

    With ``packed_input`` it takes pieces for ``_numbers.write``; with ``word`` it gives words of so many bytes, of ``_numbers.read``.
    """

    def __init__(
        self,
        name: str,
        words: Sequence[str],
        folder: str | None = None,
        packed_input: bool = False,
        word: int = 0,
    ) -> None:
        program = executable(name)
        self._notes = tempfile.TemporaryFile()
        self._started: list[subprocess.Popen[bytes]] = []
        try:
            if packed_input:
                self._start([*COMMAND, "write"])
            self._process = self._start(["/bin/sh", "-c", _WITH_A_DEEP_STACK, program, *words], self._notes, folder)
            if word:
                self._start([*COMMAND, "read", str(word)])
        except BaseException:
            self.stop()
            raise
        first, last = self._started[0].stdin, self._started[-1].stdout
        assert first is not None and last is not None
        self._input, self._output = first, last
        _enlarge(self._input.fileno())
        os.set_blocking(self._input.fileno(), False)

    def _start(self, words: Sequence[str], notes: Any = subprocess.DEVNULL, folder: str | None = None) -> subprocess.Popen[bytes]:
        """Starts a process that reads what the one before it writes."""
        source = self._started[-1].stdout if self._started else None
        process = subprocess.Popen(
            words, stdin=source or subprocess.PIPE, stdout=subprocess.PIPE, stderr=notes, cwd=folder, bufsize=0
        )
        self._started.append(process)
        if source is not None:
            source.close()
        assert process.stdout is not None
        _enlarge(process.stdout.fileno())
        return process

    def exchange(self, pieces: Iterable[bytes] = ()) -> Iterator[bytes]:
        """Gives the pieces to the program, and yields what it writes, piece by piece, until it has closed its output.

        A piece is asked for where the one before it is in the pipe; after an empty piece the next one is asked for when the
        program has written something. Where the program reads no more, no further piece is asked for.
        """
        source = iter(pieces)
        rest = memoryview(b"")
        ready = select.poll()
        ready.register(self._output, select.POLLIN)
        waits = False
        while True:
            if not self._input.closed and not rest and not waits:
                piece = next(source, None)
                if piece is None:
                    self._input.close()
                else:
                    rest = memoryview(piece)
                    waits = not piece
            if rest:
                ready.register(self._input, select.POLLOUT)
            events = dict(ready.poll())
            if rest:
                ready.unregister(self._input)
                if self._input.fileno() in events:
                    rest = self._give(rest)
            if self._output.fileno() in events:
                data = os.read(self._output.fileno(), PIECE)
                if not data:
                    return
                waits = False
                yield data

    def _give(self, rest: memoryview) -> memoryview:
        """Writes as much as the pipe takes, and returns what is left; nothing is left where the program reads no more."""
        try:
            return rest[os.write(self._input.fileno(), rest) :]
        except BlockingIOError:
            return rest
        except BrokenPipeError:
            self._input.close()
            return memoryview(b"")

    def end(self) -> tuple[int, str]:
        """Waits for the end of the program. Returns its status and its note: the last line on standard error that is no aside."""
        self._input.close()
        self._output.close()
        status = self._process.wait()
        others = [process.wait() for process in self._started if process is not self._process]
        self._notes.seek(0)
        lines = self._notes.read().decode(errors="replace").splitlines()
        self._notes.close()
        if any(others) and not status:
            raise ChildProcessError(f"a process that writes samples or reads results ended with status {max(others, key=abs)}")
        notes = [line for line in lines if not _ASIDE.match(line)] or lines
        return status, notes[-1] if notes else ""

    def stop(self) -> None:
        """Ends what still runs, and gives back what the call holds."""
        for process in self._started:
            for pipe in (process.stdin, process.stdout):
                if pipe is not None:
                    pipe.close()
            if process.poll() is None:
                process.kill()
                process.wait()
        self._notes.close()

    def __enter__(self) -> "Call":
        return self

    def __exit__(self, *about: object) -> None:
        self.stop()


def pipe(
    name: str,
    words: Sequence[str],
    folder: str | None,
    feed: Feed,
    take: Callable[[bytes], object],
    word: int = 0,
) -> tuple[int, str]:
    """Calls a program to its end, and gives ``take`` what it writes, as it comes: its status and its note."""
    with Call(name, words, folder, feed.packed, word) as running:
        for data in running.exchange(feed.pieces):
            take(data)
        return running.end()


def call(
    name: str, words: Sequence[str], folder: str | None = None, pieces: Iterable[bytes] = ()
) -> tuple[int, str, bytes]:
    """Calls a program to its end: its status, its note, and what it wrote."""
    written: list[bytes] = []
    status, note = pipe(name, words, folder, Feed(pieces), written.append)
    return status, note, b"".join(written)


def failure(name: str, status: int, note: str) -> Exception:
    """The exception for a status that is not 0, as the table of answers in docs/texts.md has it."""
    if status < 0:
        return ChildProcessError(f"{name} was ended by signal {-status}")
    if status == 2:
        return ValueError(note)
    if status == 10:
        return OSError(errno.EIO, f"{name}: {note}")
    if status == 11:
        return BrokenPipeError(errno.EPIPE, f"{name}: {note}")
    if status == 12:
        return MemoryError(f"{name}: {note}")
    if 3 <= status <= 15:
        return Refused(status, note)
    return ChildProcessError(f"{name} ended with status {status}: {note}")


def _enlarge(pipe: int) -> None:
    """Lets a pipe hold several pieces where the system allows it, so that the two sides wait for each other less often."""
    try:
        import fcntl

        fcntl.fcntl(pipe, _SET_PIPE_SIZE, _PIPE)
    except (ImportError, OSError):
        pass
