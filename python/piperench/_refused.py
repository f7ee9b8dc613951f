"""What a call of a program is refused for."""

from __future__ import annotations

from dataclasses import dataclass
from typing import TYPE_CHECKING

if TYPE_CHECKING:
    from ._streams import Streams


@dataclass(frozen=True)
class Place:
    """A place in a program or in a file of samples. Lines and columns are counted from 1, columns in bytes.

    ``file`` is None where the text came from no file. ``end_column`` is the column behind the last byte meant. Both columns
    are None where a whole line is meant.
    """

    line: int
    column: int | None = None
    end_column: int | None = None
    file: str | None = None

    def __str__(self) -> str:
        parts = [self.file, self.line, self.column]
        return ":".join(str(part) for part in parts if part is not None)


@dataclass(frozen=True)
class Finding:
    """Something that ``pipelens why`` says about a program: an error that refuses it, or a warning."""

    place: Place
    severity: str
    code: str
    message: str

    def __str__(self) -> str:
        return f"{self.place}: {self.severity}: {self.code}\n{self.message}"


class Refused(ValueError):
    """The program, its samples or another text is refused. The text of the exception is the explanation.

    ``status`` is the status of the call, ``note`` the line that it wrote, as ``syntax: token 4``, and ``place`` the place in
    the text, where one is known. ``results`` are the results of the samples before a bad one, and None where there are none.
    """

    def __init__(
        self,
        status: int,
        note: str,
        place: Place | None = None,
        explanation: str | None = None,
        results: "Streams | list[Streams] | None" = None,
    ) -> None:
        super().__init__(explanation or note)
        self.status = status
        self.note = note
        self.place = place
        self.results = results
