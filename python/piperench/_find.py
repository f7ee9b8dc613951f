"""Where the built programs are."""

from __future__ import annotations

import os
import shutil
from pathlib import Path

#: The environment variable that names the folder of the built programs.
FOLDER = "PIPERENCH_BIN"


def executable(name: str) -> str:
    """The path of a built program, ``piperench`` or ``pipelens``.

    Looks into the folder that ``PIPERENCH_BIN`` names; without one, into the repository that this package stands in, and
    then along ``PATH``. Raises FileNotFoundError where none of these has it.
    """
    folder = os.environ.get(FOLDER)
    if folder:
        path = Path(folder).absolute() / name
        if _runs(path):
            return str(path)
        raise FileNotFoundError(f"{FOLDER} names {folder}, which has no program {name}")
    built = Path(__file__).resolve().parents[2] / "crates" / name / "out" / name
    if _runs(built):
        return str(built)
    found = shutil.which(name)
    if found is None:
        raise FileNotFoundError(
            f"the program {name} is not on the PATH; build it by calling ./{name} once in its repository, "
            f"and put that folder on the PATH or name the one of the built program in {FOLDER}"
        )
    return os.path.abspath(found)


def _runs(path: Path) -> bool:
    return path.is_file() and os.access(path, os.X_OK)
