"""Builds the package, as PEP 517 and PEP 660 ask for it, with the standard library alone.

pip calls `build_wheel` for `pip install ./python`, and `build_editable` for `pip install -e ./python`.
"""

from __future__ import annotations

import base64
import hashlib
import io
import tarfile
import zipfile
from pathlib import Path

_HERE = Path(__file__).resolve().parents[1]
_TAG = "py3-none-any"


def get_requires_for_build_wheel(config_settings: object = None) -> list[str]:
    return []


get_requires_for_build_editable = get_requires_for_build_wheel
get_requires_for_build_sdist = get_requires_for_build_wheel


def build_wheel(wheel_directory: str, config_settings: object = None, metadata_directory: str | None = None) -> str:
    package = _HERE / "piperench"
    files = {
        str(path.relative_to(_HERE)): path.read_bytes() for path in sorted(package.rglob("*")) if path.suffix in (".py", ".typed")
    }
    files.setdefault("piperench/py.typed", b"")
    return _write_wheel(wheel_directory, files)


def build_editable(wheel_directory: str, config_settings: object = None, metadata_directory: str | None = None) -> str:
    return _write_wheel(wheel_directory, {"piperench.pth": f"{_HERE}\n".encode()})


def build_sdist(sdist_directory: str, config_settings: object = None) -> str:
    base = f"piperench-{_version()}"
    with tarfile.open(Path(sdist_directory) / f"{base}.tar.gz", "w:gz", format=tarfile.PAX_FORMAT) as archive:
        for name in ("pyproject.toml", "README.md", "backend/piperench_build.py"):
            archive.add(_HERE / name, f"{base}/{name}")
        for path in sorted((_HERE / "piperench").glob("*.py")) + [_HERE / "piperench" / "py.typed"]:
            archive.add(path, f"{base}/{path.relative_to(_HERE)}")
        _add_text(archive, f"{base}/PKG-INFO", _metadata())
    return f"{base}.tar.gz"


def _version() -> str:
    """The version that pyproject.toml tells; Python 3.10 has no reader of such files."""
    for line in (_HERE / "pyproject.toml").read_text().splitlines():
        if line.startswith("version = "):
            return line.split('"')[1]
    raise ValueError("pyproject.toml tells no version")


def _metadata() -> bytes:
    head = (
        "Metadata-Version: 2.1\n"
        "Name: piperench\n"
        f"Version: {_version()}\n"
        "Summary: Programs for virtualised stream pipelines, from Python\n"
        "License: MIT\n"
        "Requires-Python: >=3.10\n"
        "Description-Content-Type: text/markdown\n\n"
    )
    return head.encode() + (_HERE / "README.md").read_bytes()


def _write_wheel(folder: str, files: dict[str, bytes]) -> str:
    version = _version()
    info = f"piperench-{version}.dist-info"
    wheel = f"Wheel-Version: 1.0\nGenerator: piperench_build\nRoot-Is-Purelib: true\nTag: {_TAG}\n"
    files = {**files, f"{info}/METADATA": _metadata(), f"{info}/WHEEL": wheel.encode()}
    records = [f"{name},sha256={_hash(content)},{len(content)}\n" for name, content in files.items()]
    records.append(f"{info}/RECORD,,\n")
    name = f"piperench-{version}-{_TAG}.whl"
    with zipfile.ZipFile(Path(folder) / name, "w", zipfile.ZIP_DEFLATED) as archive:
        for path, content in files.items():
            archive.writestr(path, content)
        archive.writestr(f"{info}/RECORD", "".join(records))
    return name


def _hash(content: bytes) -> str:
    return base64.urlsafe_b64encode(hashlib.sha256(content).digest()).rstrip(b"=").decode()


def _add_text(archive: tarfile.TarFile, name: str, content: bytes) -> None:
    entry = tarfile.TarInfo(name)
    entry.size = len(content)
    archive.addfile(entry, io.BytesIO(content))
