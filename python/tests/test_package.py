"""The package itself: it is installed without a network, and types check where a checker is there."""

from __future__ import annotations

import subprocess
import sys
import tempfile
import unittest
import venv
import zipfile
from pathlib import Path

ROOT = Path(__file__).resolve().parents[1]


class Installing(unittest.TestCase):
    def test_pip_installs_it_without_a_network(self) -> None:
        with tempfile.TemporaryDirectory() as folder:
            try:
                venv.create(folder, with_pip=True)
            except (subprocess.CalledProcessError, OSError):
                self.skipTest("python3 -m venv makes no environment with pip here")
            python = str(Path(folder, "bin", "python"))
            for words in ([str(ROOT)], ["-e", str(ROOT)]):
                made = subprocess.run(
                    [python, "-m", "pip", "install", "--no-index", "--no-compile", "--force-reinstall", *words], capture_output=True, text=True
                )
                self.assertEqual(made.returncode, 0, made.stderr)
                told = subprocess.run(
                    [python, "-c", "import piperench; print(piperench.__file__, piperench.make.fir([1, 2], 4).model([3, 4]))"],
                    capture_output=True, text=True, cwd=folder, check=True,
                ).stdout
                self.assertTrue(told.endswith("[(3,), (10,)]\n"), told)
                self.assertEqual(told.startswith(str(ROOT)), "-e" in words, told)
            self.assertFalse(list(ROOT.glob("*.egg-info")) + list(ROOT.glob("build")))

    def test_a_wheel_has_the_package_and_nothing_else(self) -> None:
        sys.path.insert(0, str(ROOT / "backend"))
        try:
            import piperench_build
        finally:
            del sys.path[0]
        with tempfile.TemporaryDirectory() as folder:
            wheel = piperench_build.build_wheel(folder)
            with zipfile.ZipFile(Path(folder, wheel)) as archive:
                names = archive.namelist()
            source = piperench_build.build_sdist(folder)
            self.assertTrue(Path(folder, source).is_file())
        modules = {f"piperench/{path.name}" for path in (ROOT / "piperench").iterdir() if path.suffix in (".py", ".typed")}
        self.assertEqual({name for name in names if ".dist-info/" not in name}, modules)
