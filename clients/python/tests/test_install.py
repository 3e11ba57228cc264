"""What `pip install` makes of the package, and what tools that read types say of it."""

import importlib.util
import os
import shutil
import subprocess
import sys
import tarfile
import tempfile
import unittest
import venv
import zipfile
from pathlib import Path

import build_backend
import pide

from .program import PYTHON

PIP = [sys.executable, "-m", "pip", "install", "-q", "--no-index", "--no-deps", "--no-build-isolation",
       "--disable-pip-version-check", "--no-warn-script-location"]


def tool(*names):
    """The path of the first of these programs that is there, or None."""
    return next(filter(None, map(shutil.which, names)), None)


class Archives(unittest.TestCase):
    def setUp(self):
        folder = tempfile.TemporaryDirectory()
        self.addCleanup(folder.cleanup)
        self.folder = Path(folder.name)

    def test_a_wheel_has_all_modules_and_runs(self):
        wheel = self.folder / build_backend.build_wheel(self.folder)
        with zipfile.ZipFile(wheel) as archive:
            names = set(archive.namelist())
        modules = {path.relative_to(PYTHON).as_posix() for path in (PYTHON / "pide").rglob("*.py")}
        self.assertLessEqual(modules | {"pide/py.typed", "pide/statuses.tsv"}, names)
        ran = subprocess.run(
            [sys.executable, "-m", "pide", "check", "--help"],
            cwd=self.folder, env={"PYTHONPATH": str(wheel)}, stdout=subprocess.PIPE, text=True, check=True,
        )
        self.assertIn("file:line:column", ran.stdout)

    def test_an_sdist_builds_the_same_wheel(self):
        sdist = self.folder / build_backend.build_sdist(self.folder)
        with tarfile.open(sdist) as archive:
            archive.extractall(self.folder)
        unpacked = self.folder / f"pide-{pide.__version__}"
        subprocess.run([sys.executable, "-c", "import build_backend; build_backend.build_wheel('.')"],
                       cwd=unpacked, check=True)
        build_backend.build_wheel(self.folder)
        self.assertEqual(contents(unpacked / build_backend.WHEEL), contents(self.folder / build_backend.WHEEL))

    def test_the_version_has_one_place(self):
        self.assertEqual(build_backend.VERSION, pide.__version__)
        self.assertNotIn(pide.__version__, (PYTHON / "pyproject.toml").read_text().replace("3.9", ""))


def contents(wheel):
    """The files of a wheel, each by its name."""
    with zipfile.ZipFile(wheel) as archive:
        return {name: archive.read(name) for name in archive.namelist()}


@unittest.skipUnless(importlib.util.find_spec("pip") and importlib.util.find_spec("ensurepip"), "there is no pip")
class Installed(unittest.TestCase):
    def test_pip_installs_it_and_its_script_offline(self):
        for words in ([], ["-e"]):
            with self.subTest(words), tempfile.TemporaryDirectory() as name:
                place = Path(name)
                venv.create(place / "env", with_pip=False)
                source = PYTHON if words else shutil.copytree(PYTHON, place / "source")
                python = place / "env" / "bin" / "python"
                subprocess.run([PIP[0], "-m", "pip", f"--python={python}", *PIP[3:], *words, str(source)], check=True)
                ran = subprocess.run([python.parent / "pide-client", "--version"], stdout=subprocess.PIPE, text=True,
                                     check=True, cwd=name, env={"PATH": os.environ["PATH"]})
                self.assertEqual(ran.stdout, f"pide {pide.__version__}\n")


class Types(unittest.TestCase):
    def clean(self, words):
        ran = subprocess.run(words, cwd=PYTHON, stdout=subprocess.PIPE, stderr=subprocess.STDOUT, text=True)
        self.assertEqual(ran.returncode, 0, ran.stdout)

    @unittest.skipUnless(tool("mypy"), "there is no mypy")
    def test_mypy_finds_nothing(self):
        with tempfile.TemporaryDirectory() as cache:
            self.clean([tool("mypy"), "--strict", "--cache-dir", cache, "pide"])

    @unittest.skipUnless(tool("pyflakes", "pyflakes3"), "there is no pyflakes")
    def test_pyflakes_finds_nothing(self):
        self.clean([tool("pyflakes", "pyflakes3"), "pide", "tests", "build_backend.py"])


if __name__ == "__main__":
    unittest.main()
