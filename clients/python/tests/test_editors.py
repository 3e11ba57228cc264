"""Editors themselves as clients of the language server, without a display: Neovim, and Emacs with eglot."""

import os
import shutil
import subprocess
import tempfile
import unittest
from pathlib import Path

from .program import TOP, environment, needs_program

EDITORS = Path(__file__).resolve().parent / "editors"
PATIENCE = 240


def has_eglot():
    """Whether there is an Emacs that has eglot."""
    if shutil.which("emacs") is None:
        return False
    words = ["emacs", "-q", "--batch", "--eval", "(progn (package-initialize) (require 'eglot))"]
    return subprocess.run(words, stdout=subprocess.DEVNULL, stderr=subprocess.DEVNULL).returncode == 0


@needs_program
class Editors(unittest.TestCase):
    def setUp(self):
        folder = tempfile.TemporaryDirectory()
        self.addCleanup(folder.cleanup)
        self.folder = Path(folder.name)
        (self.folder / "A.thy").write_text('theory A begin\naxiom a: "P"\nend\n')
        (self.folder / "B.thy").write_text('theory B imports A begin\nlemma d: "P"      by a\nend\n')

    def run_editor(self, words):
        state = {name: str(self.folder) for name in ("HOME", "XDG_STATE_HOME", "XDG_CACHE_HOME", "XDG_DATA_HOME")}
        keep = {"HOME": os.environ["HOME"]} if "HOME" in os.environ else {}
        environ = {**environment(), **state, **keep, "PIDE_NEOVIM": str(TOP / "clients" / "neovim")}
        ran = subprocess.run(words, cwd=self.folder, env=environ, stdin=subprocess.DEVNULL, stdout=subprocess.PIPE,
                             stderr=subprocess.STDOUT, timeout=PATIENCE)
        self.assertEqual(ran.returncode, 0, ran.stdout.decode("utf-8", "replace"))
        self.assertNotIn(b"failed", ran.stdout)
        self.assertGreaterEqual(ran.stdout.count(b"ok: "), 10)

    @unittest.skipUnless(shutil.which("nvim"), "Neovim isn't installed")
    def test_neovim(self):
        self.run_editor(["nvim", "--headless", "-u", "NONE", "-c", f"luafile {EDITORS / 'neovim.lua'}"])

    @unittest.skipUnless(has_eglot(), "Emacs with eglot isn't installed")
    def test_emacs_with_eglot(self):
        self.run_editor(["emacs", "-q", "--batch", "-l", str(EDITORS / "eglot.el")])


if __name__ == "__main__":
    unittest.main()
