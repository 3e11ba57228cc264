"""A repository of two crates in a temporary folder, and a script that stands in for the toolchain."""

from __future__ import annotations

import stat
import tempfile
import unittest
from pathlib import Path

from runner.edits import Mutant
from runner.repository import LET_THROUGH, Repository, mutants_of, read_repository

BODY = "pub fn answer() -> u64 {\n    42\n}\n"
EDIT = "file: src/lib.rt\nold:     42\nnew:     41\n"

RT = """#!/bin/sh
[ "$1" = version ] && { echo kit-1; exit 0; }
echo "$2" >> "$CALLS"
ls crates/*/must-fail >> "$CALLS"
sleep "${SLEEP:-0}"
for edit in crates/"$2"/must-fail/*.edit; do
  name=${edit##*/}
  case $name in
    *passes*) echo "rt: must-fail $2/$name: NOT REFUSED: the crate is still proved with this edit" ;;
    *broken*) echo "rt: must-fail $2/$name: BAD EDIT: it did not reach the prover" ;;
    *killed*) echo "rt: must-fail $2/$name: NOT TRIED: its check was killed" ;;
    *) echo "rt: must-fail $2/$name: refused, as it must be: src/lib.rt:2:5: error: no" ;;
  esac
done
"""


class RepositoryCase(unittest.TestCase):
    """A test with a repository of the crates `low` and `high`, which uses `low`."""

    def setUp(self) -> None:
        room = tempfile.TemporaryDirectory()
        self.addCleanup(room.cleanup)
        self.room = Path(room.name)
        self.top = self.room / "repository"
        self.write("crates.txt", "# By layer.\nlow: sqlite_items\nhigh: low\n")
        self.write("HANDLES", "Handles allowed: none.\n")
        for crate in ("low", "high"):
            self.write(f"crates/{crate}/src/lib.rt", BODY)
            self.write(f"crates/{crate}/must-fail/own.edit", EDIT)
        self.write("crates/low/out/kept", "")

    def write(self, path: str, text: str) -> Path:
        file = self.top / path
        file.parent.mkdir(parents=True, exist_ok=True)
        file.write_text(text, encoding="utf-8")
        return file

    def add_mutant(self, crate: str, name: str, text: str = EDIT, is_told: bool = False) -> None:
        folder = f"mutants/{LET_THROUGH}" if is_told else "mutants"
        self.write(f"{folder}/{crate}/{name}.edit", text)

    def repository(self) -> Repository:
        return read_repository(self.top)

    def mutants(self, *names: str) -> list[Mutant]:
        return mutants_of(self.repository(), list(names))

    def toolchain(self) -> str:
        """Writes the script that stands in for `rt`, and returns its path."""
        script = self.room / "rt"
        script.write_text(RT.replace("$CALLS", str(self.room / "calls")), encoding="ascii")
        script.chmod(script.stat().st_mode | stat.S_IXUSR)
        return str(script)

    def calls(self) -> list[str]:
        """Returns the lines that the script wrote down: each crate it was asked for, and the edits it saw."""
        file = self.room / "calls"
        return file.read_text(encoding="ascii").split() if file.is_file() else []
