"""The repository: its crates, which crates each uses, and the mutants that stand beside them."""

from __future__ import annotations

import hashlib
import shutil
from dataclasses import dataclass
from pathlib import Path

from .edits import Mutant

PARTS = ("src", "specs", "proofs")
LET_THROUGH = "let-through"
NO_CRATES = ("runner", LET_THROUGH)


@dataclass(frozen=True)
class Repository:
    """The folder that has crates.txt, crates/ and mutants/, and for each crate its line of crates.txt."""

    top: Path
    lines: dict[str, str]

    @property
    def crates(self) -> Path:
        return self.top / "crates"

    def below(self, crate: str) -> list[str]:
        """Returns the repository's crates that a crate uses itself, in the order of its line."""
        return [name for name in self.lines[crate].split() if name in self.lines]


def read_repository(top: Path) -> Repository:
    """Reads crates.txt. Raises OSError where there is none."""
    lines: dict[str, str] = {}
    for line in (top / "crates.txt").read_text(encoding="utf-8").split("\n"):
        head, colon, used = line.partition("#")[0].partition(":")
        if colon and head.split():
            lines[head.split()[0]] = used
    return Repository(top, lines)


def mutants_of(repository: Repository, names: list[str]) -> list[Mutant]:
    """Returns the mutants with these names, of a crate or of one mutant, or all where there is no name; by crate
    and name."""
    found: list[Mutant] = []
    for folder, is_told in ((repository.top / "mutants", False), (repository.top / "mutants" / LET_THROUGH, True)):
        for edit in sorted(folder.glob("*/*.edit")):
            mutant = Mutant(edit.parent.name, edit, is_told)
            if mutant.crate not in NO_CRATES and (not names or mutant.crate in names or mutant.name in names):
                found.append(mutant)
    return sorted(found, key=lambda mutant: (mutant.crate, mutant.edit.name))


class Sums:
    """Sums of what a crate's check reads: its files, its line of crates.txt, and the sums of the crates below."""

    def __init__(self, repository: Repository, toolchain: str) -> None:
        self.repository = repository
        self.toolchain = toolchain
        self.of_crates: dict[str, str] = {}

    def of_crate(self, crate: str) -> str:
        """Returns a crate's sum. The chain of crates below is a few dozen long at most."""
        if crate not in self.of_crates:
            digest = hashlib.sha256(f"{self.toolchain}\n{crate}:{self.repository.lines[crate]}\n".encode())
            for below in self.repository.below(crate):
                digest.update(self.of_crate(below).encode())
            for part in PARTS:
                add_folder(digest, self.repository.crates / crate, part)
            self.of_crates[crate] = digest.hexdigest()
        return self.of_crates[crate]

    def of_mutant(self, mutant: Mutant) -> str:
        """Returns a mutant's sum: its crate's, with the edit's text."""
        digest = hashlib.sha256(self.of_crate(mutant.crate).encode())
        digest.update(mutant.edit.read_bytes())
        return digest.hexdigest()


def add_folder(digest: hashlib._Hash, crate: Path, part: str) -> None:
    """Adds the paths and bytes of a folder's files, each with its length."""
    for file in sorted((crate / part).rglob("*")):
        if file.is_file():
            content = file.read_bytes()
            digest.update(f"{file.relative_to(crate)} {len(content)}\n".encode())
            digest.update(content)


def copy_for(repository: Repository, mutants: list[Mutant], room: Path) -> None:
    """Copies crates/, crates.txt and HANDLES to a new folder, with these mutants' edits in place of all the
    crates' own must-fail edits. An edit of let-through/ has `told-` before its name there."""
    shutil.copytree(repository.crates, room / "crates", ignore=shutil.ignore_patterns("out", "must-fail"))
    for name in ("crates.txt", "HANDLES"):
        if (repository.top / name).is_file():
            shutil.copyfile(repository.top / name, room / name)
    for mutant in mutants:
        folder = room / "crates" / mutant.crate / "must-fail"
        folder.mkdir(exist_ok=True)
        shutil.copyfile(mutant.edit, folder / name_in_copy(mutant))


def name_in_copy(mutant: Mutant) -> str:
    """Returns the file name of a mutant's edit in a copy of the repository."""
    return f"told-{mutant.edit.name}" if mutant.is_told else mutant.edit.name
