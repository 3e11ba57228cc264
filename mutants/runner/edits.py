"""Edits: files that each change a few lines of one crate's bodies."""

from __future__ import annotations

import re
from dataclasses import dataclass
from pathlib import Path

NAME = re.compile(r"[A-Za-z0-9_-][A-Za-z0-9_.-]*\.edit")


class BadEdit(Exception):
    """An edit that cannot be applied; the message says why."""


@dataclass(frozen=True)
class Change:
    """One line of a file, in place of another."""

    file: str
    old: str
    new: str


@dataclass(frozen=True)
class Mutant:
    """A crate with one edit applied."""

    crate: str
    edit: Path
    is_told: bool
    """Whether it stands under let-through/: it is known to be proved all the same."""

    @property
    def name(self) -> str:
        return f"{self.crate}/{self.edit.stem}"


def changes_of(text: str) -> list[Change]:
    """Returns the changes that an edit's text lists. Raises BadEdit where a line stands out of place."""
    changes: list[Change] = []
    file, old = "", ""
    for line in text.split("\n"):
        word, _, rest = line.partition(":")
        rest = rest[1:] if rest.startswith(" ") else rest
        if word == "file":
            file = source_file(rest.strip())
        elif word == "old":
            old = rest
        elif word == "new":
            if not file or not old:
                raise BadEdit("a 'new:' line stands before any 'file:' or 'old:' line")
            changes.append(Change(file, old, rest))
            old = ""
    if not changes:
        raise BadEdit("it has no pair of lines 'old:' and 'new:'")
    return changes


def source_file(path: str) -> str:
    """Returns a path below src/. Raises BadEdit for another: a mutant changes bodies alone."""
    parts = path.split("/")
    if parts[0] != "src" or not path.endswith(".rt") or ".." in parts:
        raise BadEdit(f"{path or 'its file'} is no .rt file below src/")
    return path


def applied(changes: list[Change], folder: Path) -> dict[str, str]:
    """Returns the changed files' texts, by their paths in the crate's folder. Raises BadEdit where a change
    does not apply: its old text has to stand once in what the changes before it made of the file."""
    before: dict[str, str] = {}
    texts: dict[str, str] = {}
    for change in changes:
        if change.file not in texts:
            before[change.file] = texts[change.file] = text_of(folder / change.file)
        count = texts[change.file].count(change.old)
        if count != 1:
            raise BadEdit(f"its old text stands {count} times in {change.file}, and not once: {change.old.strip()}")
        texts[change.file] = texts[change.file].replace(change.old, change.new)
    if texts == before:
        raise BadEdit("it changes nothing")
    return texts


def text_of(file: Path) -> str:
    """Returns a file's text. Raises BadEdit where there is none."""
    try:
        return file.read_text(encoding="utf-8")
    except (OSError, UnicodeDecodeError) as error:
        raise BadEdit(f"{file.name} cannot be read: {error}") from error


def why_not(mutant: Mutant, crates: Path) -> str | None:
    """Returns why a mutant's edit cannot be applied to its crate, or None where it can."""
    try:
        if not NAME.fullmatch(mutant.edit.name):
            raise BadEdit("its name is not of letters, digits, _, -, . with .edit behind")
        applied(changes_of(text_of(mutant.edit)), crates / mutant.crate)
    except BadEdit as error:
        return str(error)
    return None
