"""The sources that the program is proved from, and their sums, by which a built program is known to be theirs."""

from __future__ import annotations

import hashlib
import os
from dataclasses import dataclass
from pathlib import Path
from typing import Dict, FrozenSet, Iterator, List, Mapping, Tuple

PROGRAM = "pide_main"
PARTS = ("src", "specs", "proofs")
COMMENT_SIGNS = {".rt": "//", ".antt": "-- "}

Stamp = str


@dataclass(frozen=True)
class Layout:
    """The lines of crates.txt: what each crate uses, lowest crate first, and the line itself."""

    uses: Mapping[str, FrozenSet[str]]
    lines: Mapping[str, str]

    def needed(self, program: str = PROGRAM) -> List[str]:
        """The crates that a program is made of, itself last: a crate stands in crates.txt above all that use it."""
        wanted = {program}
        for name in reversed(list(self.uses)):
            if name in wanted:
                wanted |= self.uses[name] & self.uses.keys()
        return [name for name in self.uses if name in wanted]


def read_layout(top: Path) -> Layout:
    """The crates of the checkout at this folder."""
    uses: Dict[str, FrozenSet[str]] = {}
    lines: Dict[str, str] = {}
    for line in (top / "crates.txt").read_text().splitlines():
        head, colon, libraries = line.partition("#")[0].partition(":")
        if colon:
            name = head.split()[0]
            uses[name] = frozenset(libraries.split())
            lines[name] = f"{head.strip()}: {' '.join(libraries.split())}"
    return Layout(uses, lines)


def files_of(top: Path, crates: List[str]) -> Iterator[Tuple[str, Stamp]]:
    """The files that the proof of these crates reads, as paths below the checkout, with their stamps."""
    folders = [f"crates/{crate}/{part}" for crate in crates for part in PARTS]
    for folder in folders:
        if not os.path.isdir(f"{top}/{folder}"):
            continue
        with os.scandir(f"{top}/{folder}") as entries:
            for entry in entries:
                if entry.is_dir():
                    folders.append(f"{folder}/{entry.name}")
                else:
                    yield f"{folder}/{entry.name}", stamp_of(entry.stat())


def stamp_of(status: os.stat_result) -> Stamp:
    """When a file was written, its size and its number: the same stamp means the same content."""
    return f"{status.st_mtime_ns} {status.st_size} {status.st_ino}"


def proved_text(path: str, text: str) -> str:
    """The text without blank lines and lines that are comments, neither of which the prover sees.

    Where such a line could stand within something longer (a block comment, a text of several lines), all is kept.
    """
    sign = COMMENT_SIGNS.get(os.path.splitext(path)[1])
    if sign is None or _may_span_lines(text):
        return text
    lines = (line.rstrip() for line in text.splitlines())
    return "\n".join(line for line in lines if line and not (line.lstrip() + " ").startswith(sign))


def _may_span_lines(text: str) -> bool:
    if any(sign in text for sign in ("/*", "{-", 'r"', 'r#"')):
        return True
    plain = text.replace("\\\\", "").replace('\\"', "").replace("'\"'", "")
    return any(line.count('"') % 2 for line in plain.splitlines() if not line.lstrip().startswith("//"))


def sum_of(path: str, content: bytes) -> str:
    """The sum of a file's content, as far as the prover sees it."""
    text = content.decode("utf-8", "surrogateescape")
    return hashlib.sha256(proved_text(path, text).encode("utf-8", "surrogateescape")).hexdigest()


class Sums:
    """The sums of the program's sources. A file is read anew only where its stamp has changed."""

    def __init__(self, top: Path, known: Mapping[str, Tuple[Stamp, str]]) -> None:
        layout = read_layout(top)
        crates = layout.needed()
        self.files: Dict[str, Tuple[Stamp, str]] = {}
        for path, stamp in files_of(top, crates):
            before, found = known.get(path, ("", ""))
            self.files[path] = stamp, found if before == stamp else sum_of(path, (top / path).read_bytes())
        handles = (top / "HANDLES").read_text()
        lines = [layout.lines[name] for name in crates]
        self.parts: Dict[str, str] = {path: found for path, (_, found) in self.files.items()}
        self.parts["crates.txt"] = hashlib.sha256("\n".join(lines).encode()).hexdigest()
        self.parts["HANDLES"] = hashlib.sha256(handles.encode()).hexdigest()

    @property
    def whole(self) -> str:
        """One sum of all."""
        told = "\n".join(f"{path} {found}" for path, found in sorted(self.parts.items()))
        return hashlib.sha256(told.encode("utf-8", "surrogateescape")).hexdigest()
