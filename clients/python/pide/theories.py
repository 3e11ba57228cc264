"""Theories in files, with what they import; lines and columns of their texts."""

from __future__ import annotations

import os
import re
import stat
import sys
from bisect import bisect_right
from dataclasses import dataclass, field
from functools import cached_property
from pathlib import Path
from typing import Dict, FrozenSet, Iterable, Iterator, List, Mapping, Optional, Sequence, Set, Tuple

from .display import shown, shown_path
from .headers import Header, header_of
from .messages import is_name

LONGEST_TEXT = 1 << 24
BYTE_ORDER_MARK = "\ufeff"
STANDARD_INPUT = Path("<standard input>")

_KINDS = (
    (stat.S_ISDIR, "a folder"),
    (stat.S_ISFIFO, "a FIFO"),
    (stat.S_ISSOCK, "a socket"),
    (lambda mode: stat.S_ISCHR(mode) or stat.S_ISBLK(mode), "a device"),
)


class Lines:
    """Places of a text as lines and columns, both from 1; columns count Unicode characters."""

    def __init__(self, text: str) -> None:
        self._text = text
        self._starts = [0] + [found.end() for found in re.finditer("\n", text)]

    def place(self, offset: int) -> Tuple[int, int]:
        """The line and the column of the character at the offset."""
        line = bisect_right(self._starts, offset)
        return line, offset - self._starts[line - 1] + 1

    def span(self, number: int) -> range:
        """The places of the line of that number, without its end."""
        begin = self._starts[number - 1]
        end = self._starts[number] - 1 if number < len(self._starts) else len(self._text)
        return range(begin, end - 1 if end > begin and self._text[end - 1] == "\r" else end)

    def line(self, number: int) -> str:
        """The line of that number, without its end."""
        span = self.span(number)
        return self._text[span.start : span.stop]


@dataclass(frozen=True)
class Theory:
    """A theory's file, and the text that it had."""

    path: Path
    text: str
    header: Optional[Header]

    @cached_property
    def lines(self) -> Lines:
        return Lines(self.text)


@dataclass(frozen=True)
class Problem:
    """What stands in the way of checking, at a line and column from 1 where these are known.

    Where it `fails` something that was asked for isn't checked; else it is a note, or an error of the theory tells
    of it too.
    """

    text: str
    path: Optional[Path] = None
    line: int = 0
    column: int = 0
    fails: bool = True

    def __str__(self) -> str:
        place = f":{self.line}:{self.column}" if self.line else ""
        return f"{shown_path(self.path)}{place}: {shown(self.text)}" if self.path else shown(self.text)


@dataclass
class Theories:
    """Theories by the names of their nodes, and what stands in the way of checking them."""

    nodes: Dict[str, Theory] = field(default_factory=dict)
    problems: List[Problem] = field(default_factory=list)

    @cached_property
    def aliases(self) -> Mapping[str, Mapping[str, str]]:
        """Of each node the aliases of commands that are in force in it, those of its imports too, and their targets.

        It is found once, when it is first asked for.
        """
        found: Dict[str, Mapping[str, str]] = {}
        for node in self._imports_first():
            header = self.nodes[node].header
            inherited = [found[name] for name, _ in header.imports if found.get(name)] if header else []
            own = dict(header.keywords) if header else {}
            if not own and all(aliases is inherited[0] for aliases in inherited):
                found[node] = inherited[0] if inherited else {}
            else:
                found[node] = {alias: word for aliases in (own, *inherited[::-1]) for alias, word in aliases.items()}
        return found

    def _imports_first(self) -> Iterator[str]:
        """The names of the nodes, each behind what it imports, circles aside."""
        seen: Set[str] = set()
        waiting = [(name, False) for name in reversed(self.nodes)]
        while waiting:
            name, is_done = waiting.pop()
            if is_done:
                yield name
            elif name in self.nodes and name not in seen:
                seen.add(name)
                waiting.append((name, True))
                header = self.nodes[name].header
                waiting += ((imported, False) for imported, _ in header.imports) if header else ()


def read_bytes(path: Path) -> bytes:
    """What stands in the file, or in standard input. Raises OSError, or ValueError where it isn't a regular file or
    is too long; then nothing of it is read."""
    if path == STANDARD_INPUT:
        if sys.stdin is None:
            raise ValueError("it is closed")
        return sys.stdin.buffer.read()
    status = path.stat()
    for is_kind, kind in _KINDS:
        if is_kind(status.st_mode):
            raise ValueError(f"it is {kind}, which isn't read")
    if status.st_size > LONGEST_TEXT:
        raise ValueError(f"it has {status.st_size:,} bytes, and at most {LONGEST_TEXT:,} are checked")
    return path.read_bytes()


def text_of(raw: bytes) -> str:
    """The text of these bytes, which are UTF-8, a byte order mark kept. Raises ValueError with what is wrong."""
    if len(raw) > LONGEST_TEXT:
        raise ValueError(f"it has {len(raw):,} bytes, and at most {LONGEST_TEXT:,} are checked")
    try:
        text = raw.decode()
    except UnicodeDecodeError as error:
        raise ValueError(f"it is no UTF-8 at byte {error.start}") from None
    if "\x05" in text or "\x06" in text:
        raise ValueError("it has the character 5 or 6, which can't be sent")
    return text


def theory_of(path: Path, text: str) -> Theory:
    """The theory of a file with this text, a byte order mark at its beginning left out."""
    text = text.removeprefix(BYTE_ORDER_MARK)
    return Theory(path, text, header_of(text))


def read_text(path: Path) -> str:
    """The text of a file, a byte order mark left out. Raises OSError, or ValueError with what is wrong."""
    return text_of(read_bytes(path)).removeprefix(BYTE_ORDER_MARK)


def read_theory(path: Path) -> Theory:
    """The theory of a file. Raises OSError, or ValueError with what is wrong."""
    return theory_of(path, text_of(read_bytes(path)))


def files_below(folder: Path, problems: List[Problem]) -> List[Path]:
    """The files NAME.thy of the folder and of the folders below it, ordered by their paths.

    Files and folders whose names begin with a dot are left out, and links to folders aren't followed. A folder that
    can't be read is a problem.
    """
    found: List[Path] = []

    def note(error: OSError) -> None:
        problems.append(Problem(error.strerror or str(error), Path(os.fsdecode(error.filename))))

    for top, folders, files in os.walk(folder, onerror=note):
        folders[:] = [name for name in folders if not name.startswith(".")]
        found += [Path(top, name) for name in files if name.endswith(".thy") and not name.startswith(".")]
    return sorted(found)


def load(paths: Iterable[Path], folders: Sequence[Path] = ()) -> Theories:
    """The theories of these files, and all that they import, directly or not.

    A folder stands for the files NAME.thy below it, and STANDARD_INPUT for what is read there. The node of a file has
    the name in its header, else the file's own, else Scratch. Of several given files with one name the first counts
    whose file is named so, else the first. An import is one of the given theories of this name, else the file
    NAME.thy in the folder of the file that imports it, else in one of the folders, the first first.
    """
    theories = Theories()
    readable = [folder for folder in folders if _is_folder(theories, folder)]
    found = [theory for path in _files_of(theories, paths) for theory in _read(theories, path)]
    _add_given(theories, found)
    waiting = list(theories.nodes.values())
    given = frozenset(theories.nodes)
    for theory in waiting:
        waiting += _add_imports(theories, theory, readable, given)
    return theories


def _is_folder(theories: Theories, folder: Path) -> bool:
    """Whether imports can be looked for there; where not, that is a problem."""
    try:
        os.scandir(folder).close()
    except OSError as error:
        theories.problems.append(Problem(error.strerror or str(error), folder))
        return False
    return True


def _files_of(theories: Theories, paths: Iterable[Path]) -> List[Path]:
    """The files, and those below what is a folder."""
    files: List[Path] = []
    for path in paths:
        if path == STANDARD_INPUT or not os.path.isdir(path):
            files.append(path)
            continue
        count = len(theories.problems)
        below = files_below(path, theories.problems)
        files += below
        if not below and len(theories.problems) == count:
            theories.problems.append(Problem("there is no file NAME.thy below this folder", path))
    return files


def _read(theories: Theories, path: Path, importer: Optional[Problem] = None) -> List[Theory]:
    """The theory of the file, or none and a problem, which is reported where it is imported."""
    try:
        text = text_of(read_bytes(path))
    except (OSError, ValueError) as error:
        reason = (error.strerror or str(error)) if isinstance(error, OSError) else str(error)
        theories.problems.append(_problem(importer or Problem("", path), reason))
        return []
    if text.startswith(BYTE_ORDER_MARK):
        theories.problems.append(Problem("the byte order mark at its beginning is left out", path, fails=False))
    return [theory_of(path, text)]


def _problem(where: Problem, reason: str, fails: bool = True) -> Problem:
    """The problem at the same place, the reason behind what is said already."""
    return Problem(": ".join(filter(None, (where.text, reason))), where.path, where.line, where.column, fails)


def _name_of(theory: Theory) -> str:
    names = [theory.header.name if theory.header else "", theory.path.stem]
    return next(filter(is_name, names), "Scratch")


def _add_given(theories: Theories, found: Sequence[Theory]) -> None:
    """Adds the given theories by their names; of several with one name all but one are left out, and told."""
    named: Dict[str, List[Theory]] = {}
    for theory in found:
        named.setdefault(_name_of(theory), []).append(theory)
    for name, candidates in named.items():
        chosen = next((theory for theory in candidates if theory.path.stem == name), candidates[0])
        theories.nodes[name] = chosen
        for other in candidates:
            if not _is_same_file(other.path, chosen.path):
                text = f"it is left out, since {shown_path(chosen.path)} is the theory {name} too"
                theories.problems.append(Problem(text, other.path))


def _add_imports(
    theories: Theories, theory: Theory, folders: Sequence[Path], given: FrozenSet[str]
) -> List[Theory]:
    """Adds what a theory imports and isn't there yet."""
    added = []
    for name, place in theory.header.imports if theory.header else ():
        if name in given:
            continue
        where = Problem(f"import {name}", theory.path, *theory.lines.place(place))
        path = _find(name, _folder_of(theory.path), folders)
        other = theories.nodes.get(name)
        if path is None:
            theories.problems.append(_problem(where, f"there is no file {name}.thy", fails=False))
        elif other is None:
            for found in _read(theories, path, where):
                theories.nodes[name] = found
                added.append(found)
        elif not _is_same_file(other.path, path):
            reason = f"it is taken from {shown_path(other.path)}, not from {shown_path(path)}"
            theories.problems.append(_problem(where, reason))
    return added


def _folder_of(path: Path) -> Path:
    return Path() if path == STANDARD_INPUT else path.parent


def _is_same_file(one: Path, other: Path) -> bool:
    return one == other or os.path.realpath(one) == os.path.realpath(other)


def _find(name: str, folder: Path, folders: Sequence[Path]) -> Optional[Path]:
    paths = [place / f"{name}.thy" for place in (folder, *folders)]
    return next((path for path in paths if os.path.exists(path)), None)
