"""Which theories are sent: the open texts, and what they import, from open texts first and then from files."""

from __future__ import annotations

from dataclasses import dataclass, field
from pathlib import Path
from typing import Dict, Iterable, Iterator, List, Mapping, NamedTuple, Optional, Sequence, Set, Tuple, Union

from ..headers import Header, header_of
from ..messages import is_name
from ..theories import read_text
from ..tokens import aliases_of
from .documents import Document

Stamp = Tuple[int, int, int]


@dataclass(frozen=True)
class FileText:
    """A theory's file that isn't open, as it was when it was read; `fault` says why it can't be sent."""

    path: Path
    uri: str
    text: str
    header: Optional[Header]
    fault: Optional[str] = None


Source = Union[Document, FileText]


class Problem(NamedTuple):
    """What stands in the way of a text at a range of it."""

    start: int
    stop: int
    text: str


@dataclass
class Project:
    """The theories by the names of their nodes, the aliases that their imports hand on, and the problems by URI."""

    sources: Dict[str, Source] = field(default_factory=dict)
    problems: Dict[str, List[Problem]] = field(default_factory=dict)
    inherited: Dict[str, Dict[str, str]] = field(default_factory=dict)

    def add_problem(self, source: Source, problem: Problem) -> None:
        """Notes a problem of a text."""
        self.problems.setdefault(source.uri, []).append(problem)

    def imports(self, name: str) -> List[str]:
        """The names of what a theory imports that are theories here."""
        source = self.sources.get(name)
        return [imported for imported, _ in imports_of(source) if imported in self.sources] if source else []

    def with_imports(self, name: str) -> List[str]:
        """The theory and all that it imports, directly or not, the nearest first."""
        found = [name]
        seen = {name}
        for theory in found:
            new = [imported for imported in self.imports(theory) if imported not in seen]
            found += dict.fromkeys(new)
            seen.update(new)
        return found

    def dependents(self, name: str) -> Set[str]:
        """The theories that import a theory, directly or not."""
        importers: Dict[str, List[str]] = {}
        for importer in self.sources:
            for imported in self.imports(importer):
                importers.setdefault(imported, []).append(importer)
        found, waiting = set(), [name]
        while waiting:
            new = [importer for importer in importers.get(waiting.pop(), ()) if importer not in found]
            found.update(new)
            waiting += new
        return found


def imports_of(source: Source) -> Tuple[Tuple[str, int], ...]:
    """What a text imports, each name with its place."""
    return source.header.imports if source.header else ()


class Files:
    """Files as they were when they were last read; one that has changed since is read anew."""

    def __init__(self) -> None:
        self._read: Dict[Path, Tuple[Optional[Stamp], FileText]] = {}

    def text(self, path: Path) -> FileText:
        """The file as it is now."""
        stamp = stamp_of(path)
        known = self._read.get(path)
        if known is None or known[0] != stamp:
            known = self._read[path] = stamp, _read_file(path)
        return known[1]

    def have_changed(self) -> bool:
        """Whether a file that was read has another stamp now."""
        return any(stamp_of(path) != stamp for path, (stamp, _) in self._read.items())


def stamp_of(path: Path) -> Optional[Stamp]:
    """When a file was written, its size and its number; None where it isn't there."""
    try:
        status = path.stat()
    except OSError:
        return None
    return status.st_mtime_ns, status.st_size, status.st_ino


def _read_file(path: Path) -> FileText:
    uri = path.absolute().as_uri()
    try:
        text = read_text(path)
    except OSError as error:
        return FileText(path, uri, "", None, error.strerror or "it can't be read")
    except ValueError as error:
        return FileText(path, uri, "", None, str(error))
    return FileText(path, uri, text, header_of(text))


def project_of(documents: Sequence[Document], files: Files, folders: Sequence[Path]) -> Project:
    """The theories of open texts and all that they import.

    An import is an open text of this name, else NAME.thy in the folder of the text that imports it, else in one of
    the folders, the first first.
    """
    project = Project()
    for document in documents:
        name = _name_of(document)
        other = project.sources.setdefault(name, document)
        if other is not document:
            project.add_problem(document, _at_name(document, f"it isn't checked: {other.uri} is the theory {name} too"))
    waiting = list(project.sources.values())
    for source in waiting:
        waiting += _imported(project, source, files, folders)
    ordered = _in_order(project)
    for name in project.sources:
        if name not in ordered:
            _add_cycle(project, name, project.sources[name])
    _hand_on_aliases(project, ordered)
    return project


def _name_of(document: Document) -> str:
    """The name in the header, else that of the file, else Scratch."""
    names = [document.header.name if document.header else "", document.path.stem if document.path else ""]
    return next(filter(is_name, names), "Scratch")


def _at_name(source: Source, text: str) -> Problem:
    """A problem at the theory's name, or at the text's start where it has no header."""
    header = source.header
    return Problem(header.place, header.place + len(header.name), text) if header else Problem(0, 0, text)


def _imported(project: Project, source: Source, files: Files, folders: Sequence[Path]) -> Iterator[Source]:
    """Adds what a theory imports and isn't there yet."""
    for name, place in imports_of(source):
        path = _find(name, source.path, folders)
        known = project.sources.get(name)
        at = (place, place + len(name))
        if isinstance(known, Document):
            continue
        if path is None:
            project.add_problem(source, Problem(*at, f"there is no file {name}.thy"))
        elif known is not None and known.path != path:
            project.add_problem(source, Problem(*at, f"{name} is taken from {known.path}, not from {path}"))
        elif known is None:
            found = files.text(path)
            if found.fault is None:
                project.sources[name] = found
                yield found
            else:
                project.add_problem(source, Problem(*at, f"{path}: {found.fault}"))
                project.problems[found.uri] = [Problem(0, 0, found.fault)]


def _find(name: str, importer: Optional[Path], folders: Sequence[Path]) -> Optional[Path]:
    places = ([importer.parent] if importer else []) + list(folders)
    return next((path for path in (place / f"{name}.thy" for place in places) if path.is_file()), None)


def _in_order(project: Project) -> Dict[str, None]:
    """The theories that import no cycle, each behind all that it imports."""
    missing = {name: set(project.imports(name)) for name in project.sources}
    ready = [name for name, imports in missing.items() if not imports]
    importers: Dict[str, List[str]] = {}
    for name, imports in missing.items():
        for imported in imports:
            importers.setdefault(imported, []).append(name)
    for name in ready:
        for importer in importers.get(name, ()):
            missing[importer].discard(name)
            if not missing[importer]:
                ready.append(importer)
    return dict.fromkeys(ready)


def _hand_on_aliases(project: Project, ordered: Iterable[str]) -> None:
    """Notes the aliases that each theory has from its imports; none where one of these, or of theirs, is missing."""
    in_force: Dict[str, Mapping[str, str]] = {}
    for name in ordered:
        source = project.sources[name]
        imports = [imported for imported, _ in imports_of(source)]
        if all(imported in in_force for imported in imports):
            inherited: Dict[str, str] = {}
            for imported in imports:
                for word, target in in_force[imported].items():
                    inherited.setdefault(word, target)
            project.inherited[name] = inherited
            in_force[name] = aliases_of(source.text, inherited).targets


def _add_cycle(project: Project, name: str, source: Source) -> None:
    """Adds a problem at each import by which a theory imports itself."""
    for imported, place in imports_of(source):
        if imported in project.sources and name in project.with_imports(imported):
            project.add_problem(source, Problem(place, place + len(imported), f"{imported} imports {name}, a cycle"))
