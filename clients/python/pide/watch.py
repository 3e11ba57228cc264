"""Watches a folder's theories, and checks again what a saved file changes; what stays valid is kept."""

from __future__ import annotations

import argparse
import os
from dataclasses import dataclass
from pathlib import Path
from typing import TYPE_CHECKING, Callable, Dict, List, NoReturn, Optional, Sequence, Set, Tuple, Union

from .changes import edits_between, portions
from .check import count_words, print_causes, print_problems
from .display import shown_path
from .errors import PideError, ProgramError
from .file_changes import Inotify, Looks
from .findings import Cause, Checked, causes_of, checked_of, counted
from .messages import Change, Close, Item, opened
from .output import tell, write_lines
from .session import Session, find_program
from .theories import Problem, Theories, Theory, load

if TYPE_CHECKING:
    from .commands import Commands


@dataclass(frozen=True)
class Round:
    """What a look at the files found: the theories that were checked again, what is found in these, problems that
    are new, and all that is found in all theories."""

    checked: Tuple[str, ...]
    causes: Tuple[Cause, ...]
    problems: Tuple[Problem, ...]
    all_causes: Tuple[Cause, ...]
    theories: int


class Watcher:
    """Keeps a session in step with the theories below a folder, and with what they import.

    `start` starts a session. Where its program ends, the next look starts another one and checks all anew.
    """

    def __init__(self, start: Callable[[], Session], folder: Path, folders: Sequence[Path] = ()) -> None:
        self._start = start
        self._folder = folder
        self._folders = folders
        self._session: Optional[Session] = None
        self._theories = Theories()
        self._problems: Set[Problem] = set()
        self._found: Dict[str, Checked] = {}

    def look(self) -> Optional[Round]:
        """Checks what has changed in the files since the last look; None where nothing has.

        Raises ProgramError where the program can't be started or has ended; what was checked is then forgotten.
        """
        if self._session is not None and self._session.has_ended:
            self._raise_end(self._session)
        after = load([self._folder], self._folders)
        is_first = self._session is None
        changes = changes_between(Theories() if is_first else self._theories, after)
        new = tuple(problem for problem in after.problems if problem not in self._problems)
        if not (is_first or changes or self._problems != set(after.problems)):
            return None
        try:
            touched = self._send(changes)
            self._theories, self._problems = after, set(after.problems)
            self._found = {name: checked for name, checked in self._found.items() if name in after.nodes}
            self._found.update((name, self._checked(name)) for name in touched)
        except ProgramError:
            self.stop()
            raise
        return self._round(touched, new)

    def _raise_end(self, session: Session) -> NoReturn:
        """Raises why the program has ended while nothing was asked of it."""
        try:
            session.close()
        finally:
            self.stop()
        raise ProgramError("the program has ended")

    def stop(self) -> None:
        """Ends the program, and forgets what was checked."""
        session, self._session = self._session, None
        self._theories, self._found = Theories(), {}
        if session is not None:
            session.kill()

    def folders(self) -> Set[str]:
        """The folders in which files may change: those of theories, and those where imports are looked for."""
        found = {str(self._folder), *map(str, self._folders)}
        for top, folders, _ in os.walk(self._folder):
            folders[:] = [name for name in folders if not name.startswith(".")]
            found.update(os.path.join(top, name) for name in folders)
        for theory in self._theories.nodes.values():
            found.update((os.path.dirname(theory.path) or ".", os.path.dirname(os.path.realpath(theory.path))))
        return found

    def _round(self, touched: Sequence[str], new: Tuple[Problem, ...]) -> Round:
        causes = causes_of(self._found)
        names = set(touched)
        shown = [cause for cause in causes
                 if cause.first.node in names or any(finding.node in names for finding in cause.behind)]
        return Round(tuple(touched), tuple(shown), new, tuple(causes), len(self._theories.nodes))

    def _send(self, changes: Dict[str, Item]) -> List[str]:
        """Sends the changes, waits until they are checked, and gives the theories that were touched, ordered."""
        if self._session is None:
            self._session = self._start()
        touched = {name for name, change in changes.items() if isinstance(change, Change)}
        old = []
        for portion in portions(changes):
            old.append(self._session.version)
            assigned = self._session.update(portion)
            touched.update(name for name, _ in assigned.nodes)
        self._session.remove_versions(version for version in old if version)
        if changes:
            self._session.settle()
        closed = {name for name, change in changes.items() if isinstance(change, Close)}
        return sorted(touched - closed)

    def _checked(self, name: str) -> Checked:
        assert self._session is not None
        snapshot = self._session.snapshot(name)
        if not snapshot.is_whole:
            raise PideError(f"the theory {name} isn't checked to its end")
        return checked_of(name, self._theories, snapshot)


def changes_between(before: Theories, after: Theories) -> Dict[str, Item]:
    """What makes the one theories of the others: texts by edits, new ones whole, others closed."""
    changes: Dict[str, Item] = {name: Close() for name in before.nodes if name not in after.nodes}
    for name, theory in after.nodes.items():
        old: Optional[Theory] = before.nodes.get(name)
        if old is None:
            changes[name] = opened(theory.text)
        elif old.text != theory.text:
            changes[name] = Change(edits_between(old.text, theory.text))
    return changes


def print_round(found: Round) -> None:
    """Prints what was checked again, the errors of it, and a total."""
    print_problems(found.problems)
    print_causes(found.causes)
    errors = sum(1 + len(cause.behind) for cause in found.causes)
    names = found.checked if len(found.checked) <= 5 else (*found.checked[:4], f"{len(found.checked) - 4:,} more")
    total = count_words(found.all_causes, found.theories)
    write_lines([f"checked {', '.join(names) or 'nothing'}: {counted(errors, 'error')}; {total}"])


class _Wake:
    """A pipe that can be read once the program has ended."""

    def __init__(self) -> None:
        self.reading, self._writing = os.pipe()
        os.set_blocking(self.reading, False)

    def wake(self) -> None:
        os.write(self._writing, b"x")

    def clear(self) -> None:
        """Takes what was written, so that it can be waited for again."""
        try:
            os.read(self.reading, 1 << 10)
        except BlockingIOError:
            pass


def _round(watcher: Watcher) -> bool:
    """Looks, and prints what is found. A program that ends meanwhile is started once more; False where that ends
    too."""
    for is_last in (False, True):
        try:
            found = watcher.look()
        except ProgramError as error:
            tell(f"{error}; {'it is started when a file changes' if is_last else 'it is started anew'}")
            continue
        if found is not None:
            print_round(found)
        return True
    return False


def _changes() -> Union[Inotify, Looks]:
    """What tells of changes: inotify where it is there."""
    try:
        return Inotify()
    except OSError:
        return Looks()


def run(asked: argparse.Namespace) -> int:
    """Watches the folder until it is interrupted."""
    if not asked.folder.is_dir():
        raise PideError(f"{shown_path(asked.folder)} is no folder")
    find_program(asked.program)
    wake = _Wake()
    watcher = Watcher(lambda: Session(asked.program, on_end=wake.wake), asked.folder, asked.folders)
    try:
        _watch(watcher, wake)
    finally:
        watcher.stop()


def _watch(watcher: Watcher, wake: _Wake) -> NoReturn:
    changes = _changes()
    while True:
        while changes.watch(watcher.folders()):
            _look(watcher, wake)
        changes.wait(wake.reading)
        wake.clear()
        _look(watcher, wake)


def _look(watcher: Watcher, wake: _Wake) -> None:
    """A round. Where the program has ended twice nothing more is heard of it, and a change of files is waited for."""
    if not _round(watcher):
        wake.clear()


def add_command(commands: Commands, common: argparse.ArgumentParser) -> None:
    """Adds the command to those of the command line."""
    parser = commands.add_parser(
        "watch",
        parents=[common],
        help="check again what a saved file changes",
        description="Checks the theories below a folder, and again what a saved file changes.",
    )
    parser.add_argument("folder", metavar="FOLDER", type=Path)
    parser.set_defaults(run=run)
