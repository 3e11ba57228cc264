"""Theories checked for their pages: some at a time are visible, so that what is held of them stays small."""

from __future__ import annotations

from dataclasses import dataclass
from typing import Dict, Iterator, List, Mapping, Optional, Sequence

from ..changes import portions
from ..endings import ending_problem
from ..messages import Change, Insert, Item, Perspective
from ..replies import Snapshot
from ..reports import Report
from ..session import Session
from ..theories import Theory
from ..tokens import Aliases, aliases_of

MOST_AT_ONCE = 32
MOST_CHARACTERS = 1 << 18


@dataclass(frozen=True)
class Checked:
    """A theory's text, the aliases in force, its reports, and what is missing at its end as an error."""

    name: str
    text: str
    aliases: Aliases
    reports: Sequence[Report]
    ending: Optional[Report]


def batches(order: Sequence[str], nodes: Mapping[str, Theory]) -> Iterator[List[str]]:
    """The theories in their order, some at a time."""
    batch: List[str] = []
    size = 0
    for name in order:
        length = len(nodes[name].text)
        if batch and (len(batch) == MOST_AT_ONCE or size + length > MOST_CHARACTERS):
            yield batch
            batch, size = [], 0
        batch.append(name)
        size += length
    if batch:
        yield batch


def checked(
    session: Session, nodes: Mapping[str, Theory], order: Sequence[str], imports: Mapping[str, Sequence[str]]
) -> Iterator[Checked]:
    """Each theory, checked to its end with the states of all its commands, in the order."""
    aliases: Dict[str, Mapping[str, str]] = {}
    visible: List[str] = []
    for batch in batches(order, nodes):
        changes: Dict[str, Item] = {name: _opened(nodes[name].text) for name in batch}
        changes.update((name, Change((), Perspective(True))) for name in visible)
        _send(session, changes)
        visible = batch
        for name in batch:
            inherited = _inherited(aliases, imports[name])
            found = aliases_of(nodes[name].text, inherited)
            aliases[name] = found.targets
            yield _checked(name, nodes[name].text, found, session.snapshot(name))


def _opened(text: str) -> Change:
    edits = (Insert(0, text),) if text else ()
    return Change(edits, Perspective(True, ((0, len(text)),)))


def _send(session: Session, changes: Dict[str, Item]) -> None:
    """Makes a version with the changes, lets the older ones go, and waits until it is checked."""
    old = []
    for portion in portions(changes):
        old.append(session.version)
        session.update(portion)
    session.remove_versions(version for version in old if version)
    session.settle()


def _inherited(aliases: Mapping[str, Mapping[str, str]], imported: Sequence[str]) -> Dict[str, str]:
    """The aliases that imports hand on; of two of one name the first counts."""
    inherited: Dict[str, str] = {}
    for name in imported:
        for alias, target in aliases.get(name, {}).items():
            inherited.setdefault(alias, target)
    return inherited


def _checked(name: str, text: str, aliases: Aliases, snapshot: Snapshot) -> Checked:
    ending = ending_problem(text, snapshot, aliases.targets)
    problem = Report(ending.place, ending.place, "error", (), ending.text) if ending else None
    return Checked(name, text, aliases, tuple(snapshot.reports), problem)
