"""What is looked at: open texts are required; behind a keystroke in a long text what stands near it comes first.

While a person types in a long text, that text and those that import it are only wanted to some commands behind the
last change. When that is checked and nothing has been typed for a moment, all that is open is required again. What
the engine has evaluated it keeps. The moment is as long as it took to check all of it the last time.
"""

from __future__ import annotations

import time
from typing import Dict, List, Optional, Set, Tuple

from ..messages import Perspective
from .documents import Document, Mark
from .node import Node
from .project import Project

LONG = 400
REACH = 40
SHORTEST_PAUSE = 0.3
LONGEST_PAUSE = 2.0
LONGEST_NARROW = 10.0


class Perspectives:
    """What is looked at in each theory: `asked` are the places of requests, the newest last."""

    def __init__(self) -> None:
        self.asked: Dict[str, List[Mark]] = {}
        self._narrow: Set[str] = set()
        self._edit: Optional[Tuple[str, Mark]] = None
        self._edited_at = 0.0
        self._widened_at: Optional[float] = time.monotonic()
        self._pause = LONGEST_PAUSE

    @property
    def is_narrow(self) -> bool:
        """Whether some open text is only wanted in part for now."""
        return bool(self._narrow)

    def note_edit(self, name: str, place: Mark, nodes: Dict[str, Node], project: Project) -> None:
        """Notes that something was typed in a theory at the place."""
        self._edited_at = time.monotonic()
        self._widened_at = None
        self._edit = (name, place)
        dependents = project.dependents(name)
        node = nodes.get(name)
        behind = len(node.cut) - node.cut.at(place.place) if node else 0
        if behind + sum(len(nodes[other].cut) for other in dependents if other in nodes) > LONG:
            self._narrow = {name, *dependents}
        elif name not in self._narrow:
            self._narrow = set()

    def widen(self, is_checked: bool) -> None:
        """Requires all that is open again, where nothing has been typed for a moment, or for long."""
        now = time.monotonic()
        silence = now - self._edited_at
        if self._narrow and (is_checked and silence >= self._pause or silence >= LONGEST_NARROW):
            self._narrow = set()
            self._widened_at = now
        elif not self._narrow and self._widened_at is not None and is_checked:
            self._pause = min(max(SHORTEST_PAUSE, now - self._widened_at), LONGEST_PAUSE)
            self._widened_at = None

    def next_look(self, is_checked: bool) -> Optional[float]:
        """When `widen` may do something."""
        return self._edited_at + (self._pause if is_checked else LONGEST_NARROW) if self._narrow else None

    def of(self, node: Node) -> Perspective:
        """What is looked at in a theory."""
        is_open = isinstance(node.source, Document)
        ranges = {_command_at(node, mark.place) for mark in self.asked.get(node.name, ())}
        if node.name in self._narrow and self._edit and self._edit[0] == node.name:
            ranges.add(_reach(node, self._edit[1].place))
        required = is_open and node.name not in self._narrow
        return Perspective(required, tuple(sorted(found for found in ranges if found)))


def _command_at(node: Node, place: int) -> Optional[Tuple[int, int]]:
    """The last command that begins at or before the place."""
    return _command(node, node.cut.at(place))


def _reach(node: Node, place: int) -> Optional[Tuple[int, int]]:
    """The last command that is wanted behind a change at the place."""
    return _command(node, min(node.cut.at(place) + REACH, len(node.cut) - 1))


def _command(node: Node, number: int) -> Optional[Tuple[int, int]]:
    if not 0 <= number < len(node.cut):
        return None
    span = node.cut.span(number)
    return span.start, span.stop
