"""When diagnostics are published: as they become known, in few messages, and never of a text since changed."""

from __future__ import annotations

import time
from typing import Any, Callable, Dict, Iterator, List, NamedTuple, Optional, Set

from ..endings import Ending
from .diagnostics import Diagnostic, ending_of, problem_diagnostics, theory_diagnostics
from .documents import Document
from .workspace import Workspace

BETWEEN = 0.1

Notify = Callable[[str, Dict[str, Any]], None]


class _Published(NamedTuple):
    version: Optional[int]
    diagnostics: List[Diagnostic]


class Publisher:
    """Publishes what has changed: at once where nothing is pending, else a few times a second."""

    def __init__(self, workspace: Workspace, notify: Notify) -> None:
        self._workspace = workspace
        self._notify = notify
        self._published: Dict[str, _Published] = {}
        self._endings: Dict[str, Optional[Ending]] = {}
        self._unchecked: Set[str] = set()
        self._stale: Set[str] = set()
        self._all_are_stale = False
        self._last = 0.0
        self._since: Optional[float] = None

    def forget(self) -> None:
        """Notes that texts have come or gone, so that all has to be looked at."""
        self._all_are_stale = True
        self._note()

    def next_step(self) -> Optional[float]:
        """When `step` has something to do, if no event comes before."""
        return None if self._since is None else self._since + BETWEEN

    def step(self) -> None:
        """Publishes what is due."""
        workspace = self._workspace
        changed = workspace.engine.mirror.changed
        if changed:
            self._stale |= changed
            self._unchecked |= changed
            changed.clear()
            self._note()
        if not workspace.is_current:
            return
        if workspace.is_checked and self._unchecked:
            self._find_endings()
        if self._since is not None and (
            not workspace.engine.mirror.pending or time.monotonic() >= self._since + BETWEEN
        ):
            self._publish()

    def _note(self) -> None:
        if self._since is None:
            self._since = max(time.monotonic(), self._last)

    def _find_endings(self) -> None:
        """Looks at the ends of the theories that were checked again."""
        for name in self._unchecked:
            view = self._workspace.view(name)
            ending = ending_of(view) if view else None
            if ending != self._endings.get(name):
                self._endings[name] = ending
                self._stale.add(name)
                self._note()
        self._unchecked = set()

    def _publish(self) -> None:
        began = time.monotonic()
        for uri in self._uris():
            self._publish_text(uri)
        self._stale, self._all_are_stale, self._since = set(), False, None
        self._last = 2 * time.monotonic() - began

    def _uris(self) -> Set[str]:
        """The texts that are looked at now."""
        nodes = self._workspace.engine.nodes
        if not self._all_are_stale:
            return {nodes[name].source.uri for name in self._stale if name in nodes}
        return {*self._published, *self._workspace.project.problems, *(node.source.uri for node in nodes.values())}

    def _publish_text(self, uri: str) -> None:
        document = self._workspace.documents.get(uri)
        version = document.version if document else None
        found = list(self._diagnostics(uri, document))
        before = self._published.get(uri, _Published(None, []))
        if found == before.diagnostics and (version == before.version or not found):
            return
        self._published[uri] = _Published(version, found)
        params: Dict[str, Any] = {"uri": uri, "diagnostics": found}
        if version is not None:
            params["version"] = version
        self._notify("textDocument/publishDiagnostics", params)

    def _diagnostics(self, uri: str, document: Optional[Document]) -> Iterator[Diagnostic]:
        workspace = self._workspace
        problems = workspace.project.problems.get(uri, [])
        text = ""
        for node in workspace.engine.nodes.values():
            if node.source.uri == uri:
                view = workspace.view(node.name)
                assert view is not None
                yield from theory_diagnostics(view, self._endings.get(node.name))
                text = node.text
        if problems:
            yield from problem_diagnostics(document.text if document else text, problems, workspace.encoding)
