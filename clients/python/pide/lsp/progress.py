"""Work in progress, as the client shows it: how many executions are finished, of how many."""

from __future__ import annotations

import time
from typing import Any, Callable, Dict, Optional

from .workspace import Workspace

PATIENCE = 0.3
BETWEEN = 0.25

Notify = Callable[[str, Dict[str, Any]], None]
Ask = Callable[[str, Dict[str, Any], Callable[[], None]], None]


class Progress:
    """Tells the client of checks that take a moment; quicker ones aren't told."""

    def __init__(self, workspace: Workspace, notify: Notify, ask: Ask) -> None:
        self.is_wanted = False
        self._workspace = workspace
        self._notify = notify
        self._ask = ask
        self._count = 0
        self._token: Optional[str] = None
        self._has_begun = False
        self._next: Optional[float] = None

    def next_step(self) -> Optional[float]:
        """When `step` has something to do, if no event comes before."""
        return self._next

    def step(self) -> None:
        """Begins, reports or ends what is shown."""
        if not self.is_wanted:
            return
        now = time.monotonic()
        if self._workspace.is_checked or not self._workspace.engine.is_running:
            self._end()
        elif self._next is None:
            self._next = now + PATIENCE
        elif now >= self._next:
            self._next = now + BETWEEN
            self._report()

    def _report(self) -> None:
        total = self._workspace.engine.mirror.count()
        done = total - len(self._workspace.engine.mirror.pending)
        if self._token is None:
            self._count += 1
            self._token = token = f"pide-{self._count}"
            self._ask("window/workDoneProgress/create", {"token": token}, lambda: self._begin(token))
        elif self._has_begun:
            percentage = 100 * done // total if total else 0
            self._tell({"kind": "report", "message": f"{done} of {total}", "percentage": percentage})

    def _begin(self, token: str) -> None:
        if token == self._token:
            self._has_begun = True
            self._tell({"kind": "begin", "title": "checking", "percentage": 0})

    def _end(self) -> None:
        if self._has_begun:
            self._tell({"kind": "end"})
        self._token, self._has_begun, self._next = None, False, None

    def _tell(self, value: Dict[str, Any]) -> None:
        self._notify("$/progress", {"token": self._token, "value": value})
