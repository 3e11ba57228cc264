"""The engine as the server uses it: a session with workers, one update on its way at a time, and its replies.

The session's reader thread only hands replies over; all else is done on the thread that serves.
"""

from __future__ import annotations

import threading
from collections import deque
from concurrent.futures import Future
from typing import Callable, Deque, Dict, Mapping, Optional, Tuple

from ..changes import portions
from ..errors import PideError, ProgramError
from ..messages import Close, Item, RemoveVersions, Update
from ..replies import Assigned, Reported
from ..session import Session
from .inbox import Inbox
from .mirror import Mirror, MirroredNode
from .node import Node

MOST_WORKERS = 16
MOST_REPORTS = 500


class Engine:
    """A session, and what is known from it. `on_end` is called, on the thread that serves, where it ends by itself."""

    def __init__(self, program: Optional[str], workers: int, inbox: Inbox, on_end: Callable[[str], None]) -> None:
        self.nodes: Dict[str, Node] = {}
        self.mirror = Mirror()
        self._program = program
        self._words = ("serve", "--workers", str(min(workers, MOST_WORKERS)))
        self._inbox = inbox
        self._on_end = on_end
        self._session: Optional[Session] = None
        self._number = 0
        self._handing = threading.Lock()
        self._reported: Deque[Tuple[int, Reported]] = deque()
        self._is_handed = False
        self._version = 0
        self._on_way = 0

    @property
    def is_running(self) -> bool:
        """Whether there is a session."""
        return self._session is not None

    @property
    def is_idle(self) -> bool:
        """Whether no update is on its way, so that what is known is of the texts that were sent."""
        return self._on_way == 0

    def start(self) -> None:
        """Starts the program. Raises ProgramError where it isn't there or can't be started."""
        self.nodes, self.mirror = {}, Mirror()
        self._version = self._on_way = 0
        self._number += 1
        number = self._number
        self._session = Session(
            self._program,
            words=self._words,
            on_report=lambda reported: self._hand(number, reported),
            on_end=lambda: self._inbox.add_reply(lambda: self._note_end(number)),
        )

    def stop(self) -> None:
        """Ends the program at once."""
        session, self._session = self._session, None
        if session is not None:
            session.kill()

    def update(self, items: Mapping[str, Item]) -> None:
        """Sends a new version, of which the nodes are noted already. The one before is removed when it is assigned."""
        assert self._session is not None
        for name, node in self.nodes.items():
            mirrored = self.mirror.nodes.setdefault(name, MirroredNode())
            mirrored.set_closing_words(node.cut.words_for("by"))
        for name, item in items.items():
            if isinstance(item, Close):
                self.mirror.close(name)
        for portion in portions(dict(items)):
            self._version += 1
            self._on_way += 1
            self._ask(self._session, Update(self._version, tuple(portion.items())))

    def _ask(self, session: Session, message: Update) -> None:
        try:
            future = session.ask(message)
        except (PideError, ValueError) as error:
            self._fail(session, str(error))
            return
        future.add_done_callback(lambda answer: self._inbox.add_reply(lambda: self._take(session, message, answer)))

    def _take(self, session: Session, message: Update, answer: Future[Assigned]) -> None:
        """Takes in the answer to an update."""
        if session is not self._session:
            return
        self._on_way -= 1
        try:
            self.mirror.assign(answer.result())
            if message.version > 1:
                session.ask(RemoveVersions((message.version - 1,)))
        except ProgramError as error:
            self._fail(session, str(error))
        except PideError as error:
            session.kill()
            self._fail(session, str(error))

    def _hand(self, number: int, reported: Reported) -> None:
        """Hands over what a session, the one of that number, reports unasked: many reports are one event."""
        with self._handing:
            self._reported.append((number, reported))
            if not self._is_handed:
                self._is_handed = True
                self._inbox.add_reply(self._take_reports)

    def _take_reports(self) -> None:
        """Takes in some reports. The others are an event of their own, so that the client's messages come between."""
        for _ in range(min(MOST_REPORTS, len(self._reported))):
            self._take_report(*self._reported.popleft())
        with self._handing:
            self._is_handed = bool(self._reported)
            if self._is_handed:
                self._inbox.add_reply(self._take_reports)

    def _take_report(self, number: int, reported: Reported) -> None:
        if number == self._number:
            self.mirror.report(reported)

    def _note_end(self, number: int) -> None:
        """Notes that the session of this number has ended."""
        session = self._session
        if session is not None and number == self._number:
            self._fail(session, str(session.wait() or "the program has ended"))

    def _fail(self, session: Session, reason: str) -> None:
        """Notes, once, that the session has ended by itself."""
        if session is self._session:
            self.fail(reason)

    def fail(self, reason: str) -> None:
        """Notes that there is no session, and why."""
        self._session = None
        self._version = self._on_way = 0
        self.nodes, self.mirror = {}, Mirror()
        self._on_end(reason)
