"""What has happened, for the one thread that serves: messages of the client come first, then replies of the engine."""

from __future__ import annotations

import threading
import time
from collections import deque
from typing import Callable, Deque, Optional

Event = Callable[[], None]


class Inbox:
    """Events, each a call that handles it. Any thread may add; one thread takes."""

    def __init__(self) -> None:
        self._condition = threading.Condition()
        self._from_client: Deque[Event] = deque()
        self._from_engine: Deque[Event] = deque()

    def add(self, event: Event) -> None:
        """Adds an event of the client."""
        with self._condition:
            self._from_client.append(event)
            self._condition.notify()

    def add_reply(self, event: Event) -> None:
        """Adds an event of the engine."""
        with self._condition:
            self._from_engine.append(event)
            self._condition.notify()

    def take(self, until: Optional[float]) -> Optional[Event]:
        """The next event; None where none comes before that moment of the monotonic clock."""
        with self._condition:
            while not (self._from_client or self._from_engine):
                patience = None if until is None else until - time.monotonic()
                if patience is not None and patience <= 0:
                    return None
                self._condition.wait(patience)
            return (self._from_client or self._from_engine).popleft()

    def has_more(self) -> bool:
        """Whether a message of the client waits."""
        return bool(self._from_client)
