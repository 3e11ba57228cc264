"""A bar in a terminal that tells how much is done."""

from __future__ import annotations

import sys
import time
from typing import Optional, TextIO

from .. import terminal
from ..output import write_error

BETWEEN_DRAWINGS = 0.1
_WIDTH = 30


class Bar:
    """Draws on standard error where that is a terminal, and nothing elsewhere."""

    def __init__(self, total: int, noun: str) -> None:
        stream: Optional[TextIO] = sys.stderr
        self._stream = stream if terminal.can_overwrite(stream) else None
        self._total = max(total, 1)
        self._noun = noun
        self._last = 0.0

    def show(self, done: int) -> None:
        """Draws that so many are done, a few times a second."""
        now = time.monotonic()
        if self._stream is None or (now - self._last < BETWEEN_DRAWINGS and done < self._total):
            return
        self._last = now
        filled = _WIDTH * done // self._total
        bar = "█" * filled + "░" * (_WIDTH - filled)
        line = f"{bar} {done:,} of {self._total:,} {self._noun}"
        write_error("\r" + line[: terminal.width(self._stream) - 1])

    def clear(self) -> None:
        """Takes the bar away."""
        if self._stream is not None:
            write_error("\r\x1b[K")
