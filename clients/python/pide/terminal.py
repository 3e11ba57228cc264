"""What can be done with a terminal: whether it can be written over, whether it shows colours, how wide it is."""

from __future__ import annotations

import os
from typing import Optional, TextIO

DEFAULT_WIDTH = 80


def is_terminal(stream: Optional[TextIO]) -> bool:
    """Whether a person reads the stream at a terminal. A stream that is missing or closed is none."""
    try:
        return stream is not None and stream.isatty()
    except ValueError:
        return False


def can_overwrite(stream: Optional[TextIO]) -> bool:
    """Whether a line can be written over: the stream is a terminal, and TERM says more of it than `dumb`."""
    return is_terminal(stream) and os.environ.get("TERM", "dumb") not in ("", "dumb")


def has_colours(stream: Optional[TextIO]) -> bool:
    """Whether colours and other attributes may be written. Any text in NO_COLOR says that none are wanted."""
    return can_overwrite(stream) and not os.environ.get("NO_COLOR")


def width(stream: Optional[TextIO]) -> int:
    """How many columns a line has: those of COLUMNS, else those of the terminal, else 80."""
    told = os.environ.get("COLUMNS", "")
    if told.isascii() and told.isdigit() and len(told) < 6 and int(told) > 0:
        return int(told)
    try:
        assert stream is not None
        return os.get_terminal_size(stream.fileno()).columns or DEFAULT_WIDTH
    except (AssertionError, OSError, ValueError):
        return DEFAULT_WIDTH
