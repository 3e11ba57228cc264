"""Standard output and standard error of commands: written whole or told to have failed, never with a traceback."""

from __future__ import annotations

import os
import sys
from typing import Iterable, Optional, TextIO

from .display import shown
from .errors import PideError


class OutputFault(PideError):
    """Standard output is closed, or can't be written."""


def encoding_of(stream: Optional[TextIO]) -> str:
    """The encoding of the stream's characters."""
    return getattr(stream, "encoding", None) or "ascii"


def write_lines(lines: Iterable[str]) -> None:
    """Writes the lines to standard output. Raises OutputFault where that fails."""
    stream = sys.stdout
    if stream is None:
        raise OutputFault("standard output is closed")
    encoding = encoding_of(stream)
    try:
        for line in lines:
            stream.write(line.encode(encoding, "backslashreplace").decode(encoding) + "\n")
        stream.flush()
    except (OSError, ValueError) as error:
        raise _fault(error) from None


def flush(stream: Optional[TextIO]) -> None:
    """Writes what waits to be written to standard output. Raises OutputFault where that fails."""
    if stream is None:
        return
    try:
        stream.flush()
    except (OSError, ValueError) as error:
        raise _fault(error) from None


def _fault(error: Exception) -> OutputFault:
    """What is said of a failure, behind which nothing more is written, not even as Python ends."""
    os.dup2(os.open(os.devnull, os.O_WRONLY), sys.stdout.fileno())
    if isinstance(error, OSError) and not isinstance(error, BrokenPipeError):
        return OutputFault(f"standard output can't be written: {error.strerror}")
    return OutputFault("standard output is closed")


def tell(text: str) -> None:
    """Says on standard error, in one line behind the program's name, what is to be known. Nothing is done where that
    can't be written."""
    write_error(f"pide: {shown(text, encoding_of(sys.stderr))}\n")


def write_error(text: str) -> None:
    """Writes to standard error, as far as that can be written."""
    stream = sys.stderr
    if stream is None:
        return
    encoding = encoding_of(stream)
    try:
        stream.write(text.encode(encoding, "backslashreplace").decode(encoding))
        stream.flush()
    except (OSError, ValueError):
        pass
