"""The command `top`: a running session in a terminal, read from the record that is being written."""

from __future__ import annotations

import argparse
import os
import select
import shutil
import stat
import sys
import time
from pathlib import Path
from typing import Any, BinaryIO, Iterator, Optional

from .. import terminal
from ..errors import PideError
from ..output import write_lines
from .recording import PIECE, Ended, Events, RecordFault
from .story import Story
from .tally import tally_of
from .top_view import lines_of

BETWEEN_VIEWS = 0.25
_OPEN, _CLOSE = "\x1b[?1049h\x1b[?25l", "\x1b[?25h\x1b[?1049l"
_HOME, _TO_LINE_END, _TO_END = "\x1b[H", "\x1b[K", "\x1b[J"


def add_command(commands: Any, common: argparse.ArgumentParser) -> None:
    """Adds the command to those of `python3 -m pide`."""
    parser = commands.add_parser("top", help="watch a session that is being recorded",
                                 description="Shows versions, what is pending, reports a second and the slowest parts"
                                 " of a session, from its record, a file that grows or a named pipe. It ends with the"
                                 " session; where the output is no terminal the last view is printed.")
    parser.add_argument("record", metavar="RECORD", type=Path, help="what `record -o` writes, or - for the input")
    parser.set_defaults(run=run)


def run(asked: argparse.Namespace) -> int:
    """Shows the session until it ends or is interrupted; gives 0."""
    try:
        with _opened(asked.record) as stream:
            view = View(str(asked.record))
            try:
                view.follow(Tail(stream))
            except RecordFault as error:
                raise RecordFault(f"{asked.record}: {error}") from error
            finally:
                view.close()
    except OSError as error:
        raise PideError(f"{asked.record}: {error.strerror}") from error
    view.print_last()
    return 0


def _opened(path: Path) -> BinaryIO:
    return os.fdopen(os.dup(0), "rb", buffering=0) if str(path) == "-" else open(path, "rb", buffering=0)


class Tail:
    """The pieces of a record as they are written. A pipe ends with its writer; a file that has no end yet is looked at
    again and again."""

    def __init__(self, stream: BinaryIO) -> None:
        self._stream = stream
        self._is_file = stat.S_ISREG(os.fstat(stream.fileno()).st_mode)

    def pieces(self) -> Iterator[Optional[bytes]]:
        """Pieces as they come, and None where nothing has come for the time between two views."""
        while True:
            if not self._is_file and not select.select([self._stream], [], [], BETWEEN_VIEWS)[0]:
                yield None
                continue
            piece = self._stream.read(PIECE)
            if piece:
                yield piece
            elif self._is_file:
                yield None
                time.sleep(BETWEEN_VIEWS)
            else:
                return


class View:
    """Draws a story in the terminal a few times a second."""

    def __init__(self, title: str) -> None:
        self._title = title
        self._story = Story()
        self._events = Events()
        self._screen = sys.stdout if terminal.can_overwrite(sys.stdout) else None
        self._last_drawn = 0.0
        self._came = time.monotonic()
        if self._screen is not None:
            self._screen.write(_OPEN)

    def follow(self, tail: Tail) -> None:
        """Takes the record in and draws, until the session has ended. A file to which nothing is added is drawn as it
        is, where the output is no terminal."""
        for piece in tail.pieces():
            if piece is None and self._screen is None:
                return
            if piece is not None and self._take(piece):
                return
            self._draw_now_and_then()

    def _take(self, piece: bytes) -> bool:
        """Takes a piece in; whether it is the last."""
        self._came = time.monotonic()
        has_ended = False
        for event in self._events.feed(piece):
            self._story.take(event)
            has_ended = isinstance(event, Ended)
        return has_ended

    def _draw_now_and_then(self) -> None:
        if self._screen is not None and time.monotonic() - self._last_drawn >= BETWEEN_VIEWS:
            self._last_drawn = time.monotonic()
            width, height = shutil.get_terminal_size()
            now = self._story.last + time.monotonic() - self._came
            lines = lines_of(tally_of(self._story, now), width, height, terminal.has_colours(self._screen), self._title)
            self._screen.write(_HOME + "".join(f"{line}{_TO_LINE_END}\n" for line in lines) + _TO_END)
            self._screen.flush()

    def close(self) -> None:
        """Gives the terminal back as it was."""
        if self._screen is not None:
            self._screen.write(_CLOSE)
            self._screen.flush()

    def print_last(self) -> None:
        """Prints the view as it was at the end."""
        width, height = terminal.width(sys.stdout), shutil.get_terminal_size().lines
        write_lines(lines_of(tally_of(self._story, self._story.last), width, height, False, self._title))
