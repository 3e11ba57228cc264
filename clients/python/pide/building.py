"""Theories checked by `pide build`: each once, by workers beside one another."""

from __future__ import annotations

import os
import subprocess
import threading
from types import TracebackType
from typing import Iterator, Mapping, Optional, Type, Union

from .errors import ProgramError, ProtocolFault, RefusedError, ended
from .framing import Frames, message_bytes
from .processes import stop
from .replies import Built, Refused, Total
from .session import find_program
from .wire import reply_of, word_of

PIECE = 1 << 20
MOST_WORKERS = 16


def usual_workers(theories: int) -> int:
    """How many workers a build of so many theories has: one less than there are processors or theories, at most 16."""
    count = len(os.sched_getaffinity(0)) if hasattr(os, "sched_getaffinity") else os.cpu_count() or 1
    return max(0, min(count - 1, theories - 1, MOST_WORKERS))


class Build:
    """A run of the program that checks theories, given by their names with their texts.

    Leaving a `with` block ends the program: it is waited for where all was well, else ended at once.
    """

    def __init__(self, texts: Mapping[str, str], program: Optional[str] = None, workers: int = 0) -> None:
        """Starts the program. Raises ProgramError where it isn't there or can't be started."""
        words = ["build", *(["--workers", str(workers)] if workers else [])]
        self._texts = texts
        try:
            self._process = subprocess.Popen(
                [find_program(program), *words], stdin=subprocess.PIPE, stdout=subprocess.PIPE
            )
        except OSError as error:
            raise ProgramError(f"the program can't be started: {error}") from error
        threading.Thread(target=self._write, name="pide-theories", daemon=True).start()

    def replies(self) -> Iterator[Union[Built, Total]]:
        """What is reported of each theory, as it comes, and the total behind the last.

        Raises RefusedError where the program refuses a theory, ProgramError where it ends before the total, and
        ProtocolFault where what it writes is no reply of a build.
        """
        assert self._process.stdout is not None
        output = self._process.stdout.fileno()
        frames = Frames(None)
        while True:
            piece = os.read(output, PIECE)
            if not piece:
                frames.finish()
                raise ended(self._process.wait())
            for chunks in frames.feed(piece):
                reply = reply_of(chunks)
                if isinstance(reply, Refused):
                    raise RefusedError(reply.refusal, "Build.theory")
                if not isinstance(reply, (Built, Total)):
                    raise ProtocolFault(f"a reply {word_of(reply)} to a build")
                yield reply
                if isinstance(reply, Total):
                    return

    def _write(self) -> None:
        """Sends the theories, and closes the program's input."""
        assert self._process.stdin is not None
        try:
            for node, text in self._texts.items():
                self._process.stdin.write(message_bytes([b"Build.theory", node.encode(), text.encode()]))
            self._process.stdin.close()
        except OSError:
            pass  # the program has ended, and who reads sees it

    def __enter__(self) -> Build:
        return self

    def __exit__(
        self, kind: Optional[Type[BaseException]], error: Optional[BaseException], trace: Optional[TracebackType]
    ) -> None:
        stop(self._process, at_once=kind is not None)
        assert self._process.stdout is not None
        self._process.stdout.close()
