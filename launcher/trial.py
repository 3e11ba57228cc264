"""Tries the program unproved: the toolchain compiles it with run-time checks, and runs it once."""

from __future__ import annotations

import re
import subprocess
import sys
import tempfile
import time
from pathlib import Path
from typing import IO, List

from .errors import LauncherError
from .messages import say, say_status
from .proving import toolchain
from .sources import PROGRAM

ANSWERING = ("serve", "replay", "mirror")
ENDED = re.compile(rb"^run=ended status=(\d+) ", re.M)


def try_program(top: Path, words: List[str]) -> int:
    """Runs the words, and gives the program's exit status. What it writes is shown when it has ended."""
    rt = toolchain()
    say("trying the program: nothing is proved, its checks are made as it runs; it is compiled first, some four minutes")
    if words and words[0] in ANSWERING:
        say("input is read to its end before the program starts, and its replies come when it has ended")
    with tempfile.TemporaryFile() as given, tempfile.TemporaryFile() as said:
        _read_input(given, words)
        began = time.monotonic()
        ran = subprocess.run([rt, "try", "--", *words], cwd=top / "crates" / PROGRAM, stdin=given, stderr=said)
        said.seek(0)
        told = said.read()
    ended = ENDED.search(told)
    if ended is None:
        sys.stderr.buffer.write(told)
        sys.stderr.flush()
        raise LauncherError(f"the trial gave no answer (rt try ended with status {ran.returncode})")
    say(f"tried in {round(time.monotonic() - began)} s; ./pide --prove proves the program")
    status = int(ended[1])
    say_status(top, status)
    return status


def _read_input(given: IO[bytes], words: List[str]) -> None:
    """Keeps all of standard input, where the words read any: the toolchain would wait for a pipe two seconds only."""
    if words and words[0] not in ("gen", "--help"):
        while True:
            piece = sys.stdin.buffer.read(1 << 16)
            if not piece:
                break
            given.write(piece)
    given.seek(0)
