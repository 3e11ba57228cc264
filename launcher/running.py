"""Runs a built program in place of the launcher, and gives its exit status."""

from __future__ import annotations

import signal
import subprocess
from pathlib import Path
from types import FrameType
from typing import List, Optional

from .errors import LauncherError
from .messages import say_status


def run_program(top: Path, program: Path, words: List[str]) -> int:
    """Runs the program on these words, with this process's input and output; signals are handed on to it."""
    try:
        running = subprocess.Popen([str(program), *words])
    except OSError as error:
        raise LauncherError(f"{program} can't be run: {error.strerror}") from error

    def hand_on(number: int, _: Optional[FrameType]) -> None:
        running.send_signal(number)

    for number in (signal.SIGINT, signal.SIGTERM, signal.SIGHUP):
        signal.signal(number, hand_on)
    status = running.wait()
    status = 128 - status if status < 0 else status
    say_status(top, status)
    return status
