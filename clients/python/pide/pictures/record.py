"""The command `record`: the program as it is, and beside it a record of what passes and when."""

from __future__ import annotations

import argparse
import os
import subprocess
import sys
import threading
from pathlib import Path
from typing import Any, Callable, Sequence

from ..errors import PideError, ProgramError
from ..output import tell
from ..session import find_program
from .recording import PIECE, REPLIED, SENT, Recorder


def add_command(commands: Any, common: argparse.ArgumentParser) -> None:
    """Adds the command to those of `python3 -m pide`."""
    parser = commands.add_parser("record", parents=[common], help="run the program, and record what passes",
                                 description="Runs the program with the words, and keeps what it reads and writes, with"
                                 " times, in a record for timeline and top. The exit status is the program's.")
    parser.add_argument("-o", dest="output", metavar="RECORD", type=Path, default=Path("session.record"),
                        help="the record, a file or a named pipe (session.record)")
    parser.add_argument("words", metavar="WORD", nargs=argparse.REMAINDER,
                        help="behind --, the program's words (serve)")
    parser.set_defaults(run=run)


def run(asked: argparse.Namespace) -> int:
    """Runs the program to its end, and gives its exit status."""
    words = asked.words[1:] if asked.words[:1] == ["--"] else asked.words
    program = find_program(asked.program)
    try:
        record = open(asked.output, "wb", buffering=0)
    except OSError as error:
        raise PideError(f"{asked.output}: {error.strerror}") from error
    with record:
        return _recorded([program, *(words or ["serve"])], Recorder(record.write, words or ["serve"]), asked.output)


def _recorded(command: Sequence[str], recorder: Recorder, path: Path) -> int:
    try:
        process = subprocess.Popen(command, stdin=subprocess.PIPE, stdout=subprocess.PIPE, bufsize=0)
    except OSError as error:
        raise ProgramError(f"the program can't be started: {error}") from error
    assert process.stdin is not None and process.stdout is not None
    threading.Thread(target=_pass_input, args=(process.stdin, recorder), name="pide-input", daemon=True).start()
    try:
        _pass(process.stdout.fileno(), lambda piece: _write_all(sys.stdout.fileno(), piece), recorder, REPLIED)
    except OSError:
        pass  # whoever reads the replies has gone: the program sees the same
    process.stdout.close()
    status = process.wait()
    recorder.end(status if status >= 0 else 128 - status)
    if recorder.fault is not None:
        tell(f"{path}: the record isn't whole: {recorder.fault.strerror}")
    return status if status >= 0 else 128 - status


def _pass_input(program: Any, recorder: Recorder) -> None:
    """Hands over to the program what comes, and closes its input at the end."""
    try:
        _pass(sys.stdin.fileno(), lambda piece: _write_all(program.fileno(), piece), recorder, SENT)
        program.close()
    except OSError:
        pass  # the program has ended


def _pass(source: int, write: Callable[[bytes], None], recorder: Recorder, direction: bytes) -> None:
    while True:
        piece = os.read(source, PIECE)
        if not piece:
            return
        recorder.piece(direction, piece)
        write(piece)


def _write_all(target: int, piece: bytes) -> None:
    view = memoryview(piece)
    while view:
        view = view[os.write(target, view) :]
