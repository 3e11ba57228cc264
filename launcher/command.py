"""The command `./pide`: which program runs, and whether it is proved first."""

from __future__ import annotations

import signal
import sys
from pathlib import Path
from types import FrameType
from typing import List, Optional

from .errors import LauncherError
from .messages import say
from .programs import Programs
from .proving import prove
from .running import run_program
from .trial import try_program

INTERRUPTED = 130
FAILED = 1
NAMED_AT_MOST = 3

HELP = """\
usage: ./pide check                checks one text from standard input, and writes its markup by lines
       ./pide serve                serves the messages of standard input, on one thread
       ./pide serve --workers N    the same beside N workers, 0 to 16, in threads of their own
       ./pide replay               the same on one thread, with messages that tell the steps of workers
       ./pide mirror               as ./pide serve, with snapshots answered by an editor's mirror
       ./pide build                checks the theories that messages of standard input bring, each once
       ./pide gen N                makes a document of N theories, 1 to 1,000, and writes its counts
                                   (both: --workers W lets W others work too, 0 to 16)
       ./pide --try WORDS          runs the words on the program unproved, with checks as it runs: minutes, not an hour
       ./pide --prove              proves and builds the program, and runs nothing
       ./pide --built WORDS        runs the words on the program that was built last, whatever has changed since
       ./pide --which              prints the path of the program that is built from these sources, if there is one
       ./pide --keep-built         keeps the program that the gate has just built from these sources
Where the program isn't proved and built from the sources as they are, that is done first: README.md tells how long
that takes. Comments and blank lines don't count, and what was proved before is not proved again.
"""


def main(top: Path, words: List[str]) -> int:
    """Runs the command in the checkout at this folder, and gives its exit status."""
    signal.signal(signal.SIGTERM, _end)
    try:
        return _run(top, words)
    except LauncherError as error:
        say(str(error))
        return FAILED
    except KeyboardInterrupt:
        say("interrupted")
        return INTERRUPTED
    except BrokenPipeError:
        return FAILED


def _end(number: int, _: Optional[FrameType]) -> None:
    raise KeyboardInterrupt


def _run(top: Path, words: List[str]) -> int:
    first = words[0] if words else ""
    programs = Programs(top)
    if first == "--help":
        sys.stdout.write(HELP)
        return 0
    if first == "--try":
        return try_program(top, words[1:])
    if first == "--built":
        return run_program(top, _built(programs), words[1:])
    if first == "--which":
        return _which(programs)
    if first == "--keep-built":
        return 0 if programs.keep_built() else FAILED
    program = programs.fresh() or prove(top, programs)
    return 0 if first == "--prove" else run_program(top, program, words)


def _which(programs: Programs) -> int:
    program = programs.fresh()
    if program is not None:
        print(program)
    return FAILED if program is None else 0


def _built(programs: Programs) -> Path:
    """The program that was built last; what has changed since is reported."""
    program = programs.fresh() or programs.newest()
    if program is None:
        raise LauncherError("no program is built: ./pide --prove builds it")
    changed = programs.changed_since(program)
    if changed is None:
        say(f"{program} runs; it isn't known from which sources it was built")
    elif changed:
        named = ", ".join(changed[:NAMED_AT_MOST]) + (", .." if len(changed) > NAMED_AT_MOST else "")
        count = "1 source has" if len(changed) == 1 else f"{len(changed)} sources have"
        say(f"{count} changed since the program was built: {named}")
    return program
