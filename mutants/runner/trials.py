"""Trials: one run of the toolchain for each crate, a few crates side by side."""

from __future__ import annotations

import os
import signal
import subprocess
import tempfile
import threading
import time
from collections.abc import Callable
from concurrent.futures import ThreadPoolExecutor, as_completed
from dataclasses import dataclass
from pathlib import Path

from .edits import Mutant
from .outcomes import Outcome, Said, outcomes_in
from .repository import Repository, copy_for, name_in_copy

MEMORY_OF_A_CHECK = 3_000_000_000
LINES_OF_A_FAILURE = 12


@dataclass(frozen=True)
class Trial:
    """What a run over one crate's mutants resulted in, and how many seconds it took."""

    crate: str
    said: dict[Mutant, Said]
    seconds: float
    failure: str
    """The end of the toolchain's output, where it tried nothing."""


class Toolchain:
    """`rt`, as called from several threads at once, until `stop` ends every call."""

    def __init__(self, command: str = "rt") -> None:
        self.command = command
        self.running: set[subprocess.Popen[str]] = set()
        self.lock = threading.Lock()
        self.is_stopped = False

    def version(self) -> str:
        """Returns the toolchain's line. Raises OSError where there is no toolchain."""
        ran = subprocess.run([self.command, "version"], capture_output=True, text=True, errors="replace")
        return ran.stdout.strip()

    def prove(self, crate: str, room: Path) -> str:
        """Returns what `rt ci CRATE` says in the folder room: it proves what is not kept, and tries the edits."""
        environment = {**os.environ, "RT_JOBS": "1"}
        with self.lock:
            if self.is_stopped:
                return ""
            ran = subprocess.Popen(
                [self.command, "ci", crate],
                cwd=room,
                env=environment,
                stdin=subprocess.DEVNULL,
                stdout=subprocess.PIPE,
                stderr=subprocess.STDOUT,
                text=True,
                errors="replace",
                start_new_session=True,
            )
            self.running.add(ran)
        output, _ = ran.communicate()
        with self.lock:
            self.running.discard(ran)
        return output

    def stop(self) -> None:
        """Ends each call, with the processes that it started."""
        with self.lock:
            self.is_stopped = True
            for ran in self.running:
                try:
                    os.killpg(ran.pid, signal.SIGTERM)
                except ProcessLookupError:
                    pass


def tried(toolchain: Toolchain, repository: Repository, crate: str, mutants: list[Mutant]) -> Trial:
    """Tries one crate's mutants in a copy of the repository."""
    begin = time.monotonic()
    with tempfile.TemporaryDirectory(prefix="pide-mutants-") as folder:
        copy_for(repository, mutants, Path(folder))
        output = toolchain.prove(crate, Path(folder))
    told = outcomes_in(output)
    untold = Said(Outcome.UNTRIED, "the toolchain said nothing of it")
    said = {mutant: told.get((mutant.crate, name_in_copy(mutant)), untold) for mutant in mutants}
    failure = "" if told else "\n".join(output.rstrip().split("\n")[-LINES_OF_A_FAILURE:])
    return Trial(crate, said, time.monotonic() - begin, failure)


def try_all(
    toolchain: Toolchain,
    repository: Repository,
    by_crate: dict[str, list[Mutant]],
    lanes: int,
    heard: Callable[[Trial], None],
) -> None:
    """Tries the mutants of each crate, so many crates side by side, and hands each trial on as it ends. An
    interrupt ends every call; the trials that ended before it are handed on."""
    with ThreadPoolExecutor(lanes) as pool:
        waits = [pool.submit(tried, toolchain, repository, crate, mutants) for crate, mutants in by_crate.items()]
        try:
            for ended in as_completed(waits):
                heard(ended.result())
        except BaseException:
            for wait in waits:
                wait.cancel()
            toolchain.stop()
            raise


def lanes_here() -> int:
    """Returns how many crates to try side by side: RT_JOBS, or as many as processors and free memory allow."""
    number = os.environ.get("RT_JOBS", "")
    if number.isdigit() and int(number):
        return int(number)
    return max(1, min(len(os.sched_getaffinity(0)), free_memory() // MEMORY_OF_A_CHECK))


def free_memory() -> int:
    """Returns the free memory in bytes, or enough for one check where it is not told."""
    try:
        lines = Path("/proc/meminfo").read_text(encoding="ascii").split("\n")
    except OSError:
        return MEMORY_OF_A_CHECK
    return next((int(line.split()[1]) * 1024 for line in lines if line.startswith("MemAvailable")), MEMORY_OF_A_CHECK)
