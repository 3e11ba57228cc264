"""How far a proof is: crates proved and left, what is being proved, and an estimate of the time that is left."""

from __future__ import annotations

import os
import shutil
import sys
import time
from pathlib import Path
from typing import Dict, Iterable, List, Mapping

from .messages import say
from .sources import Layout

BAR_WIDTH = 24
TRUSTED_COUNT = 3
WORK_FILE = Path(__file__).with_name("work.tsv")


def read_work(names: Iterable[str]) -> Dict[str, float]:
    """How many processor seconds each crate's proof took where it was measured; of a new crate the mean."""
    rows = [line.split("\t") for line in WORK_FILE.read_text().splitlines() if line and not line.startswith("#")]
    found = {name: float(seconds) for name, seconds in rows}
    mean = sum(found.values()) / len(found)
    return {name: found.get(name, mean) for name in names}


class Estimate:
    """Reckons the time that is left by the measured work of the crates and the pace of those that are proved."""

    def __init__(self, layout: Layout, names: List[str], work: Mapping[str, float], lanes: int) -> None:
        self._layout = layout
        self._names = names
        self._work = work
        self._lanes = lanes
        self._begun: Dict[str, float] = {}
        self._left = set(names)
        self._took: Dict[str, float] = {}

    @property
    def left(self) -> int:
        return len(self._left)

    def begin(self, name: str, now: float) -> None:
        self._begun[name] = now

    def end(self, name: str, now: float) -> None:
        """A crate is proved, or was kept by an earlier run."""
        self._left.discard(name)
        began = self._begun.pop(name, None)
        if began is not None:
            self._took[name] = now - began

    def running(self, now: float) -> Dict[str, float]:
        """What is being proved, and for how many seconds."""
        return {name: now - began for name, began in self._begun.items()}

    @property
    def pace(self) -> float:
        """Seconds by the clock for a second of measured work."""
        if len(self._took) < TRUSTED_COUNT:
            return 1.0
        return sum(self._took.values()) / sum(self._work[name] for name in self._took)

    def seconds(self, now: float) -> float:
        """The time that is left: the work shared by the lanes, or the longest chain of crates where that is more."""
        spent = self.running(now)
        left = {name: max(0.0, self._work[name] * self.pace - spent.get(name, 0.0)) for name in self._left}
        chains: Dict[str, float] = {}
        for name in reversed(self._names):
            above = [chains[user] for user in self._names if name in self._layout.uses[user] and user in chains]
            chains[name] = left.get(name, 0.0) + max(above, default=0.0)
        return max(sum(left.values()) / self._lanes, max(chains.values(), default=0.0))


def about(seconds: float) -> str:
    """A time in words: some seconds, or minutes."""
    return f"{max(1, round(seconds))} s" if seconds < 100 else f"{round(seconds / 60)} min"


class Progress:
    """Shows a proof's progress: a bar where standard error is a terminal, else a line a crate."""

    def __init__(self, layout: Layout, names: List[str], lanes: int) -> None:
        self._estimate = Estimate(layout, names, read_work(names), lanes)
        self._whole = len(names)
        self._began = time.monotonic()
        self._is_bar = sys.stderr.isatty() and os.environ.get("TERM", "dumb") != "dumb"

    def open(self) -> None:
        estimate = about(self._estimate.seconds(self._began))
        say(f"proving and building the program: {self._whole} crates; from scratch that takes about {estimate} here,"
            " less what earlier runs have proved")

    def begin(self, name: str) -> None:
        self._estimate.begin(name, time.monotonic())
        self.show()

    def end(self, name: str, was_kept: bool) -> None:
        now = time.monotonic()
        self._estimate.end(name, now)
        if self._is_bar:
            self.show()
        else:
            how = "was proved by an earlier run" if was_kept else "is proved"
            left = f"{self._estimate.left} of {self._whole} left, about {about(self._estimate.seconds(now))}"
            say(f"{name} {how} ({round(now - self._began)} s), {left}")

    def show(self) -> None:
        """Draws the bar anew."""
        if not self._is_bar:
            return
        line = self._line(time.monotonic())
        width = shutil.get_terminal_size().columns - 1
        sys.stderr.write(f"\r\x1b[K{line[:width]}")
        sys.stderr.flush()

    def clear(self) -> None:
        if self._is_bar:
            sys.stderr.write("\r\x1b[K")
            sys.stderr.flush()

    def spent(self) -> float:
        """Seconds since the proof began."""
        return time.monotonic() - self._began

    def _line(self, now: float) -> str:
        done = self._whole - self._estimate.left
        filled = BAR_WIDTH * done // self._whole
        bar = "#" * filled + "-" * (BAR_WIDTH - filled)
        running = ", ".join(f"{name} ({round(spent)} s)" for name, spent in self._estimate.running(now).items())
        left = about(self._estimate.seconds(now))
        return f"pide: [{bar}] {done} of {self._whole} crates, about {left} left" + (f"; now {running}" if running else "")


def lanes() -> int:
    """How many processors this process may use."""
    return len(os.sched_getaffinity(0)) if hasattr(os, "sched_getaffinity") else os.cpu_count() or 1
