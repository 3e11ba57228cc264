"""Proves and builds the program in a copy of its crates, by the toolchain's gate."""

from __future__ import annotations

import os
import queue
import re
import shutil
import signal
import subprocess
import sys
import tempfile
import threading
from pathlib import Path
from typing import Dict, List, Optional

from .errors import LauncherError
from .gate import BEGINS
from .messages import say
from .progress import Progress, about, lanes
from .programs import Programs
from .sources import PROGRAM, Layout, Sums, read_layout

DONE = re.compile(r"rt: (\w+) (proved|is kept: .*)")
FAILED = re.compile(r"rt: (\w+) NOT PROVED")
BETWEEN_SIGNS = 1.0


class Copy:
    """A copy of the program's crates without their mutants, which the whole gate alone tries."""

    def __init__(self, top: Path, layout: Layout, names: List[str]) -> None:
        self.folder = Path(tempfile.mkdtemp(prefix="pide-prove-"))
        shutil.copy(top / "HANDLES", self.folder / "HANDLES")
        (self.folder / "crates.txt").write_text("".join(f"{layout.lines[name]}\n" for name in names))
        for name in names:
            shutil.copytree(top / "crates" / name, self.folder / "crates" / name,
                            ignore=shutil.ignore_patterns("out", "must-fail"))

    @property
    def program(self) -> Path:
        return self.folder / "crates" / PROGRAM / "out" / PROGRAM

    def remove(self) -> None:
        shutil.rmtree(self.folder, ignore_errors=True)


def toolchain() -> str:
    """The path of the toolchain's command."""
    found = shutil.which("rt")
    if found is None:
        raise LauncherError("the program isn't built, and the Rattle toolchain is missing: no command rt is on the PATH")
    return found


def room() -> Path:
    """Where libraries that are proved are kept, for a toolchain that keeps none itself."""
    cache = os.environ.get("XDG_CACHE_HOME") or str(Path.home() / ".cache")
    return Path(cache) / "yivopeta" / "proved"


class Gate:
    """A run of the toolchain's gate in a copy; it is ended with this process."""

    def __init__(self, copy: Copy, rt: str) -> None:
        script = Path(__file__).with_name("gate.py")
        self._process = subprocess.Popen(
            [sys.executable, str(script), rt, str(room())], cwd=copy.folder, stdin=subprocess.DEVNULL,
            stdout=subprocess.PIPE, stderr=subprocess.STDOUT, errors="replace", start_new_session=True,
        )
        self._lines: queue.Queue[Optional[str]] = queue.Queue()
        threading.Thread(target=self._read, daemon=True).start()
        self.said: List[str] = []

    def follow(self, progress: Progress) -> bool:
        """Shows the run's progress until it ends, and gives whether all is proved."""
        while True:
            try:
                line = self._lines.get(timeout=BETWEEN_SIGNS)
            except queue.Empty:
                progress.show()
                continue
            if line is None:
                return self._process.wait() == 0
            self._take(line, progress)

    def end(self) -> None:
        """Ends the run at once; what it has proved is kept."""
        try:
            os.killpg(self._process.pid, signal.SIGTERM)
        except ProcessLookupError:
            pass
        self._process.wait()

    def _read(self) -> None:
        assert self._process.stdout is not None
        for line in self._process.stdout:
            self._lines.put(line)
        self._lines.put(None)

    def _take(self, line: str, progress: Progress) -> None:
        if line.startswith(BEGINS):
            progress.begin(line[len(BEGINS):].strip())
            return
        self.said.append(line)
        done = DONE.match(line)
        if done is not None:
            progress.end(done[1], was_kept=done[2] != "proved")


def why(said: List[str]) -> str:
    """What the gate said of the crates that aren't proved; all of it where it names none."""
    parts: Dict[str, List[str]] = {}
    part: List[str] = []
    for line in said:
        if line.startswith("== "):
            part = []
        part.append(line)
        failed = FAILED.match(line)
        if failed is not None:
            parts[failed[1]] = part
    return "".join(line for part in parts.values() for line in part) or "".join(said)


def prove(top: Path, programs: Programs) -> Path:
    """Proves and builds the program, and gives its path. Raises LauncherError where it isn't proved."""
    rt = toolchain()
    layout = read_layout(top)
    names = layout.needed()
    sums = Sums(top, programs.sums.files)
    copy = Copy(top, layout, names)
    progress = Progress(layout, names, lanes())
    progress.open()
    gate = Gate(copy, rt)
    try:
        is_proved = gate.follow(progress)
    except BaseException:
        progress.clear()
        gate.end()
        copy.remove()
        say("what is proved so far is kept: the next run goes on from there")
        raise
    progress.clear()
    if not is_proved or not copy.program.is_file():
        sys.stderr.write(why(gate.said))
        raise LauncherError(f"the program is not proved; its copy stays in {copy.folder}")
    program = programs.keep(copy.program, sums)
    copy.remove()
    say(f"proved and built in {about(progress.spent())}")
    return program
