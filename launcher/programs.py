"""Built programs, each under the sum of the sources that it was proved from."""

from __future__ import annotations

import json
import os
import shutil
import tempfile
from pathlib import Path
from typing import Any, Dict, List, Mapping, Optional, Tuple

from .sources import PROGRAM, Stamp, Sums

MOST_KEPT = 4


class Programs:
    """The programs that are kept in a checkout, in the folder out/programs, the last used ones."""

    def __init__(self, top: Path) -> None:
        self._top = top
        self._folder = top / "out" / "programs"
        self._stamps = self._folder / "stamps.json"
        self._sums: Optional[Sums] = None

    @property
    def sums(self) -> Sums:
        """The sums of the sources as they are now."""
        if self._sums is None:
            known = _known(self._stamps)
            self._sums = Sums(self._top, known)
            if self._sums.files != known:
                self._folder.mkdir(parents=True, exist_ok=True)
                _write(self._stamps, self._sums.files)
        return self._sums

    def fresh(self) -> Optional[Path]:
        """The program that was proved from the sources as they are now, if it is kept."""
        found = self._program(self.sums.whole)
        if found is not None:
            os.utime(found.parent)
        return found

    def newest(self) -> Optional[Path]:
        """The program that was used last, whatever it was proved from; else the one that the gate has built."""
        kept = map(self._program, self._kept())
        return next(filter(None, kept), _runnable(self._built()))

    def changed_since(self, program: Path) -> Optional[List[str]]:
        """The sources that have changed since the program was proved; None where that isn't known."""
        try:
            before: Mapping[str, str] = json.loads((program.parent / "sums.json").read_text())
        except (OSError, ValueError):
            return None
        now = self.sums.parts
        return sorted(path for path in {*before, *now} if before.get(path) != now.get(path))

    def keep(self, program: Path, sums: Sums) -> Path:
        """Keeps a program that was proved from these sources, and lets those go that were used longest ago."""
        self._folder.mkdir(parents=True, exist_ok=True)
        room = Path(tempfile.mkdtemp(dir=self._folder, prefix="new-"))
        shutil.copy(program, room / "pide")
        _write(room / "sums.json", sums.parts)
        place = self._folder / sums.whole
        shutil.rmtree(place, ignore_errors=True)
        room.rename(place)
        for name in self._kept()[MOST_KEPT:]:
            shutil.rmtree(self._folder / name, ignore_errors=True)
        return place / "pide"

    def keep_built(self) -> bool:
        """Keeps the program that the gate has built of the sources as they are; False where there is none."""
        if _runnable(self._built()) is None:
            return False
        self.keep(self._built(), self.sums)
        return True

    def _built(self) -> Path:
        return self._top / "crates" / PROGRAM / "out" / PROGRAM

    def _program(self, name: str) -> Optional[Path]:
        return _runnable(self._folder / name / "pide")

    def _kept(self) -> List[str]:
        """The names of what is kept, the last used first."""
        folders = [place for place in self._folder.glob("*") if len(place.name) == 64]
        return [place.name for place in sorted(folders, key=lambda it: it.stat().st_mtime_ns, reverse=True)]


def _runnable(path: Path) -> Optional[Path]:
    return path if path.is_file() and os.access(path, os.X_OK) else None


def _known(file: Path) -> Dict[str, Tuple[Stamp, str]]:
    """The stamps and sums that an earlier run left; none where they can't be read."""
    try:
        return {path: (str(stamp), str(found)) for path, (stamp, found) in json.loads(file.read_text()).items()}
    except (OSError, ValueError, TypeError, AttributeError):
        return {}


def _write(file: Path, value: Any) -> None:
    """Writes a file apart and renames it, so that no other run reads half of it."""
    with tempfile.NamedTemporaryFile("w", dir=file.parent, delete=False, encoding="utf-8") as room:
        json.dump(value, room)
    os.replace(room.name, file)
