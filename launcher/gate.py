"""Runs the toolchain's gate, `rt ci`, in this folder, for the program alone: `python3 gate.py RT ROOM`.

It is the toolchain's own gate, by which each crate is proved and refused, but for three things. The program is built
by LLVM alone: that a second compiler's build writes the same is what the whole gate is for. Where a crate's proof
begins is printed. And where this toolchain keeps nothing between runs, the libraries that are proved are kept in the
folder ROOM, under the sum of all that their proofs read.
"""

from __future__ import annotations

import hashlib
import importlib.machinery
import importlib.util
import os
import shutil
import sys
from pathlib import Path
from typing import Any, Callable, Dict, List

BEGINS = "launcher: begins "
SOURCES = ("src", "specs", "proofs")


def load(path: str) -> Any:
    """The toolchain's command `rt` as a module."""
    loader = importlib.machinery.SourceFileLoader("rt", os.path.realpath(path))
    spec = importlib.util.spec_from_loader("rt", loader)
    assert spec is not None
    module = importlib.util.module_from_spec(spec)
    sys.modules["rt"] = module
    loader.exec_module(module)
    return module


def build_by_llvm_alone(crate_type: Any) -> None:
    made: Callable[..., int] = crate_type.compile_by

    def compile_by(crate: Any, backend: str, words: List[str], to: str) -> int:
        return 0 if backend == "rattle" else made(crate, backend, words, to)

    crate_type.compile_by = compile_by


def find_below_once(crate_type: Any) -> None:
    """The libraries below a crate are asked for millions of times, and never change."""
    made: Callable[[Any], List[Any]] = crate_type.below
    found: Dict[int, List[Any]] = {}

    def below(crate: Any) -> List[Any]:
        if id(crate.deps) not in found:
            found[id(crate.deps)] = made(crate)
        return found[id(crate.deps)]

    crate_type.below = below


def tell_what_begins(crate_type: Any) -> None:
    made: Callable[..., int] = crate_type.ci

    def ci(crate: Any, flags: List[str], tests: bool) -> int:
        print(f"{BEGINS}{crate.name}", flush=True)
        return made(crate, flags, tests)

    crate_type.ci = ci


class Room:
    """Libraries that are proved, by crate and the sum of all that the proof read."""

    def __init__(self, folder: Path, toolchain: str) -> None:
        self._folder = folder
        self._toolchain = toolchain
        self._keys: Dict[str, str] = {}

    def key(self, crate: Any) -> str:
        """The sum of the crate's files, of its line in crates.txt, of those below it, and of the toolchain."""
        if crate.name not in self._keys:
            self._keys[crate.name] = self._sum(crate)
        return self._keys[crate.name]

    def _sum(self, crate: Any) -> str:
        found = hashlib.sha256(self._toolchain.encode())
        found.update(repr((crate.name, sorted(crate.of_kit), [self.key(it) for it in crate.deps])).encode())
        for part in SOURCES:
            for path in sorted((Path(crate.folder) / part).rglob("*")):
                if path.is_file():
                    found.update(repr((str(path.relative_to(crate.folder)), path.read_bytes())).encode())
        return found.hexdigest()

    def give(self, crate: Any, key: str) -> bool:
        """Puts a kept library where the crates above look for it; False where none is kept."""
        place = self._place(crate, key)
        if not place.is_dir():
            return False
        shutil.copytree(place, os.path.dirname(crate.rlib), dirs_exist_ok=True)
        return True

    def keep(self, crate: Any, key: str) -> None:
        """Keeps a library that was proved, and lets those of the same crate go."""
        place = self._place(crate, key)
        for other in self._folder.glob(f"{crate.name}-*"):
            shutil.rmtree(other, ignore_errors=True)
        new = self._folder / f"new-{os.getpid()}-{crate.name}"
        shutil.copytree(os.path.dirname(crate.rlib), new)
        new.rename(place)

    def _place(self, crate: Any, key: str) -> Path:
        return self._folder / f"{crate.name}-{key}"


def keep_libraries(crate_type: Any, room: Room) -> None:
    made: Callable[..., int] = crate_type.ci

    def ci(crate: Any, flags: List[str], tests: bool) -> int:
        if tests or crate.is_program:
            return made(crate, flags, tests)
        key = room.key(crate)
        if room.give(crate, key):
            return 0
        status = made(crate, flags, tests)
        if status == 0:
            room.keep(crate, key)
        return status

    crate_type.ci = ci


def main(rt_path: str, room: Path) -> int:
    rt = load(rt_path)
    build_by_llvm_alone(rt.Crate)
    find_below_once(rt.rtlib.Crate)
    tell_what_begins(rt.Crate)
    if not hasattr(rt, "Kept") or os.environ.get("PIDE_KEEP") == "own":
        room.mkdir(parents=True, exist_ok=True)
        keep_libraries(rt.Crate, Room(room, (Path(rt.KIT) / "KIT-ID").read_text()))
    return int(rt.main(["ci"]))


if __name__ == "__main__":
    sys.exit(main(sys.argv[1], Path(sys.argv[2])))
