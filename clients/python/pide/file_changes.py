"""Waits until theories' files change: by inotify where Linux has it, which costs nothing meanwhile, else by looks."""

from __future__ import annotations

import ctypes
import errno
import os
import select
import struct
import time
from typing import AbstractSet, Dict, Iterator, Optional, Set, Tuple

QUIET = 0.1
LONGEST = 2.0
BETWEEN_LOOKS = 1.0

_MODIFY, _CLOSE_WRITE, _MOVED_FROM, _MOVED_TO = 0x2, 0x8, 0x40, 0x80
_CREATE, _DELETE, _DELETE_SELF, _MOVE_SELF = 0x100, 0x200, 0x400, 0x800
_OVERFLOW, _ONLY_FOLDERS, _IS_FOLDER = 0x4000, 0x1000000, 0x40000000
_ASKED = (_MODIFY | _CLOSE_WRITE | _MOVED_FROM | _MOVED_TO | _CREATE | _DELETE | _DELETE_SELF | _MOVE_SELF
          | _ONLY_FOLDERS)
_ANY = _OVERFLOW | _DELETE_SELF | _MOVE_SELF | _IS_FOLDER
_EVENT = struct.Struct("iIII")
_PIECE = 1 << 16

Stamp = Tuple[int, int, int]


def is_theory(name: str) -> bool:
    """Whether a file of this name is taken for a theory."""
    return name.endswith(".thy") and not name.startswith(".")


class Looks:
    """Looks at the folders' files once in a second."""

    def __init__(self) -> None:
        self._folders: Set[str] = set()
        self._stamps: Dict[str, Stamp] = {}

    def watch(self, folders: AbstractSet[str]) -> bool:
        """Watches these folders from now on; True where one wasn't watched before."""
        new = folders - self._folders
        self._folders = set(folders)
        self._stamps.update(stamp for folder in new for stamp in _stamps_in(folder))
        return bool(new)

    def wait(self, wake: int) -> None:
        """Waits until a file of the folders has changed and none has for 0.1 seconds, or `wake` can be read."""
        while not _can_read(wake, BETWEEN_LOOKS):
            stamps = self._now()
            if stamps != self._stamps:
                self._stamps = self._settled(stamps)
                return

    def _settled(self, stamps: Dict[str, Stamp]) -> Dict[str, Stamp]:
        """The files' stamps once they stay, or after two seconds."""
        end = time.monotonic() + LONGEST
        while time.monotonic() < end:
            time.sleep(QUIET)
            before, stamps = stamps, self._now()
            if before == stamps:
                break
        return stamps

    def _now(self) -> Dict[str, Stamp]:
        return {path: stamp for folder in self._folders for path, stamp in _stamps_in(folder)}


def _stamps_in(folder: str) -> Iterator[Tuple[str, Stamp]]:
    """The folder's theories and folders, each with when it was written, its size and its number."""
    try:
        with os.scandir(folder) as entries:
            for entry in entries:
                if is_theory(entry.name) or entry.is_dir():
                    status = entry.stat()
                    yield entry.path, (status.st_mtime_ns, status.st_size, status.st_ino)
    except OSError:
        return


class Inotify:
    """Is told by the system of what changes in the folders. Raises OSError where the system can't do so."""

    def __init__(self) -> None:
        libc = ctypes.CDLL(None, use_errno=True)
        try:
            self._add, start = libc.inotify_add_watch, libc.inotify_init1
        except AttributeError:
            raise OSError(errno.ENOSYS, "there is no inotify") from None
        self._file = start(os.O_CLOEXEC | os.O_NONBLOCK)
        if self._file < 0:
            raise OSError(ctypes.get_errno(), "inotify fails")
        self._folders: Set[str] = set()
        self._is_partial = False

    def __del__(self) -> None:
        if getattr(self, "_file", -1) >= 0:
            os.close(self._file)

    def watch(self, folders: AbstractSet[str]) -> bool:
        """Watches these folders from now on; True where one wasn't watched before.

        Those that the system doesn't watch (they aren't there, or are too many) are looked at each second.
        """
        is_new = not folders <= self._folders
        self._folders, self._is_partial = set(folders), False
        for folder in folders:
            if self._add(self._file, os.fsencode(folder), _ASKED) < 0:
                self._is_partial = True
        return is_new

    def wait(self, wake: int) -> None:
        """Waits until a file of the folders has changed and none has for 0.1 seconds, or `wake` can be read."""
        while not self._has_changed(BETWEEN_LOOKS if self._is_partial else None, wake):
            if self._is_partial or _can_read(wake, 0):
                return
        end = time.monotonic() + LONGEST
        while time.monotonic() < end and self._has_changed(QUIET):
            pass

    def _has_changed(self, seconds: Optional[float], wake: Optional[int] = None) -> bool:
        """Whether something has changed within these seconds, before `wake` can be read."""
        end = None if seconds is None else time.monotonic() + seconds
        while True:
            left = None if end is None else max(0.0, end - time.monotonic())
            ready = select.select([self._file] if wake is None else [self._file, wake], [], [], left)[0]
            if self._file in ready and self._takes_change():
                return True
            if wake in ready or not ready:
                return False

    def _takes_change(self) -> bool:
        """Reads what the system has told; whether a theory or a folder is among it."""
        told = os.read(self._file, _PIECE)
        place, has_change = 0, False
        while place < len(told):
            _, mask, _, size = _EVENT.unpack_from(told, place)
            name = told[place + _EVENT.size : place + _EVENT.size + size].rstrip(b"\0")
            place += _EVENT.size + size
            has_change = has_change or bool(mask & _ANY) or is_theory(os.fsdecode(name))
        return has_change


def _can_read(wake: int, seconds: float) -> bool:
    return bool(select.select([wake], [], [], seconds)[0])
