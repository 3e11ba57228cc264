"""Texts that are open in the editor, and their changes."""

from __future__ import annotations

import os
import re
import weakref
from pathlib import Path
from typing import Any, Dict, List, NamedTuple, Optional
from urllib.parse import unquote, urlsplit

from ..headers import Header, header_of
from .positions import Encoding, LineIndex

_LONE = re.compile("[\ud800-\udfff]")
_UNSENDABLE = re.compile("[\x05\x06]")
REPLACEMENT = "\ufffd"


class Exchange(NamedTuple):
    """The characters from start to stop are exchanged for others."""

    start: int
    stop: int
    text: str


def path_of(uri: str) -> Optional[Path]:
    """The file of a `file:` URI, else None."""
    parts = urlsplit(uri)
    if parts.scheme != "file":
        return None
    path = unquote(parts.path)
    return Path(path[1:] if os.name == "nt" else path)


def whole_characters(text: str) -> str:
    """The text with a replacement for each half of a surrogate pair, which takes one unit of UTF-16 too."""
    return _LONE.sub(REPLACEMENT, text)


def sendable(text: str) -> str:
    """The text with a replacement for each of the characters 5 and 6, which mark up what is sent."""
    return _UNSENDABLE.sub(REPLACEMENT, text)


def unsendable_place(text: str) -> Optional[int]:
    """Where the first of the characters 5 and 6 stands, if one does."""
    found = _UNSENDABLE.search(text)
    return found.start() if found else None


class Mark:
    """A place in an open text, which moves with what is typed before it."""

    def __init__(self, place: int) -> None:
        self.place = place

    def move(self, exchange: Exchange) -> None:
        """Takes in an exchange of characters; a mark within those that go stands where they were."""
        if self.place >= exchange.stop:
            self.place += len(exchange.text) - (exchange.stop - exchange.start)
        elif self.place > exchange.start:
            self.place = exchange.start


class Document:
    """An open text. `header` is what its header says, `unsent` what has changed since the engine was sent it."""

    def __init__(self, uri: str, version: Optional[int], text: str) -> None:
        self.uri = uri
        self.path = path_of(uri)
        self.version = version
        self.lines = LineIndex(whole_characters(text))
        self.header: Optional[Header] = header_of(self.text)
        self.unsent: List[Exchange] = []
        self._marks: weakref.WeakSet[Mark] = weakref.WeakSet()

    @property
    def text(self) -> str:
        """The text as it is now."""
        return self.lines.text

    def change(self, version: Optional[int], changes: List[Dict[str, Any]], encoding: Encoding) -> bool:
        """Takes in the changes of a notification, in order; whether the header has another meaning now.

        Raises ValueError, TypeError or KeyError where one is malformed; those before it count.
        """
        self.version = version
        before = self.header
        try:
            for change in changes:
                self._exchange(self._exchange_of(change, encoding))
        finally:
            self.header = header_of(self.text)
        return before != self.header

    def _exchange_of(self, change: Dict[str, Any], encoding: Encoding) -> Exchange:
        text = whole_characters(change["text"])
        if change.get("range") is None:
            return Exchange(0, len(self.text), text)
        return Exchange(*self.lines.offsets(change["range"], encoding), text)

    def _exchange(self, exchange: Exchange) -> None:
        self.lines = self.lines.edited(*exchange)
        self.unsent.append(exchange)
        for mark in self._marks:
            mark.move(exchange)

    def mark(self, place: int) -> Mark:
        """A mark at the place, which lasts as long as it is held."""
        mark = Mark(place)
        self._marks.add(mark)
        return mark


def hull_of(exchanges: List[Exchange]) -> Optional[Exchange]:
    """One range around several exchanges made one after the other: where it starts, where it stops in the text before
    them all, and a text as long as the range is after them. None where there are none."""
    hull: Optional[Exchange] = None
    for change in exchanges:
        if hull is None:
            hull = change
            continue
        hull_stop = hull.start + len(hull.text)
        start, stop = min(hull.start, change.start), max(hull_stop, change.stop)
        length = stop - start - (change.stop - change.start) + len(change.text)
        hull = Exchange(start, hull.stop + stop - hull_stop, " " * length)
    return hull
