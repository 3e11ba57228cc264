"""A theory as the engine has it."""

from __future__ import annotations

from typing import Mapping, Optional, Tuple

from ..changes import edits_between
from ..messages import Edit, Insert, Perspective, Remove
from .cut import Cut
from .documents import Document, hull_of, sendable
from .positions import LineIndex
from .project import Source


class Node:
    """The text that was sent of a theory, its commands, and what is looked at. `version` is the document's then."""

    def __init__(self, name: str, source: Source, inherited: Mapping[str, str]) -> None:
        self.name = name
        self.source = source
        self.text = source.text
        self.cut = Cut(self.text, inherited)
        self.perspective: Optional[Perspective] = None
        self.version: Optional[int] = None
        self._lines: Optional[LineIndex] = None
        self.note_sent()

    @property
    def lines(self) -> LineIndex:
        """The lines of the text that was sent."""
        if self._lines is None:
            self._lines = LineIndex(self.text)
        return self._lines

    def note_sent(self) -> None:
        """Notes that the engine has the source's text as it is."""
        source = self.source
        self._lines = None
        if isinstance(source, Document):
            source.unsent.clear()
            self.version = source.version
            self._lines = source.lines

    @property
    def is_current(self) -> bool:
        """Whether the source has this text still."""
        return self.source.text is self.text

    def edits(self, source: Source) -> Tuple[Edit, ...]:
        """The edits that make the text of another source, or of the same one as it is now; the commands follow."""
        old, new = self.text, source.text
        if isinstance(source, Document) and source is self.source:
            hull = hull_of(source.unsent)
            if hull is None:
                return ()
            start, stop, new_stop = hull.start, hull.stop, hull.start + len(hull.text)
        elif old == new:
            self._take(source)
            return ()
        else:
            start, stop, new_stop = _difference(old, new)
        removed, inserted = sendable(old[start:stop]), sendable(new[start:new_stop])
        self.cut.edit(new, start, stop, new_stop)
        self._take(source)
        return ((Remove(start, removed),) if removed else ()) + ((Insert(start, inserted),) if inserted else ())

    def _take(self, source: Source) -> None:
        self.source = source
        self.text = source.text
        self.note_sent()


def _difference(old: str, new: str) -> Tuple[int, int, int]:
    """Where two texts begin to differ, and where that stops in each."""
    edits = edits_between(old, new)
    start = edits[0].start
    removed = sum(len(edit.text) for edit in edits if isinstance(edit, Remove))
    inserted = sum(len(edit.text) for edit in edits if isinstance(edit, Insert))
    return start, start + removed, start + inserted
