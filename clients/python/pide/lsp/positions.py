"""Positions of LSP, lines and units, and places in characters; ranges between them."""

from __future__ import annotations

import enum
import re
from bisect import bisect_right
from typing import Any, Dict, List, Tuple

_LINE_END = re.compile(r"\r\n|\r|\n")

Position = Dict[str, int]
Range = Dict[str, Position]


class Encoding(enum.Enum):
    """What the `character` of a position counts: UTF-8 bytes, UTF-16 units, or Unicode characters."""

    UTF8 = "utf-8"
    UTF16 = "utf-16"
    UTF32 = "utf-32"

    def units(self, text: str) -> int:
        """How long the text is."""
        if self is Encoding.UTF32 or text.isascii():
            return len(text)
        if self is Encoding.UTF16:
            return len(text) + sum(char > "\uffff" for char in text)
        return len(text.encode("utf-8", "surrogatepass"))

    def characters(self, text: str, units: int) -> int:
        """How many characters at the beginning of the text take so many units; what is within one is before it."""
        if self is Encoding.UTF32 or text.isascii():
            return min(units, len(text))
        for number, char in enumerate(text):
            units -= self.units(char)
            if units < 0:
                return number
        return len(text)


def chosen_encoding(offered: Any) -> Encoding:
    """The first of the client's encodings that is known; UTF-16 where it names none."""
    known = {encoding.value: encoding for encoding in Encoding}
    names = offered if isinstance(offered, list) else []
    return next((known[name] for name in names if isinstance(name, str) and name in known), Encoding.UTF16)


class LineIndex:
    """Where the lines of a text start, which end with LF, CR LF or CR."""

    def __init__(self, text: str) -> None:
        self.text = text
        self.starts = [0, *(end.end() for end in _LINE_END.finditer(text))]

    def edited(self, start: int, stop: int, inserted: str) -> LineIndex:
        """The index of the text in which a range is exchanged."""
        changed = LineIndex.__new__(LineIndex)
        changed.text = text = self.text[:start] + inserted + self.text[stop:]
        new_stop = start + len(inserted)
        kept = max(1, bisect_right(self.starts, start - 1))
        changed.starts = starts = self.starts[:kept]
        for end in _LINE_END.finditer(text, starts[-1]):
            if end.end() > new_stop + 1:
                break
            starts.append(end.end())
        shift = new_stop - stop
        starts += [place + shift for place in self.starts[bisect_right(self.starts, stop + 1) :]]
        return changed

    def line_of(self, offset: int) -> int:
        """The number of the line, from 0, in which the character stands."""
        return bisect_right(self.starts, offset) - 1

    def position(self, offset: int, encoding: Encoding) -> Position:
        """The position of the character at the offset."""
        line = self.line_of(offset)
        return {"line": line, "character": encoding.units(self.text[self.starts[line] : offset])}

    def range(self, start: int, stop: int, encoding: Encoding) -> Range:
        """The range between two places."""
        return {"start": self.position(start, encoding), "end": self.position(stop, encoding)}

    def offset(self, position: Position, encoding: Encoding) -> int:
        """The place of a position; what is behind the line's or the text's end is at that end.

        Raises ValueError where a number is negative.
        """
        line, units = position["line"], position["character"]
        if line < 0 or units < 0:
            raise ValueError("a position is negative")
        if line >= len(self.starts):
            return len(self.text)
        start, stop = self.line_bounds(line)
        return start + encoding.characters(self.text[start:stop], units)

    def offsets(self, range_: Range, encoding: Encoding) -> Tuple[int, int]:
        """The places of a range, the start first."""
        start, stop = self.offset(range_["start"], encoding), self.offset(range_["end"], encoding)
        return min(start, stop), max(start, stop)

    def line_bounds(self, line: int) -> Tuple[int, int]:
        """Where the line starts and stops, its end left out."""
        start = self.starts[line]
        stop = self.starts[line + 1] if line + 1 < len(self.starts) else len(self.text)
        while stop > start and line + 1 < len(self.starts) and self.text[stop - 1] in "\r\n":
            stop -= 1
        return start, stop

    def pieces(self, start: int, stop: int) -> List[Tuple[int, int]]:
        """The range cut at line ends, which belong to no piece; empty pieces are left out."""
        pieces = []
        for line in range(self.line_of(start), self.line_of(max(start, stop - 1)) + 1):
            first, last = self.line_bounds(line)
            if max(first, start) < min(last, stop):
                pieces.append((max(first, start), min(last, stop)))
        return pieces
