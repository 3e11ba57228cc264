"""Texts as a terminal shows them: the columns they take, without the characters that would steer it, cut where long."""

from __future__ import annotations

import os
import unicodedata
from pathlib import Path
from typing import List, Tuple, Union

CUT = "…"
LONGEST_TEXT = 500
TAB = 8

_WIDE = frozenset("WF")
_STEERING = frozenset(("Cc", "Cf", "Zl", "Zp", "Cs"))
_COMBINING = frozenset(("Mn", "Me"))


def _has(encoding: str, char: str) -> bool:
    try:
        char.encode(encoding)
    except (UnicodeEncodeError, LookupError):
        return False
    return True


def shown_char(char: str, encoding: str = "utf-8") -> str:
    """The character, or its escape as Python spells it (`\\x1b`, `\\u202e`) where it would steer a terminal or the
    encoding doesn't have it. A tab stands for itself."""
    if " " <= char <= "~" or char == "\t":
        return char
    if unicodedata.category(char) in _STEERING or not _has(encoding, char):
        return char.encode("unicode_escape").decode()
    return char


def shown(text: str, encoding: str = "utf-8") -> str:
    """The text on one line, its lines joined by a space, with escapes for what would steer a terminal."""
    line = " ".join(text.splitlines())
    if line.isascii() and line.isprintable():
        return line
    return "".join(shown_char(char, encoding) for char in line)


def shortened(text: str, most: int = LONGEST_TEXT) -> str:
    """The text, or its first characters and `…`."""
    return text if len(text) <= most else text[:most] + CUT


def shown_path(path: Union[str, Path], encoding: str = "utf-8") -> str:
    """The path, each byte that is no UTF-8 as `\\xff`, with escapes for what would steer a terminal."""
    name = os.fsencode(path).decode("utf-8", "backslashreplace")
    return "".join(shown_char(char, encoding) for char in name)


def width(char: str) -> int:
    """How many columns of a terminal the character takes: none, one or two."""
    if char.isascii():
        return 1
    if unicodedata.category(char) in _COMBINING:
        return 0
    return 2 if unicodedata.east_asian_width(char) in _WIDE else 1


def column_behind(text: str, column: int = 0) -> int:
    """The column behind the text, which begins at this one, all from 0."""
    for char in text:
        column += TAB - column % TAB if char == "\t" else width(char)
    return column


def _fitting(text: str, places: range, room: int, encoding: str) -> Tuple[str, bool]:
    """The characters at these places as they are shown, as many as there is room for, and whether these are all."""
    pieces: List[str] = []
    for place in places[: 4 * room]:
        piece = shown_char(text[place], encoding)
        room -= TAB if piece == "\t" else column_behind(piece)
        if room < 0:
            break
        pieces.append(piece)
    ordered = pieces if places.step > 0 else pieces[::-1]
    return "".join(ordered), len(pieces) == len(places)


def marked(text: str, line: range, meant: range, room: int, encoding: str = "utf-8") -> Tuple[str, str]:
    """A line of the text as it is shown, and the marks to print below what is meant: one or more.

    Places are those of characters of the text; of what is meant that part is marked that stands in the line. A line
    that takes more columns than there is room for is cut around it, with `…` for what is left out.
    """
    cut = CUT if _has(encoding, CUT) else "..."
    stop = max(meant.start, min(meant.stop, line.stop))
    inside, is_whole = _fitting(text, range(meant.start, stop), room * 2 // 3, encoding)
    left = room - column_behind(inside) - 2 * len(cut)
    back, ahead = range(meant.start - 1, line.start - 1, -1), range(stop, line.stop if is_whole else stop)
    before, _ = _fitting(text, back, left // 2, encoding)
    behind, has_end = _fitting(text, ahead, left - column_behind(before), encoding)
    before, has_begin = _fitting(text, back, left - column_behind(behind), encoding)
    front = ("" if has_begin else cut) + before
    shown_line = front + inside + behind + ("" if is_whole and has_end else cut)
    return shown_line, _marks(front, inside)


def _marks(front: str, inside: str) -> str:
    """Blanks below the front, tabs below its tabs, and marks below what is inside."""
    blanks = "".join("\t" if char == "\t" else " " * width(char) for char in front)
    begin = column_behind(front)
    return blanks + "^" * max(1, column_behind(inside, begin) - begin)
