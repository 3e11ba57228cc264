"""The rows of a node, and how they change from one assignment to the next.

An assignment tells all rows of a node, of which a keystroke changes few. So the text of the rows is compared with the
one before, and only what differs is read.
"""

from __future__ import annotations

import re
from dataclasses import dataclass, field
from typing import Iterator, List, NamedTuple, Tuple

from ..errors import ProtocolFault
from ..replies import Assigned
from ..rows import ASSIGNMENT
from ..unread import Unread
from ..yxml import yxml_text

_OPEN, _CLOSE = "\x05\x06:\x05", "\x05\x06\x05"
_NODE = re.compile(f"{_OPEN}{_OPEN}([A-Za-z][A-Za-z0-9_']*){_CLOSE}{_OPEN}")
_ROW = re.compile(
    f"{_OPEN}{_OPEN}([0-9]+){_CLOSE}{_OPEN}(?:{_OPEN}([0-9]+){_CLOSE}(?:{_OPEN}([0-9]+){_CLOSE})?)?{_CLOSE}{_CLOSE}"
)
_LAST_CLOSES = _CLOSE * 4
_CLOSES = re.compile(f"(?:{_CLOSE})*")
_BETWEEN = f"{_CLOSE}{_CLOSE}{_OPEN}{_OPEN}"


class Row(NamedTuple):
    """A command, its evaluation and its print, each by its id; 0 where there is none."""

    command: int
    evaluation: int
    printing: int


class Splice(NamedTuple):
    """The rows from `first` on are exchanged: `removed` rows go, `added` ones come."""

    first: int
    removed: List[Row]
    added: List[Row]


@dataclass
class Rows:
    """The rows of a node, in the order of its commands, and the ids of these alone."""

    rows: List[Row] = field(default_factory=list)
    commands: List[int] = field(default_factory=list)
    text: str = ""

    def take(self, text: str) -> Splice:
        """Takes in the rows that the text spells, and tells what that changes. Raises ProtocolFault where the text
        spells no rows."""
        first, start = _common_prefix(self.text, text)
        kept, back = _common_suffix(self.text, text, start)
        added = _read_rows(text[start : len(text) - back])
        stop = len(self.rows) - kept
        splice = Splice(first, self.rows[first:stop], added)
        self.rows[first:stop] = added
        self.commands[first:stop] = [row.command for row in added]
        self.text = text
        return splice


def rows_of(assigned: Assigned) -> Iterator[Tuple[str, str]]:
    """The nodes of an assignment, each with the text of its rows. Raises ProtocolFault where it spells none."""
    text = _text_of(assigned)
    place = 0
    while place < len(text):
        node = _NODE.match(text, place)
        if node is None:
            raise ProtocolFault("an assignment has another shape")
        if text.startswith(_CLOSE * 2, node.end()):
            stop = node.end()
        else:
            # a row without an evaluation ends with two closes, any other with three; the node closes with two more
            found = text.find(_LAST_CLOSES, node.end())
            closes = _CLOSES.match(text, found)
            if found < 0 or closes is None:
                raise ProtocolFault("an assignment has another shape")
            stop = closes.end() - 2 * len(_CLOSE)
        yield node[1], text[node.end() : stop]
        place = stop + 2 * len(_CLOSE)


def _text_of(assigned: Assigned) -> str:
    if isinstance(assigned.nodes, Unread):
        return assigned.nodes.text
    return yxml_text(ASSIGNMENT.put(tuple(assigned.nodes)))


def _read_rows(text: str) -> List[Row]:
    rows = [Row(int(command), int(evaluation or 0), int(printing or 0))
            for command, evaluation, printing in _ROW.findall(text)]
    if len(rows) != (text.count(_BETWEEN) + 1 if text else 0):
        raise ProtocolFault("the rows of an assignment have another shape")
    return rows


def _common_prefix(old: str, new: str) -> Tuple[int, int]:
    """How many rows both begin with, and where the rows behind them start."""
    low, most = 0, min(len(old), len(new))
    while low < most:
        middle = (low + most + 1) // 2
        if old[low:middle] == new[low:middle]:
            low = middle
        else:
            most = middle - 1
    between = new.rfind(_BETWEEN, 0, low)
    if between < 0:
        return 0, 0
    start = between + 2 * len(_CLOSE)
    return new.count(_BETWEEN, 0, start + 2 * len(_OPEN)), start


def _common_suffix(old: str, new: str, start: int) -> Tuple[int, int]:
    """How many rows both end with behind the start, and how long these are."""
    low, most = 0, min(len(old), len(new)) - start
    while low < most:
        middle = (low + most + 1) // 2
        if old[len(old) - middle : len(old) - low] == new[len(new) - middle : len(new) - low]:
            low = middle
        else:
            most = middle - 1
    between = new.find(_BETWEEN, len(new) - low)
    if between < 0:
        return 0, 0
    return new.count(_BETWEEN, between), len(new) - between - 2 * len(_CLOSE)
