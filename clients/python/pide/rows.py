"""The rows of an assignment: of each command its id, and its executions, of which there are at most two."""

from __future__ import annotations

import re
from typing import List, Optional, Tuple

from .data import INT, STRING, Shape, checked, list_of, pair
from .messages import is_name

Rows = Tuple[Tuple[int, Tuple[int, ...]], ...]
Assignment = Tuple[Tuple[str, Rows], ...]

ID = checked(INT, lambda number: number > 0)
NODE = checked(STRING, is_name)
ASSIGNMENT: Shape[Assignment] = list_of(pair(NODE, list_of(pair(ID, list_of(ID)))))

_PLAIN = re.compile(
    "\x05\x06:\x05\x05\x06:\x05(?P<command>NUMBER)\x05\x06\x05\x05\x06:\x05"
    "(?:\x05\x06:\x05(?P<eval>NUMBER)\x05\x06\x05(?:\x05\x06:\x05(?P<print>NUMBER)\x05\x06\x05)?)?"
    "\x05\x06\x05\x05\x06\x05"
    "|\x05\x06:\x05\x05\x06:\x05(?P<node>[A-Za-z][A-Za-z0-9_']{0,63})\x05\x06\x05\x05\x06:\x05"
    "|(?P<end>\x05\x06\x05\x05\x06\x05)".replace("NUMBER", "[1-9][0-9]{0,17}")
)


def plain_assignment(text: str) -> Optional[Assignment]:
    """The assignment that the text spells, read fast, or None where it isn't spelled as the program does."""
    nodes: List[Tuple[str, Rows]] = []
    rows: List[Tuple[int, Tuple[int, ...]]] = []
    node, place = "", 0
    for found in _PLAIN.finditer(text):
        command, evaluation, printing, begun, ended = found.groups()
        if found.start() != place or bool(begun) == bool(node):
            return None
        place = found.end()
        if begun:
            node = begun
        elif ended:
            nodes.append((node, tuple(rows)))
            node, rows = "", []
        else:
            rows.append((int(command), tuple(int(number) for number in (evaluation, printing) if number)))
    return tuple(nodes) if place == len(text) and not node else None
