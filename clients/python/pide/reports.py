"""Reports: what is known of ranges of a text."""

from __future__ import annotations

import re
from typing import List, NamedTuple, Optional, Sequence, Tuple

from .data import INT, STRING, Shape, checked, part
from .errors import DataFault
from .unread import Unread
from .yxml import Body, Element, Tree

PLACE = checked(INT, lambda number: number >= 0)

_PLAIN = re.compile(
    "\x05\x06([^\x05\x06]+)\x06offset=(0|[1-9][0-9]{0,17})\x06end_offset=(0|[1-9][0-9]{0,17})"
    "((?:\x06[^\x05\x06=]+=[^\x05\x06]*)*)\x05([^\x05\x06]*)\x05\x06\x05"
)


class Report(NamedTuple):
    """What is known of a range: its kind, its properties in order, and its text, which may be empty."""

    start: int
    stop: int
    kind: str
    properties: Tuple[Tuple[str, str], ...] = ()
    text: str = ""

    def line(self) -> str:
        """The report as the program's `check` writes it."""
        words = [f"{self.start}-{self.stop}", self.kind, *(f"{key}={value}" for key, value in self.properties)]
        return " ".join(words) + (f": {self.text}" if self.text else "")


def _put(reports: Sequence[Report]) -> Body:
    return tuple(_element(report) for report in reports)


def _element(report: Report) -> Element:
    places = (("offset", str(report.start)), ("end_offset", str(report.stop)))
    return Element(report.kind, (*places, *report.properties), STRING.put(report.text))


def _get(body: Body) -> Tuple[Report, ...]:
    return tuple(_report(number, tree) for number, tree in enumerate(body))


def _report(number: int, tree: Tree) -> Report:
    if isinstance(tree, str) or [key for key, _ in tree.attributes[:2]] != ["offset", "end_offset"]:
        raise DataFault((number,))
    start, stop = (part(PLACE, number, (value,)) for _, value in tree.attributes[:2])
    return Report(start, stop, tree.name, tree.attributes[2:], part(STRING, number, tree.body))


REPORTS: Shape[Tuple[Report, ...]] = Shape(_put, _get)


def plain_reports(text: str) -> Optional[Tuple[Report, ...]]:
    """The reports that the text spells, read fast, or None where it isn't spelled as the program does."""
    reports, end = [], 0
    for found in _PLAIN.finditer(text):
        if found.start() != end:
            return None
        reports.append(_plain_report(found))
        end = found.end()
    return tuple(reports) if end == len(text) else None


def _plain_report(found: re.Match[str]) -> Report:
    kind, start, stop, properties, text = found.groups()
    if not properties:
        return Report(int(start), int(stop), kind, (), text)
    pairs = (pair.partition("=") for pair in properties[1:].split("\x06"))
    return Report(int(start), int(stop), kind, tuple((key, value) for key, _, value in pairs), text)


def of_kind(reports: Sequence[Report], kind: str) -> List[Report]:
    """The reports of this kind alone; where they are unread, the others stay so."""
    if not isinstance(reports, Unread):
        return [report for report in reports if report.kind == kind]
    starts = (found.start() for found in re.finditer(f"\x05\x06{re.escape(kind)}\x06", reports.text))
    matches = [_PLAIN.match(reports.text, start) for start in starts]
    if None in matches:
        return of_kind(reports.items, kind)
    return [_plain_report(found) for found in matches if found]


def last_of_kind(reports: Sequence[Report], kind: str) -> Optional[Report]:
    """The last report of this kind, or None; where the reports are unread, the others stay so."""
    if not isinstance(reports, Unread):
        return next((report for report in reversed(reports) if report.kind == kind), None)
    start = reports.text.rfind(f"\x05\x06{kind}\x06")
    if start < 0:
        return None
    found = _PLAIN.match(reports.text, start)
    return last_of_kind(reports.items, kind) if found is None else _plain_report(found)
