"""Errors of theories by file, line and column, and which of them follow from others."""

from __future__ import annotations

from dataclasses import dataclass, field, replace
from typing import Any, Dict, Iterable, List, Mapping, Optional, Tuple, Union

from .display import marked, shortened, shown, shown_path
from .endings import ending_problem
from .following import grouped
from .replies import Built, Snapshot
from .reports import Report, last_of_kind
from .theories import Theories, Theory

BAD_IMPORT = "bad import "
NAME_DIFFERS = "theory name differs"
_MOST_OF_CYCLE = 8


@dataclass(frozen=True, order=True)
class Finding:
    """An error at a line and column of a file, both from 1.

    The theory is known by the node's name; the range is in characters of its text.
    """

    path: str
    line: int
    column: int
    text: str
    node: str = field(default="", compare=False)
    range: Tuple[int, int] = field(default=(0, 0), compare=False)
    theory: Optional[Theory] = field(default=None, compare=False, repr=False)

    def line_in(self, encoding: str = "utf-8", behind: int = 0) -> str:
        """One line for a stream of this encoding: where it is, what is wrong, and how many errors follow from it."""
        text = shown(shortened(self.text), encoding)
        more = f", and {counted(behind, 'error')} behind it" if behind else ""
        return f"{shown_path(self.path, encoding)}:{self.line}:{self.column}: error: {text}{more}"

    def excerpt(self, room: int, encoding: str = "utf-8") -> Tuple[str, ...]:
        """The line of the text, cut to so many columns, and marks under what is meant."""
        if self.theory is None:
            return ()
        return marked(self.theory.text, self.theory.lines.span(self.line), range(*self.range), room, encoding)

    def as_json(self, behind: int = 0) -> Dict[str, Any]:
        """The finding as a JSON object, with the number of the errors that follow from it."""
        start, stop = self.range
        end_line, end_column = self.theory.lines.place(stop) if self.theory else (self.line, self.column)
        return {
            "kind": "error",
            "file": self.path,
            "theory": self.node,
            "line": self.line,
            "column": self.column,
            "end_line": end_line,
            "end_column": end_column,
            "offset": start,
            "end_offset": stop,
            "text": self.text,
            "behind": behind,
        }


@dataclass
class Cause:
    """An error that follows from no other, and those that follow from it."""

    first: Finding
    behind: List[Finding] = field(default_factory=list)


@dataclass
class Checked:
    """What is found in one theory: `has_begun` says that its header was accepted, `reported` how many of the errors
    the engine has reported."""

    causes: List[Cause]
    has_begun: bool
    reported: int


def counted(number: int, noun: str) -> str:
    """The number and the noun, as `1 error`, `2,001 errors`, `3 theories`."""
    plural = f"{noun[:-1]}ies" if noun.endswith("y") else f"{noun}s"
    return f"{number:,} {noun if number == 1 else plural}"


def checked_of(node: str, theories: Theories, known: Union[Snapshot, Built]) -> Checked:
    """What is found in a theory, by a snapshot of all of it or by what a build tells of it."""
    theory = theories.nodes[node]
    aliases = theories.aliases.get(node, {})

    def finding(error: Report) -> Finding:
        return _finding(node, theory, error.start, error.stop, _explained(node, theory, error.text))

    causes = [Cause(finding(group.first), [finding(error) for error in group.behind])
              for group in grouped(known.reports, aliases)]
    reported = sum(1 + len(cause.behind) for cause in causes)
    ending = ending_problem(theory.text, known, aliases)
    if ending is not None:
        causes.append(Cause(_finding(node, theory, ending.place, ending.place, ending.text)))
    return Checked(causes, last_of_kind(known.reports, "theory") is not None, reported)


def _finding(node: str, theory: Theory, start: int, stop: int, text: str) -> Finding:
    line, column = theory.lines.place(start)
    return Finding(str(theory.path), line, column, text, node, (start, stop), theory)


def _explained(node: str, theory: Theory, text: str) -> str:
    """The error's text, and what the engine doesn't tell of it."""
    if text == NAME_DIFFERS and theory.header is not None:
        return f"{text}: the header says {theory.header.name}, and it is checked as {node}"
    return text


def causes_of(found: Mapping[str, Checked]) -> List[Cause]:
    """The causes of all theories, ordered by file, line and column.

    Where a theory never began since one that it imports never began, its errors follow from that one's first error.
    Of a circle of imports one theory's error is reported, with the circle by its names.
    """
    imported = {node: other for node, checked in found.items() for other in _unbegun_import(checked, found)}
    roots, cycles = _roots(imported, found)
    firsts = {node: _told(checked.causes, cycles.get(node)) for node, checked in found.items()}
    for node, root in roots.items():
        if node != root:
            cause = firsts[node].pop(0)
            firsts[root][0].behind += [cause.first, *cause.behind]
    return sorted((cause for causes in firsts.values() for cause in causes), key=lambda cause: cause.first)


def _unbegun_import(checked: Checked, found: Mapping[str, Checked]) -> Iterable[str]:
    """The import that the theory's header is in error for, where that never began either."""
    if checked.has_begun or not checked.causes or not checked.causes[0].first.text.startswith(BAD_IMPORT):
        return
    other = checked.causes[0].first.text[len(BAD_IMPORT) :]
    if other in found and not found[other].has_begun and found[other].causes:
        yield other


def _roots(imported: Mapping[str, str], found: Mapping[str, Checked]) -> Tuple[Dict[str, str], Dict[str, List[str]]]:
    """Of each theory the one from whose error its own follow, and the circles of imports by these."""
    roots: Dict[str, str] = {}
    cycles: Dict[str, List[str]] = {}
    for node in imported:
        way: Dict[str, int] = {}
        while node in imported and node not in roots and node not in way:
            way[node] = len(way)
            node = imported[node]
        if node in way:
            circle = list(way)[way[node] :]
            node = min(circle)
            cycles[node] = circle[circle.index(node) :] + circle[: circle.index(node)] + [node]
        roots.update((other, roots.get(node, node)) for other in way)
    return roots, cycles


def _told(causes: List[Cause], cycle: Optional[List[str]]) -> List[Cause]:
    """Copies of the causes, to which others can be added; the first one tells of the circle where there is one."""
    copies = [Cause(cause.first, list(cause.behind)) for cause in causes]
    if cycle:
        names = cycle if len(cycle) <= _MOST_OF_CYCLE else [*cycle[: _MOST_OF_CYCLE - 2], "..", cycle[-1]]
        first = copies[0].first
        copies[0].first = replace(first, text=f"{first.text}: import cycle: {' -> '.join(names)}")
    return copies
