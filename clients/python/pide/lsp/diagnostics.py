"""Errors as diagnostics: those of the engine at their commands, what stands in the way of a text at its header, and
what is missing at a theory's end."""

from __future__ import annotations

from typing import Any, Dict, Iterator, List, Optional

from ..endings import Ending, ending_problem
from ..replies import Snapshot
from ..reports import Report
from .documents import Document, unsendable_place
from .positions import Encoding, LineIndex
from .project import Problem
from .view import View

ERROR, WARNING = 1, 2

Diagnostic = Dict[str, Any]


def theory_diagnostics(view: View, ending: Optional[Ending]) -> List[Diagnostic]:
    """The errors that are known of a theory, and what is missing at its end.

    While a text is open that is a warning, since one types there.
    """
    lines, encoding = view.node.lines, view.encoding
    found = [_diagnostic(lines, encoding, Problem(report.start, report.stop, report.text))
             for _, report in view.errors()]
    place = unsendable_place(view.text)
    if place is not None:
        text = f"the character {ord(view.text[place])} can't be sent, and is checked as U+FFFD"
        found.append(_diagnostic(lines, encoding, Problem(place, place + 1, text)))
    if ending is not None:
        stop = len(view.text.rstrip())
        severity = WARNING if isinstance(view.node.source, Document) else ERROR
        found.append(_diagnostic(lines, encoding, Problem(stop, stop, ending.text), severity))
    return found


def problem_diagnostics(text: str, problems: List[Problem], encoding: Encoding) -> List[Diagnostic]:
    """What stands in the way of a text."""
    lines = LineIndex(text)
    return [_diagnostic(lines, encoding, problem) for problem in problems]


def _diagnostic(lines: LineIndex, encoding: Encoding, problem: Problem, severity: int = ERROR) -> Diagnostic:
    return {"range": lines.range(problem.start, problem.stop, encoding), "severity": severity, "source": "pide",
            "message": problem.text}


def ending_of(view: View) -> Optional[Ending]:
    """What is missing at the end of a theory that is checked to its end."""
    last = len(view.cut) - 1
    if last >= 0 and view.cut.meaning(last) == "end" and not _has_error(view, last):
        return None
    reports = sorted(_shape_of(view), key=lambda report: report.start)
    return ending_problem(view.text, Snapshot(1, view.name, reports, (), False), view.cut.aliases.targets)


def _has_error(view: View, number: int) -> bool:
    return any(report.kind == "error" for report in view.reports(number))


def _shape_of(view: View) -> Iterator[Report]:
    """The reports that tell which commands a theory has, which are in error, and the name of the last lemma."""
    errors = list(view.errors())
    yield from (report for _, report in errors)
    in_error = {number for number, _ in errors}
    last_lemma = None
    for number in range(len(view.cut)):
        span = view.span(number)
        if span.word:
            yield Report(span.start, span.start + len(span.word), "command", (("name", span.word),))
            if view.cut.meaning(number) == "lemma" and number not in in_error:
                last_lemma = number
    if last_lemma is not None:
        yield from (report for report in view.reports(last_lemma) if report.kind == "def")
