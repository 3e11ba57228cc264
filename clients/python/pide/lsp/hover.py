"""What stands at a place: the state behind a command, its errors, what a name is; the extension `pide/state`."""

from __future__ import annotations

from typing import Dict, Iterator, List

from ..reports import Report
from .names import Fact, Meaning, RuleName, TheoryName, formula_of, occurrence_at
from .proof_terms import RULES
from .rpc import Json
from .view import View


def hover(view: View, place: int) -> Json:
    """Markdown on the name at the place, the errors of the command, and the state behind it."""
    number = view.command_at(place)
    if number is None:
        return None
    reports = view.reports(number)
    occurrence = occurrence_at(view, place)
    parts = [_described(view, occurrence.meaning)] if occurrence else list(_formula_at(reports, place))
    parts += [f"error: {report.text}" for report in reports if report.kind == "error"]
    parts += [_code(report.text) for report in reports if report.kind == "state" and report.text]
    if view.is_pending(number):
        parts.append("*not checked yet*")
    if not parts:
        return None
    span = occurrence or view.span(number)
    return {"contents": {"kind": "markdown", "value": "\n\n".join(parts)}, "range": view.range(span.start, span.stop)}


def _formula_at(reports: List[Report], place: int) -> Iterator[str]:
    return (_code(report.text) for report in reports
            if report.kind == "formula" and report.start <= place <= report.stop)


def _code(text: str) -> str:
    return f"```pide\n{text}\n```"


def _described(view: View, meaning: Meaning) -> str:
    if isinstance(meaning, RuleName):
        rule = RULES[meaning.name]
        return f"{_code(rule.form)}\n\nrule; goal G: {rule.goal}; {rule.parts}"
    if isinstance(meaning, TheoryName):
        return f"theory {meaning.name}"
    formula = formula_of(view, meaning)
    said = f": {formula}" if formula else ""
    if isinstance(meaning, Fact):
        return _code(f"fact {meaning.theory}.{meaning.name}{said}")
    if meaning.is_variable:
        return _code(f"variable {meaning.name}")
    return _code(f"fact {meaning.name}{said}") + (f"\n\nassumption of {meaning.rule}" if meaning.rule else "")


def state(view: View, place: int) -> Json:
    """The state behind the last command that begins at or before the place, its errors, whether it is pending."""
    number = view.last_command(place)
    if number is None:
        return {"state": "", "errors": [], "pending": False, "range": None, "suggestion": None}
    reports = view.reports(number)
    texts = _texts_by_kind(reports)
    span = view.span(number)
    return {
        "state": "\n".join(texts.get("state", [])),
        "errors": texts.get("error", []),
        "pending": view.is_pending(number),
        "range": view.range(span.start, span.stop),
        "suggestion": next(iter(texts.get("suggest", [])), None),
    }


def _texts_by_kind(reports: List[Report]) -> Dict[str, List[str]]:
    texts: Dict[str, List[str]] = {}
    for report in reports:
        texts.setdefault(report.kind, []).append(report.text)
    return texts
