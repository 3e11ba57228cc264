"""What the names in a theory mean: facts of theories, assumptions within proofs, rules, theories."""

from __future__ import annotations

import re
from dataclasses import dataclass
from typing import Iterator, NamedTuple, Optional, Tuple, Union

from ..reports import Report
from ..tokens import tokens_of
from .proof_terms import RULES, Binder, Term, read_term
from .view import View

_GOALS = frozenset(("lemma", "have", "show"))
_TOP = frozenset(("theory", "end", "axiom", "lemma", "load"))


@dataclass(frozen=True)
class Fact:
    """A fact of a theory."""

    theory: str
    name: str


@dataclass(frozen=True)
class Local:
    """A name within a proof, by the place where it is given; `rule` is the rule that binds it, if one does."""

    theory: str
    start: int
    name: str
    rule: str = ""
    is_variable: bool = False


@dataclass(frozen=True)
class RuleName:
    """A rule of proof terms."""

    name: str


@dataclass(frozen=True)
class TheoryName:
    """A theory, in a header."""

    name: str


Meaning = Union[Fact, Local, RuleName, TheoryName]


class Occurrence(NamedTuple):
    """A name in a text, and what it means."""

    start: int
    stop: int
    meaning: Meaning


def occurrence_at(view: View, place: int) -> Optional[Occurrence]:
    """The name at the place, or that ends there, and what it means; None where that isn't known."""
    number = view.command_at(place)
    if number is None:
        return None
    for report in view.reports(number):
        if report.start <= place <= report.stop:
            meaning = _reported(view, number, report)
            if meaning is not None:
                return Occurrence(report.start, report.stop, meaning)
    if view.cut.meaning(number) == "by":
        return _in_term(view, number, place)
    return _in_header(view, place) if number == 0 else None


def _reported(view: View, number: int, report: Report) -> Optional[Meaning]:
    properties = dict(report.properties)
    name = properties.get("name", "")
    if report.kind in ("theory", "import"):
        return TheoryName(name)
    if report.kind not in ("def", "ref"):
        return None
    if "theory" in properties:
        return Fact(properties["theory"], name)
    if report.kind == "def":
        return Local(view.name, report.start, name, is_variable=view.cut.meaning(number) == "fix")
    return local_meaning(view, number, term_of(view, number), name, report.start)


def term_of(view: View, number: int) -> Term:
    """The proof term of a `by`."""
    span = view.span(number)
    return read_term(tokens_of(view.text, span.start + len(span.word), span.stop, view.cut.aliases))


def _in_term(view: View, number: int, place: int) -> Optional[Occurrence]:
    """A name in a proof that isn't right, or isn't checked yet."""
    term = term_of(view, number)
    for token in term.rules:
        if token.start <= place <= token.stop and token.text in RULES:
            return Occurrence(token.start, token.stop, RuleName(token.text))
    for binder in term.binders:
        if binder.token.start <= place <= binder.token.stop:
            return Occurrence(binder.token.start, binder.token.stop, _bound(view, binder))
    for token in term.names:
        if token.start <= place <= token.stop:
            meaning = name_meaning(view, number, term, token.text, token.start)
            return Occurrence(token.start, token.stop, meaning) if meaning else None
    return None


def _bound(view: View, binder: Binder) -> Local:
    return Local(view.name, binder.token.start, binder.token.text, binder.rule, binder.is_variable)


def name_meaning(view: View, number: int, term: Term, name: str, place: int) -> Optional[Meaning]:
    """What a name that a proof cites means, found by scope."""
    local = local_meaning(view, number, term, name, place)
    return local if local is not None else fact_meaning(view, number, name)


def local_meaning(view: View, number: int, term: Term, name: str, place: int) -> Optional[Local]:
    """The assumption or fact of a proof that the name means: the innermost binder's, else a block's."""
    binder = term.binder_of(name, place)
    if binder is not None:
        return _bound(view, binder)
    for other in commands_in_scope(view, number):
        for report in view.reports(other):
            if report.kind == "def" and dict(report.properties) == {"name": name}:
                return Local(view.name, report.start, name)
    return None


def commands_in_scope(view: View, number: int) -> Iterator[int]:
    """The commands before this one, the nearest first, whose assumptions and facts stand in its blocks."""
    depth, is_let_go, is_closed = 0, False, False
    for other in range(number - 1, -1, -1):
        word = view.cut.meaning(other)
        if word in _TOP:
            return
        if word == "qed":
            depth += 1
        elif word == "proof":
            is_closed, is_let_go = depth == 1, is_let_go and depth > 0
            depth = max(0, depth - 1)
        elif depth == 0:
            is_let_go = is_let_go or word == "next"
            if not is_let_go and (word == "assume" or (word == "have" and is_closed)):
                yield other
            is_closed = word == "by" or (is_closed and word not in _GOALS)


def fact_meaning(view: View, number: int, name: str) -> Optional[Fact]:
    """The fact of a theory that the name means in this command: its own theory's, else one of what it imports."""
    theory, _, simple = name.rpartition(".")
    for other in view.in_scope():
        if theory in ("", other.name):
            definition = definition_of(other, simple)
            if definition is not None and (other.name != view.name or definition[0] < number):
                return Fact(other.name, simple)
    return None


def definition_of(view: View, name: str) -> Optional[Tuple[int, Report]]:
    """Where a theory defines a fact: the number of the command, and the report."""
    mark = f"\x06theory={view.name}\x06name={name}\x05"
    for number in range(len(view.cut)):
        for text in view.texts(number):
            if mark in text:
                for report in view.reports(number):
                    if report.kind == "def" and dict(report.properties) == {"theory": view.name, "name": name}:
                        return number, report
    return None


def definitions(view: View, prefix: str = "") -> Iterator[Tuple[int, str]]:
    """The facts that a theory defines whose names begin so, each with the number of its command."""
    name = re.escape(prefix) + "[^\x05\x06]*"
    pattern = re.compile(f"\x05\x06def\x06[^\x05]*\x06theory=[^\x05\x06]*\x06name=({name})\x05")
    for number in range(len(view.cut)):
        for text in view.texts(number):
            for found in pattern.finditer(text):
                yield number, found[1]


def formula_of(view: View, meaning: Meaning) -> Optional[str]:
    """The formula that a fact says, where it is known."""
    if isinstance(meaning, Fact):
        other = view.other(meaning.theory)
        definition = definition_of(other, meaning.name) if other else None
        return stated_formula(other, definition[0]) if other and definition else None
    if isinstance(meaning, Local) and not meaning.rule:
        number = view.command_at(meaning.start)
        return stated_formula(view, number) if number is not None else None
    return None


def stated_formula(view: View, number: int) -> Optional[str]:
    """The formula that a command states."""
    return next((report.text for report in view.reports(number) if report.kind == "formula"), None)


def occurrences(view: View, meaning: Meaning) -> Iterator[Tuple[View, Occurrence]]:
    """Where the name stands that has this meaning, in all theories that are checked; of a local one in its proof."""
    if isinstance(meaning, Local):
        yield from ((view, found) for found in _occurrences_in(view, meaning, *_proof_around(view, meaning.start)))
    else:
        for other in view.all():
            yield from ((other, found) for found in _occurrences_in(other, meaning, 0, len(other.text)))


def _proof_around(view: View, place: int) -> Tuple[int, int]:
    """Where the lemma with its proof, in which the place is, starts and stops."""
    number = max(view.cut.at(place), 0)
    first = next((other for other in range(number, -1, -1) if view.cut.meaning(other) in _TOP), 0)
    behind = range(number + 1, len(view.cut))
    last = next((other for other in behind if view.cut.meaning(other) in _TOP), len(view.cut))
    return view.cut.starts[first], view.cut.starts[last] if last < len(view.cut) else len(view.text)


def _occurrences_in(view: View, meaning: Meaning, start: int, stop: int) -> Iterator[Occurrence]:
    pattern = re.compile(r"(?<![A-Za-z0-9_'])" + re.escape(meaning.name) + r"(?![A-Za-z0-9_'])")
    seen = -1
    for found in pattern.finditer(view.text, start, stop):
        occurrence = occurrence_at(view, found.start()) if found.start() > seen else None
        if occurrence is not None and occurrence.meaning == meaning:
            seen = occurrence.start
            yield occurrence


def _in_header(view: View, place: int) -> Optional[Occurrence]:
    """A name in a header that is in error."""
    header = view.node.source.header
    for name, start in header.imports if header else ():
        if start <= place <= start + len(name):
            return Occurrence(start, start + len(name), TheoryName(name))
    return None
