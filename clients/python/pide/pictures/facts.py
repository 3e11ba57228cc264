"""The facts that a theory gives: names with formulas."""

from __future__ import annotations

from typing import Dict, Iterable, Iterator, List, Mapping, NamedTuple, Sequence, Tuple

from ..reports import Report
from .commands import Command

_STATING = frozenset(("axiom", "lemma", "load"))
_OPENING = frozenset(("lemma", "have", "show"))
_CLOSING = frozenset(("by", "qed"))
_REFUSALS_OF_BY = frozenset(("malformed command", "not allowed here"))


class Fact(NamedTuple):
    """A fact of a theory: its name, its theory, the place of its name in characters, the word of its command, the
    formula as it is printed, and whether it is an axiom or has a proof without an error."""

    name: str
    theory: str
    start: int
    word: str
    formula: str
    is_right: bool


def facts_of(reports: Iterable[Report], commands: Sequence[Command], aliases: Mapping[str, str]) -> Iterator[Fact]:
    """The facts of a theory, by place."""
    named, formulas = _named(reports)
    for command, is_right in _stated(commands, aliases):
        for start in range(command.start, command.stop):
            if start in named:
                theory, name = named[start]
                formula = next((formulas[at] for at in range(start, command.stop) if at in formulas), "")
                yield Fact(name, theory, start, command.word, formula, is_right)


def _named(reports: Iterable[Report]) -> Tuple[Dict[int, Tuple[str, str]], Dict[int, str]]:
    """The facts that are given, by place, as theory and name; the formulas by place."""
    named: Dict[int, Tuple[str, str]] = {}
    formulas: Dict[int, str] = {}
    for report in reports:
        properties = dict(report.properties)
        if report.kind == "def" and "theory" in properties:
            named[report.start] = properties["theory"], properties["name"]
        elif report.kind == "formula":
            formulas[report.start] = report.text
    return named, formulas


def _stated(commands: Sequence[Command], aliases: Mapping[str, str]) -> List[Tuple[Command, bool]]:
    """The commands that give facts of the theory, each with whether it is no lemma or has a right proof behind it.

    What is refused within a proof leaves it as it was.
    """
    stated: List[Tuple[Command, bool]] = []
    depth, is_right = 0, True
    for command in commands:
        word = aliases.get(command.word, command.word)
        if command.error is not None and (word != "by" or command.error in _REFUSALS_OF_BY):
            continue
        if word in _STATING:
            stated.append((command, word != "lemma"))
            is_right = True
        depth += (word in _OPENING) - (word in _CLOSING)
        is_right = is_right and command.error is None
        if word in _CLOSING and depth == 0 and stated:
            stated[-1] = stated[-1][0], is_right
    return stated
