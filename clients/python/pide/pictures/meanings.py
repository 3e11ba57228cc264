"""What the names in a theory lead to: facts of theories, assumptions and facts of blocks, names that a rule binds."""

from __future__ import annotations

from typing import Dict, List, Mapping, NamedTuple, Optional, Sequence

from ..lsp.proof_terms import Term, read_term
from ..reports import Report
from ..tokens import tokens_of
from .checking import Checked
from .commands import Command
from .names import fact_id, fragment, place_id

_NAMING = frozenset(("def", "ref", "theory", "import"))


class Meaning(NamedTuple):
    """What a name's element has: a class, an id where it gives the name, a target where it leads to one, a hint."""

    css: str
    identifier: str = ""
    target: str = ""
    hint: str = ""


class _Block:
    """The names that a block of a proof has so far, each with its place."""

    def __init__(self) -> None:
        self.names: Dict[str, int] = {}
        self.goal: Dict[str, int] = {}


class Meanings:
    """The meanings of a theory's names, taken in command by command."""

    def __init__(self, checked: Checked, files: Mapping[str, str]) -> None:
        self._checked = checked
        self._files = files
        self._blocks: List[_Block] = [_Block()]
        self._names = _by_command(checked.reports)

    def of(self, command: Command) -> Dict[int, Meaning]:
        """The meanings of the names in the next command, by place."""
        word = self._checked.aliases.targets.get(command.word, command.word)
        given: Dict[str, int] = {}
        meanings: Dict[int, Meaning] = {}
        term: Optional[Term] = None
        for report in self._names.within(command):
            if report.kind == "ref" and not _theory_of(report):
                term = term or self._term(command)
                meanings[report.start] = self._local(report, term)
            else:
                meanings[report.start] = self._meaning(report)
            if report.kind == "def" and not _theory_of(report):
                given[_name_of(report)] = report.start
        if term is not None:
            meanings.update((binder.token.start, _bound(binder.token.start)) for binder in term.binders)
        if command.error is None or word == "by":
            self._enter(word, given)
        return meanings

    def _term(self, command: Command) -> Term:
        start = command.start + len(command.word)
        return read_term(tokens_of(self._checked.text, start, command.stop, self._checked.aliases))

    def _meaning(self, report: Report) -> Meaning:
        theory, name = _theory_of(report), _name_of(report)
        if report.kind == "ref":
            file = self._files.get(theory)
            own = "" if theory == self._checked.name else f"{file}"
            target = f"{own}{fragment(fact_id(name))}" if file else ""
            return Meaning("fact", "", target, f"{theory}.{name}")
        if report.kind == "def":
            return Meaning("given", fact_id(name) if theory else place_id(report.start))
        target = self._files.get(name, "") if name != self._checked.name else ""
        return Meaning("theory", "", target)

    def _local(self, report: Report, term: Term) -> Meaning:
        name = _name_of(report)
        binder = term.binder_of(name, report.start)
        if binder is not None:
            return Meaning("fact", "", fragment(place_id(binder.token.start)), f"bound by {binder.rule}")
        for block in reversed(self._blocks):
            if name in block.names:
                return Meaning("fact", "", fragment(place_id(block.names[name])))
        return Meaning("fact")

    def _enter(self, word: str, given: Dict[str, int]) -> None:
        """Follows what a command does to the blocks. The name of a `have` counts once its goal is closed."""
        block = self._blocks[-1]
        if word in ("lemma", "axiom", "theory", "end", "load"):
            self._blocks = [_Block()]
        elif word == "proof":
            self._blocks.append(_Block())
        elif word == "qed" and len(self._blocks) > 1:
            self._blocks.pop()
            self._close_goal()
        elif word == "next":
            block.names.clear()
        elif word in ("have", "show"):
            block.goal = given
        elif word == "by":
            self._close_goal()
        else:
            block.names.update(given)

    def _close_goal(self) -> None:
        block = self._blocks[-1]
        block.names.update(block.goal)
        block.goal = {}


class _NamesByCommand:
    """Reports of names, handed out command by command."""

    def __init__(self, reports: Sequence[Report]) -> None:
        self._reports = reports
        self._next = 0

    def within(self, command: Command) -> List[Report]:
        while self._next < len(self._reports) and self._reports[self._next].start < command.start:
            self._next += 1
        begin = self._next
        while self._next < len(self._reports) and self._reports[self._next].start < command.stop:
            self._next += 1
        return list(self._reports[begin : self._next])


def _by_command(reports: Sequence[Report]) -> _NamesByCommand:
    return _NamesByCommand([report for report in reports if report.kind in _NAMING])


def _name_of(report: Report) -> str:
    return dict(report.properties).get("name", "")


def _theory_of(report: Report) -> str:
    return dict(report.properties).get("theory", "")


def _bound(start: int) -> Meaning:
    return Meaning("bound", place_id(start))
