"""The page of a theory."""

from __future__ import annotations

from dataclasses import dataclass
from typing import Iterator, List, Mapping, Sequence

from ..reports import Report
from ..theories import Lines
from .checking import Checked
from .commands import Command, commands_of
from .escaping import text_html
from .facts import Fact, facts_of
from .frame import Frame, counted, link, page, proof_sign, verdict
from .names import command_id, fact_id, fragment
from .theory_text import text_elements

_FAR_FROM_TEXT = 12


@dataclass(frozen=True)
class Surroundings:
    """What a page says of other theories: the files of all, what this one imports and what imports it, and which
    stand before and behind it in order, each empty where there is none."""

    files: Mapping[str, str]
    imports: Sequence[str] = ()
    importers: Sequence[str] = ()
    before: str = ""
    behind: str = ""


@dataclass(frozen=True)
class Fault:
    """An error of a theory: the id of its place in the page, its line and column from 1, its text."""

    target: str
    line: int
    column: int
    text: str


class TheoryPage:
    """A theory's page, and what the other pages tell of it."""

    def __init__(self, checked: Checked, around: Surroundings) -> None:
        self._checked = checked
        self._around = around
        self._commands: List[Command] = commands_of(checked.reports)
        self.name = checked.name
        self.facts: List[Fact] = list(facts_of(checked.reports, self._commands, checked.aliases.targets))
        self.faults: List[Fault] = self._faults()

    def _faults(self) -> List[Fault]:
        lines = Lines(self._checked.text)
        faults = []
        for command in self._commands:
            if command.error is not None:
                faults.append(Fault(command_id(command.start), *lines.place(command.start), command.error))
        ending: Sequence[Report] = [self._checked.ending] if self._checked.ending else []
        return faults + [Fault("ending", *lines.place(report.start), report.text) for report in ending]

    def pieces(self) -> Iterator[str]:
        """The page, piece by piece."""
        frame = Frame(self.name, "../", skip_to="text", skip_label="Skip to the theory’s text")
        yield from page(frame, self._header(), self._main(), self._aside())

    def _header(self) -> Iterator[str]:
        yield from self._neighbours()
        yield verdict(len(self.faults), f"Checked without an error, {counted(len(self.facts), 'fact')}")
        if self._around.imports:
            yield f'<p class="imports">Imports {self._links(self._around.imports)}</p>\n'

    def _neighbours(self) -> Iterator[str]:
        before, behind = self._around.before, self._around.behind
        links = []
        if before:
            links.append(f'<a rel="prev" href="{self._around.files[before]}">← {text_html(before)}</a>')
        if behind:
            links.append(f'<a rel="next" href="{self._around.files[behind]}">{text_html(behind)} →</a>')
        if links:
            yield f'<nav class="neighbours" aria-label="Theories in order">{" ".join(links)}</nav>\n'

    def _main(self) -> Iterator[str]:
        if self.faults:
            yield '<section class="errors" aria-labelledby="errors">\n<h2 id="errors">Errors</h2>\n<ol>\n'
            for fault in self.faults:
                shown = f"{fault.line}:{fault.column}"
                yield f"<li>{link(f'#{fault.target}', shown)} {text_html(fault.text)}</li>\n"
            yield "</ol>\n</section>\n"
        yield from text_elements(self._checked, self._commands, self._around.files)

    def _aside(self) -> Iterator[str]:
        if not self.facts and not self._around.importers:
            return
        yield '<aside aria-label="About this theory">\n'
        if self._around.importers:
            yield f"<h2>Imported by</h2>\n<p>{self._links(self._around.importers)}</p>\n"
        if self.facts:
            yield '<h2>Facts</h2>\n<dl class="facts">\n'
            for fact in self.facts:
                named = link(fragment(fact_id(fact.name)), fact.name) + proof_sign(fact)
                yield f"<dt>{named}</dt><dd>{text_html(fact.formula)}</dd>\n"
            yield "</dl>\n"
        yield "</aside>\n"

    def _links(self, names: Sequence[str]) -> str:
        shown = [link(self._around.files[name], name) for name in names[:_FAR_FROM_TEXT]]
        more = len(names) - len(shown)
        return ", ".join(shown) + (f" and {counted(more, 'more theory', 'more theories')}" if more else "")
