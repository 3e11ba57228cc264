"""The index: all theories, all errors, what stood in the way, and the graph where it is small."""

from __future__ import annotations

from dataclasses import dataclass, field
from typing import Iterator, List, Mapping, Sequence, Tuple

from .escaping import text_html
from .frame import INDEX, Frame, counted, link, page, verdict
from .graph import graph
from .imports import Imports
from .names import FOLDER
from .theory_page import Fault, TheoryPage

MOST_ERRORS = 1_000
MOST_IN_GRAPH = 60


@dataclass
class Index:
    """What the index tells: theories in order with how many facts and errors each has, and the first errors."""

    files: Mapping[str, str]
    imports: Imports
    problems: Sequence[str] = ()
    rows: List[Tuple[str, int, int]] = field(default_factory=list)
    faults: List[Tuple[str, Fault]] = field(default_factory=list)

    def add(self, theory: TheoryPage) -> None:
        """Takes in what a theory's page found."""
        self.rows.append((theory.name, len(theory.facts), len(theory.faults)))
        room = MOST_ERRORS - len(self.faults)
        self.faults += [(theory.name, fault) for fault in theory.faults[:room]]

    @property
    def errors(self) -> int:
        return sum(errors for _, _, errors in self.rows)

    @property
    def wrong(self) -> List[str]:
        """The theories that have errors."""
        return [name for name, _, errors in self.rows if errors]

    def pieces(self) -> Iterator[str]:
        """The page, piece by piece."""
        yield from page(Frame("Theories", current=INDEX), self._header(), self._main())

    def _header(self) -> Iterator[str]:
        facts = sum(count for _, count, _ in self.rows)
        told = f"{counted(len(self.rows), 'theory', 'theories')} with {counted(facts, 'fact')}"
        yield verdict(self.errors, "Checked without an error")
        yield f"<p>{told}.</p>\n"

    def _main(self) -> Iterator[str]:
        yield from self._problems()
        yield from self._errors()
        yield from self._theories()
        if 1 < len(self.rows) <= MOST_IN_GRAPH:
            yield "<h2>Imports</h2>\n"
            yield from graph(self.imports, self.files, self.wrong)

    def _problems(self) -> Iterator[str]:
        if self.problems:
            yield '<section class="errors" aria-labelledby="problems">\n<h2 id="problems">Not checked</h2>\n<ul>\n'
            yield from (f"<li>{text_html(problem)}</li>\n" for problem in self.problems)
            yield "</ul>\n</section>\n"

    def _errors(self) -> Iterator[str]:
        if not self.faults:
            return
        yield '<section class="errors" aria-labelledby="errors">\n<h2 id="errors">Errors</h2>\n<ol>\n'
        for name, fault in self.faults:
            place = f"{name} {fault.line}:{fault.column}"
            target = f"{FOLDER}/{self.files[name]}#{fault.target}"
            yield f"<li>{link(target, place)} {text_html(fault.text)}</li>\n"
        yield "</ol>\n"
        more = self.errors - len(self.faults)
        if more:
            yield f"<p>{counted(more, 'more error stands', 'more errors stand')} on the theories’ pages.</p>\n"
        yield "</section>\n"

    def _theories(self) -> Iterator[str]:
        yield '<table class="theories">\n<thead><tr><th scope="col">Theory</th><th scope="col">Imports</th>'
        yield '<th scope="col" class="number">Facts</th><th scope="col">Errors</th></tr></thead>\n<tbody>\n'
        for name, facts, errors in self.rows:
            imported = ", ".join(link(f"{FOLDER}/{self.files[other]}", other) for other in self.imports[name])
            sign = f'<span class="wrong">✗ {errors:,}</span>' if errors else '<span class="right">✓ none</span>'
            yield (
                f'<tr><th scope="row">{link(f"{FOLDER}/{self.files[name]}", name)}</th><td>{imported or "–"}</td>'
                f'<td class="number">{facts:,}</td><td>{sign}</td></tr>\n'
            )
        yield "</tbody>\n</table>\n"
