"""The index of facts: all facts by name with their formulas, some hundreds a page."""

from __future__ import annotations

from itertools import groupby, islice
from pathlib import Path
from typing import Dict, Iterator, List, Mapping

from .escaping import text_html
from .facts import Fact
from .frame import FACTS, Frame, counted, link, page, proof_sign, write_page
from .names import FOLDER, fact_id, fragment
from .sorting import SortedFacts

A_PAGE = 500


def facts_file(number: int) -> str:
    """The file of the page of this number, from 1."""
    return FACTS if number == 1 else f"facts-{number}.html"


class FactsPages:
    """The pages of the index of facts; `letters` tells how many facts begin with each letter, in order."""

    def __init__(self, facts: SortedFacts, letters: Mapping[str, int], files: Mapping[str, str]) -> None:
        self._facts = facts
        self._files = files
        self._count = max(1, -(-facts.count // A_PAGE))
        self._pages = _pages_of(letters)

    def write(self, folder: Path) -> None:
        facts = iter(self._facts)
        for number in range(1, self._count + 1):
            write_page(folder / facts_file(number), self._page(number, list(islice(facts, A_PAGE))))

    def _page(self, number: int, facts: List[Fact]) -> Iterator[str]:
        title = "Facts" if self._count == 1 else f"Facts, page {number:,} of {self._count:,}"
        yield from page(Frame(title, current=FACTS), self._header(number), self._main(facts))

    def _header(self, number: int) -> Iterator[str]:
        yield f"<p>{counted(self._facts.count, 'fact')} by name, each with its theory and formula.</p>\n"
        letters = " ".join(link(facts_file(at) + f"#letter-{letter}", letter) for letter, at in self._pages.items())
        if self._pages:
            yield f'<nav class="letters" aria-label="Facts by letter">{letters}</nav>\n'
        steps = []
        if number > 1:
            steps.append(f'<a rel="prev" href="{facts_file(number - 1)}">← page {number - 1:,}</a>')
        if number < self._count:
            steps.append(f'<a rel="next" href="{facts_file(number + 1)}">page {number + 1:,} →</a>')
        if steps:
            yield f'<nav class="neighbours" aria-label="Pages of facts">{" ".join(steps)}</nav>\n'

    def _main(self, facts: List[Fact]) -> Iterator[str]:
        if not facts:
            yield "<p>There is no fact in these theories.</p>\n"
        for letter, group in groupby(facts, key=lambda fact: initial(fact.name)):
            yield f'<section aria-labelledby="letter-{letter}">\n<h2 id="letter-{letter}">{letter}</h2>\n'
            yield '<dl class="facts index">\n'
            for fact in group:
                yield self._row(fact)
            yield "</dl>\n</section>\n"

    def _row(self, fact: Fact) -> str:
        target = f"{FOLDER}/{self._files[fact.theory]}{fragment(fact_id(fact.name))}"
        given = f'<span class="from">{text_html(fact.word)} of {text_html(fact.theory)}</span>'
        return f"<dt>{link(target, fact.name)} {given}{proof_sign(fact)}</dt><dd>{text_html(fact.formula)}</dd>\n"


def initial(name: str) -> str:
    """The letter under which a fact stands."""
    return name[0].upper()


def _pages_of(letters: Mapping[str, int]) -> Dict[str, int]:
    """The page on which each letter begins."""
    pages: Dict[str, int] = {}
    before = 0
    for letter in sorted(letters):
        pages[letter] = before // A_PAGE + 1
        before += letters[letter]
    return pages
