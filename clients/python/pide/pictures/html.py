"""The command `html`: theories as static pages."""

from __future__ import annotations

import argparse
from collections import Counter
from pathlib import Path
from typing import Any, Dict, Iterator, List, Optional, Sequence

from ..check import DONE, FOUND, print_problems
from ..commands import FAILED
from ..errors import PideError
from ..output import write_lines
from ..session import Session
from ..theories import Theories, load
from .checking import checked
from .facts_pages import FactsPages, initial
from .frame import IMPORTS, INDEX, SCRIPT_FILE, STYLE_FILE, write_page
from .graph import imports_page
from .imports import importers_of, imports_of, in_order
from .index_page import Index
from .names import FOLDER, page_files
from .progress import Bar
from .script import SCRIPT
from .sorting import SortedFacts
from .style import STYLE
from .theory_page import Surroundings, TheoryPage


def add_command(commands: Any, common: argparse.ArgumentParser) -> None:
    """Adds the command to those of `python3 -m pide`."""
    parser = commands.add_parser("html", parents=[common], help="make pages of files and what they import",
                                 description="Writes a page for each theory, an index, an index of facts and the graph"
                                 " of imports. The exit status is as check has it.")
    parser.add_argument("files", metavar="FILE", type=Path, nargs="+")
    parser.add_argument("-o", dest="output", metavar="FOLDER", type=Path, required=True,
                        help="where the pages go; it is made where it isn't there")
    parser.set_defaults(run=run)


def run(asked: argparse.Namespace) -> int:
    """Makes the pages: 0 where all is right, 1 where errors are found, 2 where something that was asked for isn't there
    or can't be checked."""
    theories = load(asked.files, asked.folders)
    try:
        (asked.output / FOLDER).mkdir(parents=True, exist_ok=True)
        index = write_pages(theories, asked.output, asked.program)
    except OSError as error:
        raise PideError(f"{error.filename or asked.output}: {error.strerror or error}") from error
    print_problems(theories.problems)
    write_lines([str(asked.output / INDEX)])
    if any(problem.fails for problem in theories.problems):
        return FAILED
    return FOUND if index.errors else DONE


def write_pages(theories: Theories, folder: Path, program: Optional[str]) -> Index:
    """Checks the theories and writes all pages; gives what the index tells. The folder has the theories' own in it."""
    imports = imports_of(theories.nodes)
    files = page_files(theories.nodes)
    index = Index(files, imports, [str(problem) for problem in theories.problems])
    bar = Bar(len(files), "theories")
    with SortedFacts() as facts:
        letters: Counter[str] = Counter()
        try:
            for theory in _theory_pages(theories, imports, files, program):
                write_page(folder / FOLDER / files[theory.name], theory.pieces())
                index.add(theory)
                letters.update(initial(fact.name) for fact in theory.facts)
                for fact in theory.facts:
                    facts.add(fact)
                bar.show(len(index.rows))
        finally:
            bar.clear()
        FactsPages(facts, letters, files).write(folder)
    write_page(folder / INDEX, index.pieces())
    write_page(folder / IMPORTS, imports_page(imports, files, index.wrong))
    write_page(folder / STYLE_FILE, [STYLE])
    write_page(folder / SCRIPT_FILE, [SCRIPT])
    return index


def _theory_pages(
    theories: Theories, imports: Dict[str, List[str]], files: Dict[str, str], program: Optional[str]
) -> Iterator[TheoryPage]:
    """The theories' pages in order, each made once."""
    if not theories.nodes:
        return
    order = in_order(imports)
    importers = importers_of(imports)
    neighbours: Sequence[str] = ["", *order, ""]
    session = Session(program)
    try:
        for number, found in enumerate(checked(session, theories.nodes, order, imports)):
            around = Surroundings(files, imports[found.name], importers[found.name], neighbours[number],
                                  neighbours[number + 2])
            yield TheoryPage(found, around)
    finally:
        session.kill()  # all is answered: the program needn't take its time to give its memory back
