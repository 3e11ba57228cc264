"""Checks theories in files, and tells their errors by file, line and column."""

from __future__ import annotations

import argparse
import json
import sys
import time
from pathlib import Path
from typing import TYPE_CHECKING, Any, Dict, Iterable, Iterator, List, Optional, TextIO, Tuple

from .building import MOST_WORKERS, Build, usual_workers
from .commands import FAILED
from .errors import ProtocolFault
from .findings import Cause, Checked, Finding, causes_of, checked_of, counted
from .output import encoding_of, tell, write_error, write_lines
from .replies import Total
from .terminal import can_overwrite, is_terminal, width
from .theories import STANDARD_INPUT, Problem, Theories, load

if TYPE_CHECKING:
    from .commands import Commands

BETWEEN_SIGNS = 0.1
DONE, FOUND = 0, 1


class Progress:
    """A line in a terminal that tells how many theories are checked, written anew a few times a second."""

    def __init__(self, stream: Optional[TextIO], count: int) -> None:
        self._is_shown = can_overwrite(stream)
        self._count = count
        self._done = 0
        self._last = time.monotonic()
        self._stands = False

    def step(self) -> None:
        """One theory more is checked."""
        self._done += 1
        now = time.monotonic()
        if self._is_shown and now - self._last >= BETWEEN_SIGNS:
            self._last = now
            self._stands = True
            write_error(f"\r{self._done:,} of {counted(self._count, 'theory')}\x1b[K")

    def clear(self) -> None:
        """Takes the line off the terminal."""
        if self._stands:
            self._stands = False
            write_error("\r\x1b[K")


def check(theories: Theories, program: Optional[str] = None, workers: Optional[int] = None) -> Dict[str, Checked]:
    """Checks the theories from scratch, and gives what is found in each.

    Raises a PideError where the program isn't there, refuses a theory, or ends before all is checked.
    """
    if not theories.nodes:
        return {}
    texts = {node: theory.text for node, theory in theories.nodes.items()}
    count = usual_workers(len(texts)) if workers is None else workers
    found: Dict[str, Checked] = {}
    progress = Progress(sys.stderr, len(texts))
    try:
        with Build(texts, program, count) as build:
            for reply in build.replies():
                if isinstance(reply, Total):
                    _compare(reply, found)
                else:
                    found[reply.node] = checked_of(reply.node, theories, reply)
                    progress.step()
    finally:
        progress.clear()
    return found


def _compare(total: Total, found: Dict[str, Checked]) -> None:
    """Raises ProtocolFault where the total isn't that of what was told before."""
    counts = (len(found), sum(checked.reported for checked in found.values()))
    if counts != (total.nodes, total.errors):
        raise ProtocolFault(f"a total of {total.nodes} theories and {total.errors} errors behind {counts}")


def _shown(causes: Iterable[Cause], shows_all: bool) -> Iterator[Tuple[Finding, int]]:
    """The errors to be shown, each with the number of those that follow from it and aren't shown."""
    for cause in causes:
        yield cause.first, 0 if shows_all else len(cause.behind)
        if shows_all:
            yield from ((finding, 0) for finding in cause.behind)


def _ordered(causes: Iterable[Cause], shows_all: bool) -> List[Tuple[Finding, int]]:
    return sorted(_shown(causes, shows_all))


def print_causes(causes: Iterable[Cause], shows_all: bool = False) -> None:
    """Prints a line for each error that follows from no other, or for each; three lines in a terminal.

    Raises OutputFault where standard output fails.
    """
    encoding = encoding_of(sys.stdout)
    room = width(sys.stdout) if is_terminal(sys.stdout) else 0

    def lines() -> Iterator[str]:
        for finding, behind in _ordered(causes, shows_all):
            yield finding.line_in(encoding, behind)
            if room:
                yield from finding.excerpt(room, encoding)

    write_lines(lines())


def print_problems(problems: Iterable[Problem]) -> None:
    """Says on standard error what stands in the way, a line for each."""
    for problem in problems:
        tell(str(problem))


def count_words(causes: Iterable[Cause], theories: int) -> str:
    """How many errors there are in so many theories, in words."""
    errors = sum(1 + len(cause.behind) for cause in causes)
    return f"{counted(errors, 'error')} in {counted(theories, 'theory')}"


def _problem_object(problem: Problem) -> Dict[str, Any]:
    place = {"line": problem.line, "column": problem.column} if problem.line else {}
    path = {"file": str(problem.path)} if problem.path else {}
    return {"kind": "problem", **path, **place, "text": problem.text, "fails": problem.fails}


def _print_json(theories: Theories, causes: List[Cause], shows_all: bool) -> None:
    """Prints a JSON object in a line for each problem and error, and one with the counts."""
    objects = [_problem_object(problem) for problem in theories.problems]
    objects += [finding.as_json(behind) for finding, behind in _ordered(causes, shows_all)]
    errors = sum(1 + len(cause.behind) for cause in causes)
    objects.append({
        "kind": "total", "errors": errors, "theories": len(theories.nodes), "problems": len(theories.problems),
    })
    write_lines(json.dumps(value) for value in objects)


def run(asked: argparse.Namespace) -> int:
    """Checks the files and what they import: 0 where all is right, 1 where errors are found, 2 where something that
    was asked for isn't checked."""
    theories = load(asked.files, asked.folders)
    if not asked.json:
        print_problems(theories.problems)
    causes = causes_of(check(theories, asked.program, asked.workers))
    if asked.json:
        _print_json(theories, causes, asked.all)
    else:
        print_causes(causes, asked.all)
    if not asked.quiet:
        write_error(count_words(causes, len(theories.nodes)) + "\n")
    if any(problem.fails for problem in theories.problems):
        return FAILED
    return FOUND if causes else DONE


def given_path(word: str) -> Path:
    """The file or folder that a word of the command line names; `-` is standard input."""
    return STANDARD_INPUT if word == "-" else Path(word)


def _workers(word: str) -> int:
    count = int(word)
    if not 0 <= count <= MOST_WORKERS:
        raise ValueError
    return count


def add_command(commands: Commands, common: argparse.ArgumentParser) -> None:
    """Adds the command to those of the command line."""
    parser = commands.add_parser(
        "check",
        parents=[common],
        help="check files and what they import",
        description="Prints file:line:column: error: text for each error. The exit status is 0 where all is right,"
        " 1 where there is an error, 2 where something isn't checked, 130 after an interrupt.",
    )
    parser.add_argument("files", metavar="FILE", type=given_path, nargs="+",
                        help="a theory's file, a folder (all files NAME.thy below it), or - for standard input")
    parser.add_argument("--all", action="store_true", help="show errors that follow from others too")
    parser.add_argument("--quiet", "-q", action="store_true", help="don't count errors and theories at the end")
    parser.add_argument("--json", action="store_true", help="print a JSON object in each line")
    parser.add_argument("--workers", metavar="N", type=_workers,
                        help=f"check N theories beside another one, 0 to {MOST_WORKERS} (else as processors are there)")
    parser.set_defaults(run=run)
