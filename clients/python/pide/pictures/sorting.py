"""Facts in alphabetical order, however many: sorted in runs, which stand in files and are merged."""

from __future__ import annotations

import heapq
import json
import tempfile
from contextlib import ExitStack
from typing import IO, Iterable, Iterator, List, Tuple

from .facts import Fact

RUN = 5_000
_MOST_OPEN = 64


class SortedFacts:
    """Takes facts in, and gives them by name (without regard to case first), then by theory.

    Leaving a `with` block removes the files.
    """

    def __init__(self) -> None:
        self._held: List[Fact] = []
        self._runs: List[IO[str]] = []
        self._files = ExitStack()
        self.count = 0

    def __enter__(self) -> SortedFacts:
        return self

    def __exit__(self, *_: object) -> None:
        self._files.close()

    def add(self, fact: Fact) -> None:
        self._held.append(fact)
        self.count += 1
        if len(self._held) == RUN:
            self._spill()

    def __iter__(self) -> Iterator[Fact]:
        return iter(heapq.merge(sorted(self._held, key=_key), *(_read(run) for run in self._runs), key=_key))

    def _spill(self) -> None:
        """Moves what is held to a file; where there are many files they become one."""
        facts: Iterable[Fact] = sorted(self._held, key=_key)
        old: List[IO[str]] = []
        if len(self._runs) == _MOST_OPEN:
            old, self._runs = self._runs, []
            facts = heapq.merge(facts, *(_read(run) for run in old), key=_key)
        run = self._files.enter_context(tempfile.TemporaryFile("w+", encoding="utf-8"))
        run.writelines(json.dumps(fact) + "\n" for fact in facts)
        self._runs.append(run)
        self._held = []
        for file in old:
            file.close()


def _key(fact: Fact) -> Tuple[str, Fact]:
    return fact.name.lower(), fact


def _read(run: IO[str]) -> Iterator[Fact]:
    run.flush()
    run.seek(0)
    for line in run:
        yield Fact(*json.loads(line))
