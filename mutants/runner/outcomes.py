"""What a mutant's try results in, and what earlier tries resulted in."""

from __future__ import annotations

import json
import os
import re
from dataclasses import dataclass
from enum import Enum
from itertools import takewhile
from pathlib import Path


class Outcome(Enum):
    """What the toolchain says of a mutant."""

    REFUSED = "refused"
    WEAKLY = "refused by a name or a limit alone"
    LET_THROUGH = "let through"
    BAD = "bad"
    UNTRIED = "not tried"


KEPT = (Outcome.REFUSED, Outcome.WEAKLY, Outcome.LET_THROUGH)


@dataclass(frozen=True)
class Said:
    """An outcome, with the toolchain's words on it."""

    outcome: Outcome
    words: str


LINES_OF_A_FAULT = 4
LINE = re.compile(r"rt: must-fail (?P<crate>\w+)/(?P<edit>\S+\.edit): (?P<words>.*)")
BEGINNINGS = (
    ("refused, as it must be (only ", Outcome.WEAKLY),
    ("refused, as it must be", Outcome.REFUSED),
    ("NOT REFUSED", Outcome.LET_THROUGH),
    ("BAD EDIT", Outcome.BAD),
)


def outcomes_in(output: str) -> dict[tuple[str, str], Said]:
    """Returns what `rt ci` said of each must-fail edit, by the crate's and the edit file's name."""
    found: dict[tuple[str, str], Said] = {}
    lines = output.split("\n")
    for number, line in enumerate(lines):
        told = LINE.fullmatch(line)
        if told:
            words = " ".join([told["words"], *words_below(lines[number + 1 :][:LINES_OF_A_FAULT])])
            found[told["crate"], told["edit"]] = Said(outcome_of(words), words)
    return found


def words_below(lines: list[str]) -> list[str]:
    """Returns the lines, without the spaces round them, up to the next that `rt` begins: why an edit is bad."""
    return [line.strip() for line in takewhile(lambda line: line and not line.startswith("rt: "), lines)]


def outcome_of(words: str) -> Outcome:
    """Returns the outcome that the toolchain's words tell; words that are none of those known tell nothing."""
    return next((outcome for begin, outcome in BEGINNINGS if words.startswith(begin)), Outcome.UNTRIED)


class Kept:
    """The outcomes of earlier runs on this machine, by the sums of what was read, in a file of JSON lines."""

    def __init__(self, file: Path, anew: bool = False) -> None:
        self.file = file
        self.known: dict[str, Said] = {}
        if not anew and file.is_file():
            for line in file.read_text(encoding="utf-8", errors="replace").split("\n"):
                self.read(line)

    def read(self, line: str) -> None:
        """Takes a line in; one that was cut off is left out."""
        try:
            row = json.loads(line)
            self.known[row["sum"]] = Said(Outcome(row["outcome"]), row["words"])
        except (ValueError, KeyError, TypeError):
            pass

    def keep(self, key: str, said: Said) -> None:
        """Writes an outcome down at once, where it is one that stays so."""
        if said.outcome not in KEPT:
            return
        self.known[key] = said
        self.file.parent.mkdir(parents=True, exist_ok=True)
        with self.file.open("a", encoding="utf-8") as out:
            out.write(json.dumps({"sum": key, "outcome": said.outcome.value, "words": said.words}) + "\n")


def kept_file() -> Path:
    """Returns where the outcomes are kept: in the user's cache folder."""
    cache = os.environ.get("XDG_CACHE_HOME") or str(Path.home() / ".cache")
    return Path(cache) / "yivopeta" / "mutants.jsonl"
