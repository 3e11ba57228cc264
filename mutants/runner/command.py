"""The command: which mutants are tried, what is told of them, and the exit status."""

from __future__ import annotations

import argparse
import signal
import sys
import time
from collections import defaultdict
from dataclasses import dataclass, field
from pathlib import Path
from types import FrameType

from .edits import Mutant, why_not
from .outcomes import Kept, Outcome, Said, kept_file
from .repository import Repository, Sums, mutants_of, read_repository
from .trials import Toolchain, Trial, lanes_here, try_all

INTERRUPTED = 130


@dataclass
class Tally:
    """What is known of each mutant."""

    said: dict[Mutant, Said] = field(default_factory=dict)

    def of(self, *outcomes: Outcome) -> list[Mutant]:
        return [mutant for mutant, said in self.said.items() if said.outcome in outcomes]

    def is_as_told(self) -> bool:
        """Returns whether every mutant was tried and refused, but those that are told to be let through."""
        wanted = {False: (Outcome.REFUSED, Outcome.WEAKLY), True: (Outcome.LET_THROUGH,)}
        return all(said.outcome in wanted[mutant.is_told] for mutant, said in self.said.items())

    def lines(self) -> list[str]:
        """Returns what is told at the end; the last line counts those refused and names those let through."""
        lines = [f"{said.outcome.value}: {m.name}: {said.words}" for m, said in self.said.items() if is_lacking(said)]
        for mutant in self.of(Outcome.WEAKLY):
            lines.append(f"refused by a name or a limit alone, which says little of a contract: {mutant.name}")
        for mutant in self.of(Outcome.REFUSED, Outcome.WEAKLY):
            if mutant.is_told:
                lines.append(f"refused now: move {mutant.name} out of let-through/")
        for mutant in self.of(Outcome.LET_THROUGH):
            if not mutant.is_told:
                lines.append(f"let through, and not told in let-through/: {mutant.name}")
        return [*lines, *self.counts()]

    def counts(self) -> list[str]:
        """Returns the line of counts, below one of what has no verdict, where there is any."""
        bad, untried, passed = self.of(Outcome.BAD), self.of(Outcome.UNTRIED), self.of(Outcome.LET_THROUGH)
        lacking = [f"{len(bad)} bad, {len(untried)} not tried"] if bad or untried else []
        names = ": " + ", ".join(sorted(mutant.name for mutant in passed)) if passed else ""
        return [*lacking, f"{len(self.of(Outcome.REFUSED, Outcome.WEAKLY))} refused, {len(passed)} let through{names}"]


def is_lacking(said: Said) -> bool:
    return said.outcome is Outcome.BAD or said.outcome is Outcome.UNTRIED and bool(said.words)


class Run:
    """A run over some mutants: what earlier runs kept is taken, and the rest is tried crate by crate."""

    def __init__(self, repository: Repository, kept: Kept, toolchain: Toolchain) -> None:
        self.repository = repository
        self.kept = kept
        self.toolchain = toolchain
        self.sums = Sums(repository, toolchain.version())
        self.tally = Tally()
        self.crates = 0
        self.ended = 0

    def sort(self, mutants: list[Mutant]) -> dict[str, list[Mutant]]:
        """Takes down what is known before any try, and returns the other mutants by crate, most first."""
        left: dict[str, list[Mutant]] = defaultdict(list)
        for mutant in mutants:
            why = why_not(mutant, self.repository.crates)
            key = "" if why else self.sums.of_mutant(mutant)
            if why:
                self.tally.said[mutant] = Said(Outcome.BAD, f"it cannot be applied: {why}")
            elif key in self.kept.known:
                self.tally.said[mutant] = self.kept.known[key]
            else:
                self.tally.said[mutant] = Said(Outcome.UNTRIED, "")
                left[mutant.crate].append(mutant)
        return dict(sorted(left.items(), key=lambda item: -len(item[1])))

    def hear(self, trial: Trial) -> None:
        """Keeps what a trial resulted in, and shows how far the run is."""
        self.ended += 1
        for mutant, said in trial.said.items():
            self.tally.said[mutant] = said
            self.kept.keep(self.sums.of_mutant(mutant), said)
            if said.outcome not in (Outcome.REFUSED, Outcome.WEAKLY):
                say(f"  {said.outcome.value}: {mutant.name}: {said.words}")
        refused = sum(said.outcome in (Outcome.REFUSED, Outcome.WEAKLY) for said in trial.said.values())
        minutes = f"{int(trial.seconds) // 60}:{int(trial.seconds) % 60:02}"
        say(f"[{self.ended} of {self.crates}] {trial.crate}: {refused} of {len(trial.said)} refused, in {minutes}")
        if trial.failure:
            say(trial.failure)

    def go(self, mutants: list[Mutant], lanes: int) -> bool:
        """Tries what is not known yet, and returns whether it was interrupted."""
        left = self.sort(mutants)
        self.crates = len(left)
        count = sum(len(of_crate) for of_crate in left.values())
        say(f"{len(mutants)} mutants; to be tried: {count}, of {len(left)} crates, {lanes} crates side by side")
        try:
            try_all(self.toolchain, self.repository, left, lanes, self.hear)
        except KeyboardInterrupt:
            say("interrupted; what was tried is kept")
            return True
        return False


def say(line: str) -> None:
    print(line, flush=True)


def arguments_of(words: list[str]) -> argparse.Namespace:
    parser = argparse.ArgumentParser(prog="mutants/run", description="Tries mutants, which the contracts must refuse.")
    parser.add_argument("names", nargs="*", metavar="NAME", help="a crate, or CRATE/MUTANT; none: all mutants")
    parser.add_argument("--anew", action="store_true", help="try also what an earlier run has tried")
    parser.add_argument("--apply-only", action="store_true", help="only look whether each edit can be applied")
    return parser.parse_args(words)


def interrupt(_signal: int, _frame: FrameType | None) -> None:
    raise KeyboardInterrupt


def apply_only(repository: Repository, mutants: list[Mutant]) -> int:
    """Says which edits cannot be applied, and returns the exit status."""
    lost = {mutant.name: why for mutant in mutants for why in [why_not(mutant, repository.crates)] if why}
    for name, why in lost.items():
        say(f"{name}: {why}")
    say(f"{len(mutants) - len(lost)} can be applied, {len(lost)} not")
    return 1 if lost else 0


def main(words: list[str]) -> int:
    """Returns 0 where all is as told, 1 where it is not, 2 for wrong words, 130 after an interrupt."""
    arguments = arguments_of(words)
    repository = read_repository(Path(__file__).resolve().parents[2])
    mutants = mutants_of(repository, arguments.names)
    known = {name for mutant in mutants for name in (mutant.crate, mutant.name)}
    lacking = [name for name in arguments.names if name not in known]
    strange = sorted({mutant.crate for mutant in mutants} - {*repository.lines})
    if lacking or strange:
        print(f"mutants/run: no crate with mutants, and no mutant: {' '.join([*lacking, *strange])}", file=sys.stderr)
        return 2
    if arguments.apply_only:
        return apply_only(repository, mutants)
    return tried_run(repository, mutants, arguments.anew)


def tried_run(repository: Repository, mutants: list[Mutant], anew: bool) -> int:
    """Tries the mutants, tells what came out, and returns the exit status."""
    signal.signal(signal.SIGTERM, interrupt)
    begin = time.monotonic()
    try:
        run = Run(repository, Kept(kept_file(), anew), Toolchain())
    except OSError as error:
        print(f"mutants/run: the toolchain's command rt does not start: {error.strerror}", file=sys.stderr)
        return 2
    is_interrupted = run.go(mutants, lanes_here())
    say(f"{int(time.monotonic() - begin) // 60} minutes")
    for line in run.tally.lines():
        say(line)
    if is_interrupted:
        return INTERRUPTED
    return 0 if run.tally.is_as_told() else 1
