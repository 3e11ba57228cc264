"""A session under random edits, compared at each look with a fresh session of the same texts.

`python3 -m tests.random_edits 1000` runs so many edits; the stored test runs a few dozen.
"""

from __future__ import annotations

import random
import sys
from typing import Dict, List, Tuple

from pide import Change, Insert, Perspective, Remove, Session, Snapshot

from .program import wanted_program

TEXTS = {
    "A": 'theory A keywords claim = "lemma" begin\naxiom a: "P"\nclaim b: "P --> P" by (impI h h)\n'
    'lemma c: "P & Q --> Q & P"\nproof\n  assume h: "P & Q"\n  show "Q & P" by (conjI (conjE2 "P" h) (conjE1 "Q" h))\n'
    "qed\nend\n",
    "B": 'theory B imports A begin\nlemma d: "P" by a\nlemma e: "P --> P" by b\nend\n',
    "C": 'theory C imports A B begin\nlemma f: "P | Q" by (disjI1 d)\nclaim g: "P" by A.a\nend\n',
}
PIECES = [" ", "\n", "(*", "*)", '"', "h", "P", "by a", "qed", "end", "λ", "\\<open>", "claim "]
PIECES += ['\nlemma z: "P" by a\n']
BETWEEN_LOOKS = 3


class Walk:
    """A document under edits: what was sent, and the session that was kept in step with it."""

    def __init__(self, seed: int) -> None:
        self.chance = random.Random(seed)
        self.texts: Dict[str, str] = {name: "" for name in TEXTS}
        self.older: List[int] = []
        self.session = Session(wanted_program())
        for name, text in TEXTS.items():
            self.send(name, [Insert(0, text)])

    def send(self, name: str, edits: List) -> None:
        for edit in edits:
            text = self.texts[name]
            end = edit.start + (len(edit.text) if isinstance(edit, Remove) else 0)
            self.texts[name] = text[: edit.start] + (edit.text if isinstance(edit, Insert) else "") + text[end:]
        self.update({name: Change(tuple(edits), self.perspective(name, self.chance.random() < 0.5))})

    def update(self, changes: Dict[str, Change]) -> None:
        self.session.update(changes)
        self.remove_some()
        self.older.append(self.session.version)

    def remove_some(self) -> None:
        """Removes some of the older versions, now and then, and never lets many stay."""
        if self.chance.random() < 0.7 or len(self.older) > 20:
            self.chance.shuffle(self.older)
            count = self.chance.randrange(len(self.older) + 1)
            self.session.remove_versions(self.older[count:])
            del self.older[count:]

    def perspective(self, name: str, is_whole: bool) -> Perspective:
        start, stop = sorted(self.chance.choices(range(len(self.texts[name]) + 1), k=2))
        return Perspective(is_whole, ((start, stop),))

    def step(self) -> None:
        """A random edit of a random theory; often one that takes back what the text lost."""
        name = self.chance.choice(list(TEXTS))
        text = self.texts[name]
        start = self.chance.randrange(len(text) + 1)
        kind = self.chance.random()
        if kind < 0.15:
            self.send(name, ([Remove(0, text)] if text else []) + [Insert(0, TEXTS[name])])
        elif kind < 0.5:
            removed = text[start : start + self.chance.randrange(1, 9)]
            self.send(name, [Remove(start, removed)] if removed else [])
        else:
            self.send(name, [Insert(start, self.chance.choice(PIECES))])

    def look(self) -> Dict[str, Tuple]:
        """What the session shows of each theory when all of it is checked. Raises AssertionError where a session that
        is begun with the texts as they are shows something else."""
        looks = {name: self.perspective(name, True) for name in TEXTS}
        self.update({name: Change((), perspective) for name, perspective in looks.items()})
        self.session.snapshot(self.chance.choice(list(TEXTS)))
        seen = settled(self.session)
        with Session(wanted_program()) as fresh:
            fresh.update({
                name: Change((Insert(0, text),) if text else (), looks[name]) for name, text in self.texts.items()
            })
            assert seen == settled(fresh), (self.texts, looks)
        return seen


def settled(session: Session) -> Dict[str, Tuple]:
    session.settle()
    return {name: shown(session.snapshot(name)) for name in TEXTS}


def shown(snapshot: Snapshot) -> Tuple:
    return snapshot.reports, snapshot.is_whole, snapshot.outdated


def walk(edits: int, seed: int) -> Tuple[int, int, int]:
    """Runs so many edits; how many looks there were, with how many reports and errors."""
    walker = Walk(seed)
    looks = []
    with walker.session:
        for number in range(edits):
            walker.step()
            if number % BETWEEN_LOOKS == 0:
                looks.append(walker.look())
    reports = [report for look in looks for reports, _, _ in look.values() for report in reports]
    return len(looks), len(reports), sum(report.kind == "error" for report in reports)


if __name__ == "__main__":
    print("%d looks, %d reports, %d errors" % walk(int(sys.argv[1]), seed=1))
