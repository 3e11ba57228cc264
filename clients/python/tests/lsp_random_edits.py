"""Random edits through the language server, whose diagnostics at rest are compared with those of `check`.

`python3 -m tests.lsp_random_edits 1000` runs so many edits; the stored test runs a few dozen.
"""

from __future__ import annotations

import random
import sys
import tempfile
from pathlib import Path
from typing import Dict, List, Tuple

from pide import Session, opened
from pide.endings import ending_problem
from pide.headers import header_of
from pide.lsp.positions import Encoding, LineIndex

from .lsp_client import Client
from .program import wanted_program

TEXTS = {
    "A": 'theory A keywords claim = "lemma" so = "by" begin\naxiom a: "P"\nclaim b: "P --> P" so (impI h h)\n'
    'lemma c: "P & Q --> Q & P"\nproof\n  assume h: "P & Q"\n  show "Q & P" by (conjI (conjE2 "P" h) (conjE1 "Q" h))\n'
    "qed (* \U0001d54f *)\nend\n",
    "B": 'theory B imports A begin\r\nlemma d: "P" by a\r\nlemma e: "P --> P" by b\r\nend\r\n',
    "C": 'theory C imports A B begin\nlemma f: "P | Q" by (disjI1 d)\nclaim g: "P" by A.a\n'
    + "".join(f'lemma l{number}: "P --> P" by (impI h h)\n' for number in range(300)) + "end\n",
}
PIECES = [" ", "\n", "\r", "(*", "*)", '"', "h", "P", "by a", "qed", "end", "λ", "\U0001d54f", "\\<open>"]
PIECES += ["claim ", ">", '\nlemma z: "P" by a\n', "theory", "x"]
BETWEEN_LOOKS = 5
PROBLEMS = ("there is no file", "it isn't checked")

Found = List[Tuple[int, int, str]]


class Walk:
    """Three open texts under edits: one is named by its file whatever its header says, when that is broken."""

    def __init__(self, seed: int, folder: Path) -> None:
        self.chance = random.Random(seed)
        self.texts = dict(TEXTS)
        self.client = Client("--program", wanted_program(), "--workers", "3")
        self.client.initialize()
        self.uris = {name: (folder / f"{name}.thy").as_uri() for name in TEXTS}
        for name, text in TEXTS.items():
            self.client.open(self.uris[name], text)

    def step(self) -> None:
        """A few changes of one text in one notification; often ones that take back what it lost."""
        name = self.chance.choice(list(TEXTS))
        changes = []
        for _ in range(self.chance.choice((1, 1, 1, 3))):
            text = self.texts[name]
            start = self.chance.randrange(len(text) + 1)
            stop, inserted = start, self.chance.choice(PIECES)
            kind = self.chance.random()
            if kind < 0.3:
                start, stop, inserted = 0, len(text), TEXTS[name]
            elif kind < 0.5:
                stop, inserted = min(len(text), start + self.chance.randrange(1, 9)), ""
            changes.append(self.replace(name, start, stop, inserted))
        self.client.change(self.uris[name], *changes)

    def replace(self, name: str, start: int, stop: int, inserted: str) -> Dict:
        text = self.texts[name]
        lines = LineIndex(text)
        # a position between CR and LF means one before both, so that no edit is put there
        start -= text[max(0, start - 1) : start + 1] == "\r\n"
        stop += text[max(0, stop - 1) : stop + 1] == "\r\n"
        self.texts[name] = text[:start] + inserted + text[stop:]
        if (start, stop) == (0, len(text)):
            return {"text": inserted}
        return {"range": lines.range(start, stop, Encoding.UTF16), "text": inserted}

    def look(self) -> int:
        """How many diagnostics there are at rest. Raises AssertionError where `check` finds something else."""
        self.client.checked()
        seen = {name: self.published(name) for name in TEXTS}
        wanted = found_by_check(self.texts)
        assert seen == wanted, (self.texts, seen, wanted)
        return sum(map(len, seen.values()))

    def published(self, name: str) -> Found:
        lines = LineIndex(self.texts[name])
        found = self.client.diagnostics.get(self.uris[name], {"diagnostics": []})["diagnostics"]
        return sorted((*lines.offsets(each["range"], Encoding.UTF16), each["message"]) for each in found
                      if not each["message"].startswith(PROBLEMS))


def node_names(texts: Dict[str, str]) -> Dict[str, str]:
    """The nodes of the texts; of two with one name the first."""
    names: Dict[str, str] = {}
    for file, text in texts.items():
        header = header_of(text)
        names.setdefault(header.name if header else file, file)
    return names


def found_by_check(texts: Dict[str, str]) -> Dict[str, Found]:
    """What a fresh session finds, and what is missing at the ends of the texts."""
    names = node_names(texts)
    found: Dict[str, Found] = {file: [] for file in texts}
    with Session(wanted_program()) as session:
        session.update({name: opened(texts[file]) for name, file in names.items()})
        session.settle()
        for name, file in names.items():
            snapshot = session.snapshot(name)
            ending = ending_problem(texts[file], snapshot)
            errors = [(error.start, error.stop, error.text) for error in snapshot.errors]
            found[file] = sorted(errors + ([(ending.place, ending.place, ending.text)] if ending else []))
    return found


def walk(edits: int, seed: int) -> Tuple[int, int]:
    """Runs so many edits; how many looks there were, with how many diagnostics."""
    with tempfile.TemporaryDirectory() as folder:
        walker = Walk(seed, Path(folder))
        looks = []
        for number in range(edits):
            walker.step()
            if number % BETWEEN_LOOKS == 0:
                looks.append(walker.look())
        looks.append(walker.look())
        assert walker.client.stop() == 0
    return len(looks), sum(looks)


if __name__ == "__main__":
    print("%d looks, %d diagnostics" % walk(int(sys.argv[1]), seed=int(sys.argv[2]) if len(sys.argv) > 2 else 1))
