"""What is missing at a theory's end: the engine reports no error where a theory stops in the middle.

A theory is right only where its last command is an `end` that was accepted. Where the header itself is in error the
theory never began, and that error says all.
"""

from __future__ import annotations

from dataclasses import dataclass
from typing import Dict, List, Mapping, Optional, Sequence, Tuple, Union

from .following import is_refused, word_of
from .headers import header_of
from .replies import Built, Snapshot
from .reports import Report, last_of_kind, of_kind

NOT_ENDED = "the theory isn't ended"
_OPENING = frozenset(("lemma", "have", "show"))
_CLOSING = frozenset(("by", "qed"))


@dataclass(frozen=True)
class Ending:
    """What is missing, as an error has it: the place in characters, and a text.

    The place is behind the last character of the theory's text that isn't white space.
    """

    place: int
    text: str


def ending_problem(
    text: str, snapshot: Union[Snapshot, Built], aliases: Optional[Mapping[str, str]] = None
) -> Optional[Ending]:
    """What is missing at the end of the theory, or None.

    The snapshot is of this text, and whole: nothing is pending, and the node was required. The aliases are names of
    commands, and what each stands for; without them those of the text's own header count.
    """
    reports = snapshot.reports
    errors = {error.start: error for error in of_kind(reports, "error")}
    last = last_of_kind(reports, "command")
    if last is not None and word_of(last) == "end" and last.start not in errors:
        return None
    accepted = _accepted(_commands(text, reports, aliases), errors)
    words = [word for word, _ in accepted]
    if "end" in words or ("theory" not in words and errors):
        return None
    lemma = _open_lemma(accepted)
    problem = NOT_ENDED if lemma is None else f"the proof of {_defined(reports, lemma)} is missing"
    return Ending(len(text.rstrip()), problem)


def _commands(
    text: str, reports: Sequence[Report], aliases: Optional[Mapping[str, str]]
) -> List[Tuple[str, int]]:
    """The commands, each as its word, an alias as what it stands for, and its start."""
    known: Mapping[str, str] = _own_aliases(text) if aliases is None else aliases
    words = ((word_of(command), command.start) for command in of_kind(reports, "command"))
    return [(known.get(word, word), start) for word, start in words]


def _own_aliases(text: str) -> Dict[str, str]:
    header = header_of(text)
    return dict(header.keywords) if header else {}


def _accepted(commands: Sequence[Tuple[str, int]], errors: Mapping[int, Report]) -> List[Tuple[str, int]]:
    """The commands that changed the theory."""
    return [
        (word, start) for word, start in commands if start not in errors or not is_refused(errors[start], word)
    ]


def _open_lemma(commands: Sequence[Tuple[str, int]]) -> Optional[int]:
    """Where the lemma starts whose proof isn't done, or None where there is none."""
    depth, lemma = 0, 0
    for word, start in commands:
        if word == "lemma":
            lemma = start
        depth += (word in _OPENING) - (word in _CLOSING)
    return lemma if depth > 0 else None


def _defined(reports: Sequence[Report], lemma: int) -> str:
    """The name that the lemma at this place gives."""
    found = next(report for report in of_kind(reports, "def") if report.start > lemma)
    return word_of(found)
