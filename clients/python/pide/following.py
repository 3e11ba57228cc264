"""Errors that follow from others: where a command is refused, those behind it that need it are refused too.

An error `not allowed here` follows from an earlier one where every command from the one to the other was refused. So
where the header of a theory is in error, which then never begins, all its errors `not allowed here` follow from that;
and where a lemma's formula is bad, so do those of the commands of its proof. Other errors stand by themselves.
"""

from __future__ import annotations

from bisect import bisect_left, bisect_right
from dataclasses import dataclass, field
from typing import Dict, List, Mapping, Optional, Sequence

from .reports import Report, of_kind

NOT_ALLOWED = "not allowed here"
MALFORMED = "malformed command"


@dataclass
class Group:
    """An error, and those that follow from it, in order of place."""

    first: Report
    behind: List[Report] = field(default_factory=list)


def word_of(command: Report) -> str:
    """The word of a command, as a report `command` tells it."""
    return dict(command.properties).get("name", "")


def is_refused(error: Report, word: str) -> bool:
    """Whether the error says that the command with this word changed nothing. A wrong proof closes its goal."""
    return word != "by" or error.text in (NOT_ALLOWED, MALFORMED)


def grouped(reports: Sequence[Report], aliases: Optional[Mapping[str, str]] = None) -> List[Group]:
    """The errors of a theory's markup, each with those that follow from it.

    The aliases are names of commands, and what each stands for.
    """
    errors = of_kind(reports, "error")
    if all(error.text != NOT_ALLOWED for error in errors):
        return [Group(error) for error in errors]
    words = {command.start: word_of(command) for command in of_kind(reports, "command")}
    return _runs(errors, words, aliases or {})


def _runs(errors: Sequence[Report], words: Dict[int, str], aliases: Mapping[str, str]) -> List[Group]:
    starts = list(words)
    groups: List[Group] = []
    run: Optional[Group] = None  # the first error of the refused commands that end right before the next error
    end = -1
    for error in errors:
        if bisect_left(starts, error.start) > bisect_right(starts, end):
            run = None
        if run is not None and error.text == NOT_ALLOWED:
            run.behind.append(error)
        else:
            groups.append(Group(error))
            run = run or groups[-1]
        word = words.get(error.start, "")
        run = run if is_refused(error, aliases.get(word, word)) else None
        end = error.start
    return groups
