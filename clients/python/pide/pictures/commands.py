"""The commands of a theory as its reports tell them: their ranges, states, errors."""

from __future__ import annotations

from dataclasses import dataclass
from typing import Dict, Iterable, List, Optional

from ..reports import Report

_OF_WHOLE_COMMANDS = frozenset(("state", "error", "proved", "suggest"))


@dataclass
class Command:
    """A command's range and word; what is known of it: the state behind it, its error, whether its proof is right, a
    proof that is suggested."""

    start: int
    stop: int
    word: str = ""
    state: str = ""
    error: Optional[str] = None
    is_proved: bool = False
    suggestion: str = ""

    def take(self, report: Report) -> None:
        """Takes a report of the command in."""
        self.stop = max(self.stop, report.stop)
        if report.kind == "command":
            self.word = dict(report.properties).get("name", "")
        elif report.kind == "state":
            self.state = report.text
        elif report.kind == "error":
            self.error = report.text
        elif report.kind == "suggest":
            self.suggestion = report.text
        else:
            self.is_proved = True


def commands_of(reports: Iterable[Report]) -> List[Command]:
    """The commands, by place. Words before the first command are one too, whose word is empty."""
    commands: Dict[int, Command] = {}
    for report in reports:
        if report.kind == "command" or report.kind in _OF_WHOLE_COMMANDS:
            commands.setdefault(report.start, Command(report.start, report.stop)).take(report)
    return [commands[start] for start in sorted(commands)]
