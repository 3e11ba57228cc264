"""What the engine is known to have found, from its replies alone: the reports of each execution, what is pending.

A command whose new execution isn't finished keeps the errors that were known of it before, so that none flickers.
"""

from __future__ import annotations

import re
from typing import Dict, FrozenSet, Iterable, Iterator, List, Optional, Sequence, Set, Tuple

from ..replies import Assigned, Reported
from ..reports import REPORTS, Report, plain_reports
from ..unread import Unread
from ..yxml import parse_body, yxml_text
from .rows import Row, Rows, rows_of

FEW = 20

_ERROR = "\x05\x06error\x06"


class Execution:
    """An execution of the newest version: its command, and the reports of its parts as they were told."""

    __slots__ = ("node", "command", "evaluation", "fork", "printing")

    def __init__(self, node: str, command: int) -> None:
        self.node = node
        self.command = command
        self.evaluation: Optional[str] = None
        self.fork: Optional[str] = None
        self.printing: Optional[str] = None

    def texts(self) -> Iterator[str]:
        """What was told, part by part."""
        return (text for text in (self.evaluation, self.fork, self.printing) if text)


class MirroredNode:
    """A node of the newest version: its rows, the errors that are known of its commands, by ids, and the words that
    close a goal, whose proofs are checked apart."""

    def __init__(self) -> None:
        self.rows = Rows()
        self.errors: Dict[int, Tuple[Report, ...]] = {}
        self._closing = re.compile("")
        self.set_closing_words(frozenset({"by"}))

    def set_closing_words(self, words: FrozenSet[str]) -> None:
        """Notes which words mean `by` in this theory."""
        choice = "|".join(map(re.escape, sorted(words)))
        pattern = f"\x05\x06command\x06offset=[0-9]+\x06end_offset=[0-9]+\x06name=(?:{choice})\x05"
        if pattern != self._closing.pattern:
            self._closing = re.compile(pattern)

    def commands_in_error(self) -> List[int]:
        """The numbers of the commands that have errors."""
        commands = self.rows.commands
        if len(self.errors) <= FEW:
            return sorted(map(commands.index, self.errors))
        return [number for number, command in enumerate(commands) if command in self.errors]

    def has_fork(self, evaluation: str) -> bool:
        """Whether the check of a proof follows on an evaluation with these reports."""
        return _ERROR not in evaluation and self._closing.search(evaluation) is not None


class Mirror:
    """The nodes of the newest version. `changed` has the nodes whose errors have changed since it was last cleared."""

    def __init__(self) -> None:
        self.nodes: Dict[str, MirroredNode] = {}
        self.pending: Set[int] = set()
        self.changed: Set[str] = set()
        self._executions: Dict[int, Execution] = {}
        self._early: List[Reported] = []
        self._highest = 0

    # What the engine replies

    def assign(self, assigned: Assigned) -> None:
        """Takes in the rows of a new version. Raises ProtocolFault where they have another shape."""
        for name, text in rows_of(assigned):
            node = self.nodes.get(name)
            if node is None:
                continue
            splice = node.rows.take(text)
            self._drop(node, splice.removed, splice.added)
            for row in splice.added:
                self._expect(name, row)
            self.changed.add(name)
        early, self._early = self._early, []
        for reported in early:
            self.report(reported)

    def close(self, name: str) -> None:
        """Forgets a node that is closed."""
        node = self.nodes.pop(name, None)
        if node is not None:
            self._drop(node, node.rows.rows, ())

    def report(self, reported: Reported) -> None:
        """Takes in what a part of an execution has found; what isn't of the newest version is let go."""
        execution = self._executions.get(reported.execution)
        if execution is None:
            if reported.execution > self._highest:
                self._early.append(reported)  # the assignment is about to be taken in
            return
        text = _text_of(reported.reports)
        if reported.part == "print":
            execution.printing = text
            self.pending.discard(reported.execution)
        elif reported.part == "eval":
            execution.evaluation = text
            if not self.nodes[execution.node].has_fork(text):
                self._finish(reported.execution, execution, text)
        else:
            execution.fork = text
            self._finish(reported.execution, execution, text)

    def _finish(self, number: int, execution: Execution, text: str) -> None:
        """Notes the errors of an evaluation that is finished with the check of its proof, if there is one."""
        self.pending.discard(number)
        known = self.nodes[execution.node].errors
        before = known.pop(execution.command, ())
        errors = tuple(report for report in read_reports(text) if report.kind == "error") if _ERROR in text else ()
        if errors:
            known[execution.command] = errors
        if errors != before:
            self.changed.add(execution.node)

    def _drop(self, node: MirroredNode, removed: Iterable[Row], added: Iterable[Row]) -> None:
        kept = {number for row in added for number in row[1:]}
        commands = {row.command for row in added}
        for row in removed:
            for number in row[1:]:
                if number and number not in kept:
                    self._executions.pop(number, None)
                    self.pending.discard(number)
            if row.command not in commands:
                node.errors.pop(row.command, None)

    def _expect(self, name: str, row: Row) -> None:
        for number in row[1:]:
            self._highest = max(self._highest, number)
            if number and number not in self._executions:
                self._executions[number] = Execution(name, row.command)
                self.pending.add(number)

    # What is asked of it

    def errors(self, name: str) -> Iterator[Tuple[int, Report]]:
        """The errors of a node, each with the number of its command; places count from the command's start."""
        node = self.nodes[name]
        for number in node.commands_in_error():
            for report in node.errors[node.rows.commands[number]]:
                yield number, report

    def reports(self, name: str, number: int) -> List[Report]:
        """All that is known of the command of this number; places count from the command's start."""
        return [report for text in self.texts(name, number) for report in read_reports(text)]

    def texts(self, name: str, number: int) -> Iterator[str]:
        """The same as the program wrote it, which can be searched before it is read."""
        row = self.nodes[name].rows.rows[number]
        for identifier in row[1:]:
            execution = self._executions.get(identifier)
            if execution is not None:
                yield from execution.texts()

    def is_pending(self, name: str, number: int) -> bool:
        """Whether something of the command isn't finished, or it hasn't been evaluated at all."""
        row = self.nodes[name].rows.rows[number]
        return not row.evaluation or any(identifier in self.pending for identifier in row[1:])

    @property
    def is_finished(self) -> bool:
        """Whether something has been assigned, and all of it is finished."""
        return bool(self._executions) and not self.pending

    def count(self) -> int:
        """How many executions the newest version has."""
        return len(self._executions)


def _text_of(reports: Sequence[Report]) -> str:
    return reports.text if isinstance(reports, Unread) else yxml_text(REPORTS.put(tuple(reports)))


def read_reports(text: str) -> Sequence[Report]:
    """The reports that the program has written so. Raises ProtocolFault where they are none."""
    reports = plain_reports(text)
    return REPORTS.get(parse_body(text)) if reports is None else reports
