"""A session as its messages and replies tell it: versions, executions, what became of each."""

from __future__ import annotations

from dataclasses import dataclass, field
from itertools import islice
from typing import Dict, Iterator, List, Mapping, Optional, Sequence, Set, Tuple

from ..headers import header_of
from ..messages import Change, Close, Edit, Insert, Remove, Update
from ..replies import Assigned, Cancelled, Dropped, Refused, Removed, Reply, Reported, Settled
from ..reports import of_kind
from ..tokens import aliases_of, spans_of
from .recording import Event, Heard, Sent

_SHOWN = 70
_MOST_NAMED = 12


@dataclass
class Part:
    """A part of an execution: `eval`, `fork` (a proof's check) or `print`; times are in seconds, the stop None as
    long as it isn't finished."""

    name: str
    start: float
    stop: Optional[float] = None
    is_dropped: bool = False


@dataclass
class Execution:
    """An execution: the version whose assignment made it, and when; its command's theory and the beginning of its
    text; its parts. `left` is when a newer version left it out, `cancelled` when it was cancelled, or
    is known to wait for what was."""

    number: int
    version: int
    assigned: float
    node: str
    text: str
    parts: List[Part]
    cancelled: Optional[float] = None
    left: Optional[float] = None

    @property
    def pending(self) -> Iterator[Part]:
        """The parts that aren't finished or dropped."""
        return (part for part in self.parts if part.stop is None)

    def part(self, name: str) -> Part:
        """The part of this name. A check begins, at the earliest, where its evaluation has ended."""
        found = next((part for part in self.parts if part.name == name), None)
        if found is None:
            before = self.parts[0].stop if self.parts else None
            found = Part(name, self.assigned if before is None else before)
            self.parts.append(found)
        return found


@dataclass
class Version:
    """A version: when it was sent and assigned; its executions in the order of the document, each with whether it is
    kept from an older version; the theories that it leaves as they were, each with how many executions it has, the
    last of many together; when it was removed."""

    number: int
    sent: float
    assigned: Optional[float] = None
    rows: List[Tuple[Execution, bool]] = field(default_factory=list)
    untouched: List[Tuple[str, int]] = field(default_factory=list)
    removed: Optional[float] = None

    @property
    def made(self) -> List[Execution]:
        return [execution for execution, is_kept in self.rows if not is_kept]

    @property
    def kept(self) -> int:
        """How many executions it has from older versions."""
        return sum(count for _, count in self.untouched) + sum(is_kept for _, is_kept in self.rows)


Row = Tuple[int, ...]


class Story:
    """Follows a session event by event. `rests` are the times of messages before which nothing was waited for."""

    def __init__(self) -> None:
        self.versions: Dict[int, Version] = {}
        self.executions: Dict[int, Execution] = {}
        self.requests: List[Tuple[Sent, Optional[Heard]]] = []
        self.report_times: List[float] = []
        self.rests: Set[float] = set()
        self.last = 0.0
        self._texts: Dict[str, str] = {}
        self._aliases: Dict[str, Mapping[str, str]] = {}
        self._rows: Dict[str, List[Row]] = {}
        self._count = 0
        self._answered = 0

    def take(self, event: Event) -> None:
        """Takes in what came next."""
        if isinstance(event, Sent):
            if self._answered == len(self.requests) and event.time > self.last:
                self.rests.add(event.time)
            self.requests.append((event, None))
            if isinstance(event.message, Update):
                self.versions.setdefault(event.message.version, Version(event.message.version, event.time))
        elif isinstance(event, Heard):
            self._hear(event)
        self.last = max(self.last, event.time)

    def _hear(self, heard: Heard) -> None:
        reply = heard.reply
        if isinstance(reply, Reported):
            self.report_times.append(heard.time)
            self._finish(reply, heard.time)
        elif isinstance(reply, Dropped):
            self._drop(reply, heard.time)
        elif self._answered < len(self.requests):
            sent, _ = self.requests[self._answered]
            self.requests[self._answered] = sent, heard
            self._answered += 1
            self._answer(sent, reply, heard.time)

    def _answer(self, sent: Sent, reply: Reply, time: float) -> None:
        message = sent.message
        if isinstance(message, Update) and isinstance(reply, Assigned):
            self._edit(message)
            self._assign(self.versions[message.version], reply, time)
        elif isinstance(message, Update) and isinstance(reply, Refused):
            self._forget(message.version)
        elif isinstance(reply, Cancelled) and reply.execution in self.executions:
            self.executions[reply.execution].cancelled = time
        elif isinstance(reply, Settled):
            self._stop(reply.stuck, time)
        elif isinstance(reply, Removed):
            for number in reply.versions:
                if number in self.versions:
                    self.versions[number].removed = time

    def _stop(self, stuck: Sequence[int], time: float) -> None:
        """Notes which executions a cancellation has stopped, those too that wait for what was cancelled."""
        for number in stuck:
            execution = self.executions.get(number)
            if execution is not None and execution.cancelled is None:
                execution.cancelled = time

    def _forget(self, number: int) -> None:
        """Lets a refused version go, unless it is one that was accepted before."""
        if number in self.versions and self.versions[number].assigned is None:
            del self.versions[number]

    def _edit(self, update: Update) -> None:
        for node, item in update.items:
            if isinstance(item, Close):
                self._texts.pop(node, None)
                self._count -= sum(map(len, self._rows.pop(node, [])))
            elif isinstance(item, Change):
                self._texts[node] = edited(self._texts.get(node, ""), item.edits)

    def _assign(self, version: Version, assigned: Assigned, time: float) -> None:
        version.assigned = time
        before = self._count
        for node, rows in assigned.nodes:
            old = self._rows.get(node, [])
            before -= sum(map(len, old))
            new = [executions for _, executions in rows]
            self._leave(old, new, time)
            texts = self._commands(node, len(new))
            for row, text in zip(new, texts):
                version.rows += self._row(version.number, node, row, text, time)
            self._rows[node] = new
            self._count += sum(map(len, new)) - sum(map(len, old))
        version.untouched = self._untouched(before, {node for node, _ in assigned.nodes})

    def _untouched(self, count: int, touched: Set[str]) -> List[Tuple[str, int]]:
        """Theories that aren't touched, which have so many executions, some by name and the others together."""
        others = ((node, sum(map(len, rows))) for node, rows in self._rows.items() if node not in touched)
        named = list(islice(((node, own) for node, own in others if own), _MOST_NAMED))
        rest = count - sum(own for _, own in named)
        return named + ([("other theories", rest)] if rest else [])

    def _leave(self, old: List[Row], new: List[Row], time: float) -> None:
        """Notes which unfinished executions the new rows leave out."""
        stay = {number for row in new for number in row}
        for row in old:
            for number in row:
                if number not in stay and number in self.executions:
                    self.executions[number].left = time

    def _row(self, version: int, node: str, row: Row, text: str, time: float) -> Iterator[Tuple[Execution, bool]]:
        for number, name in zip(row, ("eval", "print")):
            known = self.executions.get(number)
            if known is None:
                made = Execution(number, version, time, node, text, [Part(name, time)])
                self.executions[number] = made
                yield made, False
            else:
                known.left = None
                yield known, True

    def _commands(self, node: str, count: int) -> List[str]:
        """The beginnings of the texts of the node's commands; empty ones where its text isn't known."""
        text = self._texts.get(node, "")
        header = header_of(text)
        inherited: Dict[str, str] = {}
        for imported, _ in header.imports if header else ():
            for alias, target in self._aliases.get(imported, {}).items():
                inherited.setdefault(alias, target)
        aliases = aliases_of(text, inherited)
        self._aliases[node] = aliases.targets
        texts = [shortened(text[span.start : span.stop]) for span in spans_of(text, 0, aliases)]
        return texts if len(texts) == count else [""] * count

    def _finish(self, reported: Reported, time: float) -> None:
        execution = self.executions.get(reported.execution)
        if execution is None:
            return
        execution.part(reported.part).stop = time
        if reported.part == "eval" and self._has_check(execution, reported):
            execution.part("fork")

    def _has_check(self, execution: Execution, reported: Reported) -> bool:
        """Whether a check of a proof follows: behind each `by` that isn't refused."""
        words = [dict(report.properties).get("name", "") for report in of_kind(reported.reports, "command")]
        aliases = self._aliases.get(execution.node, {})
        return any(aliases.get(word, word) == "by" for word in words) and not of_kind(reported.reports, "error")

    def _drop(self, dropped: Dropped, time: float) -> None:
        execution = self.executions.get(dropped.execution)
        if execution is not None:
            part = execution.part(dropped.part)
            part.stop, part.is_dropped = time, True


def edited(text: str, edits: Tuple[Edit, ...]) -> str:
    """The text after the edits."""
    for edit in edits:
        stop = edit.start + (len(edit.text) if isinstance(edit, Remove) else 0)
        text = text[: edit.start] + (edit.text if isinstance(edit, Insert) else "") + text[stop:]
    return text


def shortened(text: str) -> str:
    """The beginning of a text in one line."""
    line = " ".join(text[: 4 * _SHOWN].split())
    return line if len(line) <= _SHOWN else line[: _SHOWN - 1] + "…"
