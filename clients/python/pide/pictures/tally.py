"""What a running session's terminal view tells, counted from its story."""

from __future__ import annotations

from collections import Counter
from dataclasses import dataclass
from typing import List, Tuple

from .story import Execution, Story

SECONDS = 5.0
MOST_SLOW = 50


@dataclass(frozen=True)
class Slow:
    """A part of an execution that took long, in seconds; `is_pending` where it isn't finished."""

    seconds: float
    part: str
    node: str
    text: str
    is_pending: bool


@dataclass(frozen=True)
class Tally:
    """The state of a session at a time in seconds: its live versions, the parts that are pending in the newest one by
    theory, reports in all and a second, requests that wait, the slowest parts."""

    now: float
    versions: Tuple[int, ...]
    pending: Tuple[Tuple[str, int], ...]
    finished: int
    reports: int
    reports_a_second: float
    waiting: int
    slowest: Tuple[Slow, ...]


def tally_of(story: Story, now: float) -> Tally:
    """The state now."""
    pending: Counter[str] = Counter()
    slow: List[Slow] = []
    finished = 0
    for execution in story.executions.values():
        if execution.left is None and execution.cancelled is None:
            pending[execution.node] += sum(1 for _ in execution.pending)
        finished += sum(part.stop is not None for part in execution.parts)
        slow += _slow(execution, now)
    slow.sort(key=lambda part: -part.seconds)
    recent = sum(1 for time in story.report_times[-100_000:] if time > now - SECONDS)
    return Tally(
        now,
        tuple(version.number for version in story.versions.values() if version.removed is None),
        tuple((node, count) for node, count in pending.most_common() if count),
        finished,
        len(story.report_times),
        recent / max(min(SECONDS, now), 1e-3),
        sum(heard is None for _, heard in story.requests),
        tuple(slow[:MOST_SLOW]),
    )


def _slow(execution: Execution, now: float) -> List[Slow]:
    """The parts, each with the time since it could begin."""
    parts = []
    for part in execution.parts:
        if part.stop is None and (execution.left is not None or execution.cancelled is not None):
            continue
        stop = now if part.stop is None else part.stop
        parts.append(Slow(stop - part.start, part.name, execution.node, execution.text, part.stop is None))
    return parts
