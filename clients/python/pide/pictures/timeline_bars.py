"""What a timeline draws of a version: bars of its executions, many of one fate as one bar where there are many."""

from __future__ import annotations

import enum
from dataclasses import dataclass
from typing import Iterator, List, Optional, Sequence, Tuple

from .scale import shown_time
from .story import Execution, Part, Version

MOST_ROWS = 300

_NAMES = {"eval": "evaluation", "fork": "check of the proof", "print": "print of the state"}


class Fate(enum.Enum):
    """What became of a part; the value is a class of the drawing."""

    DONE = "done"
    KEPT = "kept"
    DROPPED = "dropped"
    CANCELLED = "cancelled"
    LEFT = "left"
    PENDING = "pending"


_SAID = {
    Fate.DONE: "reported after {time}",
    Fate.KEPT: "kept from version {version}",
    Fate.DROPPED: "dropped after {time}",
    Fate.CANCELLED: "cancelled, or stopped by a cancellation, after {time}",
    Fate.LEFT: "left out by a newer version after {time}",
    Fate.PENDING: "not reported by the end of the record",
}


@dataclass(frozen=True)
class Bar:
    """A bar in a row of its lane: its begin and end in seconds (the end None for a mark without a length), its part,
    its fate, and what is said of it."""

    row: int
    begin: float
    end: Optional[float]
    part: str
    fate: Fate
    hint: str


def rows_of(version: Version) -> List[List[Tuple[Execution, bool]]]:
    """The executions in rows: one each, or neighbours together where there are more than MOST_ROWS."""
    together = -(-len(version.rows) // MOST_ROWS) or 1
    rows: List[List[Tuple[Execution, bool]]] = []
    for row in version.rows:
        if rows and len(rows[-1]) < together and rows[-1][0][1] == row[1]:
            rows[-1].append(row)
        else:
            rows.append([row])
    return rows


def bars_of(version: Version, rows: Sequence[Sequence[Tuple[Execution, bool]]], last: float) -> Iterator[Bar]:
    """The bars of a version, row by row; what isn't finished goes on to the last time."""
    for number, row in enumerate(rows):
        executions = [execution for execution, _ in row]
        if row[0][1]:
            yield _kept(number, version, executions)
        elif len(row) == 1:
            yield from _single(number, executions[0], last)
        else:
            yield _many(number, executions, last)


def fate_of(execution: Execution, part: Part) -> Fate:
    """What became of a part in the version that made its execution."""
    if part.stop is not None:
        return Fate.DROPPED if part.is_dropped else Fate.DONE
    if execution.cancelled is not None:
        return Fate.CANCELLED
    return Fate.LEFT if execution.left is not None else Fate.PENDING


def _end(execution: Execution, part: Part, last: float) -> float:
    ends = (part.stop, execution.cancelled, execution.left, last)
    return next(end for end in ends if end is not None)


def _single(row: int, execution: Execution, last: float) -> Iterator[Bar]:
    for part in execution.parts:
        fate, end = fate_of(execution, part), _end(execution, part, last)
        said = _SAID[fate].format(time=shown_time(end - execution.assigned))
        hint = f"{execution.text or 'a command'}\n{_NAMES[part.name]} of execution {execution.number} in"
        yield Bar(row, part.start, end, part.name, fate, f"{hint} {execution.node}, {said}")


def _kept(row: int, version: Version, executions: Sequence[Execution]) -> Bar:
    first, last = executions[0], executions[-1]
    said = _SAID[Fate.KEPT].format(version=first.version)
    if len(executions) == 1:
        hint = f"{first.text or 'a command'}\nexecution {first.number} in {first.node}, {said}"
    else:
        hint = f"{len(executions):,} executions in {first.node}, {first.number} to {last.number}, kept"
    return Bar(row, version.assigned or version.sent, None, first.parts[0].name, Fate.KEPT, hint)


def _many(row: int, executions: Sequence[Execution], last: float) -> Bar:
    """A bar for neighbours: from the assign to the last report, of the worst fate among them."""
    fates = [fate_of(execution, part) for execution in executions for part in execution.parts]
    end = max(_end(execution, part, last) for execution in executions for part in execution.parts)
    fate = max(fates, key=list(Fate).index)
    first = executions[0]
    names = f"{first.number} to {executions[-1].number}"
    said = _SAID[fate].format(time=shown_time(end - first.assigned), version=first.version)
    hint = f"{first.text or 'a command'}, and those behind it\n{len(executions)} executions in {first.node}, {names}: "
    return Bar(row, first.assigned, end, "eval", fate, hint + f"the last {said}")
