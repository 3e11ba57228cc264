"""From times to places: linear, but long pauses are drawn short."""

from __future__ import annotations

from bisect import bisect_right
from dataclasses import dataclass
from typing import FrozenSet, List, Sequence, Tuple

_SHORTEST = 0.03
_DRAWN = 26.0


@dataclass(frozen=True)
class Pause:
    """A time in which nothing passed, in seconds, which is drawn shorter than it was."""

    start: float
    stop: float


class Scale:
    """Places of times, from 0 to the width: the times at which something came, and those of them that end a rest, in
    which nobody waited for anything. A rest that is long beside the other times is a pause."""

    def __init__(self, times: Sequence[float], rests: FrozenSet[float], width: float) -> None:
        self._times = sorted({0.0, *times})
        pairs = [Pause(*pair) for pair in zip(self._times, self._times[1:])]
        busy = sum(pair.stop - pair.start for pair in pairs if pair.stop not in rests)
        shortest = _SHORTEST * (busy or self._times[-1])
        self.pauses: List[Pause] = [
            pair for pair in pairs if pair.stop in rests and pair.stop - pair.start > shortest
        ]
        drawn = min(_DRAWN, width / 2 / max(1, len(self.pauses)))
        paused = sum(pause.stop - pause.start for pause in self.pauses)
        factor = (width - drawn * len(self.pauses)) / (self._times[-1] - paused or 1.0)
        are_pauses = set(self.pauses)
        self._places = [0.0]
        for pair in pairs:
            length = drawn if pair in are_pauses else (pair.stop - pair.start) * factor
            self._places.append(self._places[-1] + length)

    def place(self, time: float) -> float:
        """Where a time is drawn; what is behind the last one is drawn there."""
        at = bisect_right(self._times, time) - 1
        if at < 0:
            return 0.0
        if at + 1 == len(self._times):
            return self._places[at]
        share = (time - self._times[at]) / (self._times[at + 1] - self._times[at])
        return self._places[at] + share * (self._places[at + 1] - self._places[at])

    def time(self, place: float) -> float:
        """The time that is drawn at a place."""
        at = bisect_right(self._places, place) - 1
        if at + 1 >= len(self._places):
            return self._times[-1]
        length = self._places[at + 1] - self._places[at]
        share = (place - self._places[at]) / length if length else 0.0
        return self._times[at] + share * (self._times[at + 1] - self._times[at])


def stacked(bars: Sequence[Tuple[float, float]], gap: float) -> List[int]:
    """The row of each bar, given as its begin and end by rising begins: the first row in which it overlaps none."""
    ends: List[float] = []
    rows = []
    for begin, end in bars:
        row = next((at for at, last in enumerate(ends) if last + gap <= begin), len(ends))
        if row == len(ends):
            ends.append(end)
        ends[row] = end
        rows.append(row)
    return rows


def shown_time(seconds: float) -> str:
    """A time with its unit: `0.35 ms`, `12 ms`, `1.25 s`, `3 min 20 s`."""
    if seconds >= 60:
        return f"{int(seconds // 60):,} min {int(seconds % 60)} s"
    if seconds >= 1:
        return f"{seconds:.4g} s"
    milliseconds = seconds * 1000
    return f"{milliseconds:.0f} ms" if milliseconds >= 10 else f"{milliseconds:.2g} ms"
