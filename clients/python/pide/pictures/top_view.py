"""The terminal view of a running session, as lines."""

from __future__ import annotations

import re
from typing import Iterator, List

from .frame import counted
from .scale import shown_time
from .tally import Slow, Tally

_CONTROLS = re.compile("[\x00-\x1f\x7f-\x9f\u200e\u200f\u202a-\u202e\u2066-\u2069]")
_NARROW, _BAR = 40, 24
_PARTS = {"eval": "evaluation", "fork": "proof", "print": "state"}
BOLD, DIM, PLAIN = "\x1b[1m", "\x1b[2m", "\x1b[0m"


def safe(text: str) -> str:
    """The text without what would steer a terminal."""
    return _CONTROLS.sub("�", text)


def lines_of(tally: Tally, width: int, height: int, has_colours: bool, title: str = "") -> List[str]:
    """The view in so many columns and lines."""
    width = max(width, _NARROW)
    rows = max(3, height - 12)
    lines = [*_summary(tally, title), "", _head("PENDING BY THEORY", has_colours)]
    theories = max(2, min(len(tally.pending), rows // 3)) if tally.pending else 1
    lines += _pending(tally, theories)
    lines += ["", _head("SLOWEST", has_colours)]
    lines += [_slow(slow) for slow in tally.slowest[: max(1, height - len(lines) - 1)]] or ["  nothing yet"]
    return [_cut(line, width) for line in lines[: max(1, height - 1)]]


def _head(text: str, has_colours: bool) -> str:
    return f"{BOLD}{text}{PLAIN}" if has_colours else text


def _summary(tally: Tally, title: str) -> Iterator[str]:
    versions = tally.versions
    shown = ", ".join(map(str, versions[-8:])) or "none"
    more = f" and {len(versions) - 8} older" if len(versions) > 8 else ""
    yield safe(f"pide top{f' – {title}' if title else ''}   {shown_time(tally.now)}")
    yield f"versions   {len(versions)} live: {shown}{more}"
    waiting = counted(tally.waiting, "message")
    yield f"answers    {waiting} {'waits' if tally.waiting == 1 else 'wait'} for an answer"
    pending = sum(count for _, count in tally.pending)
    total = pending + tally.finished
    yield f"parts      {tally.finished:,} finished, {pending:,} pending   {_bar(tally.finished, total)}"
    yield f"reports    {tally.reports:,}, {tally.reports_a_second:,.0f} a second"


def _bar(done: int, total: int) -> str:
    filled = _BAR * done // total if total else _BAR
    return "█" * filled + "░" * (_BAR - filled)


def _pending(tally: Tally, most: int) -> Iterator[str]:
    if not tally.pending:
        yield "  nothing"
    for node, count in tally.pending[:most]:
        yield f"  {count:>8,}  {safe(node)}"
    rest = tally.pending[most:]
    if rest:
        yield f"  {sum(count for _, count in rest):>8,}  in {counted(len(rest), 'more theory', 'more theories')}"


def _slow(slow: Slow) -> str:
    time = shown_time(slow.seconds) + ("…" if slow.is_pending else "")
    return f"  {time:>10}  {_PARTS[slow.part]:<10}  {safe(slow.node)}: {safe(slow.text)}"


def _cut(line: str, width: int) -> str:
    """The line in so many columns; what steers the terminal at a heading takes none."""
    return line if len(line) <= width or line.startswith("\x1b") else line[: width - 1] + "…"
