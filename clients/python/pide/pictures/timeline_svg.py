"""The timeline as SVG: time to the right; the editor's messages, the replies, and a lane for each version."""

from __future__ import annotations

from typing import Dict, Iterator, List, Optional

from .escaping import attribute_html
from .frame import counted
from .messages_shown import answer_shown, message_shown
from .scale import Scale, shown_time, stacked
from .story import Story, Version
from .timeline_bars import Bar, Fate, bars_of, rows_of

WIDTH = 1160.0
_LEFT, _RIGHT = 8.0, 12.0
_AXIS, _TITLE, _GAP = 26.0, 22.0, 18.0
_KEPT = 14.0
_TICKS = 9
_STRIP, _BIN = 34.0, 4.0
_REQUEST = 16.0
_ROW = 12.0


class Drawing:
    """Draws a session."""

    def __init__(self, story: Story) -> None:
        self._story = story
        self._scale = Scale(_times(story), frozenset(story.rests), WIDTH)
        self._lanes: List[str] = []
        self._height = _AXIS

    def pieces(self) -> Iterator[str]:
        """The element, piece by piece."""
        self._editor()
        self._replies()
        for version in self._story.versions.values():
            self._version(version)
        width, height = WIDTH + _LEFT + _RIGHT, self._height
        yield f'<svg class="timeline" width="{width:.0f}" height="{height:.0f}" viewBox="{-_LEFT:.0f} 0 {width:.0f} '
        yield f'{height:.0f}" role="group" aria-label="Timeline of the session">\n{_CROSSES}'
        yield from self._axis(height)
        yield from self._lanes
        yield "</svg>\n"

    def _x(self, time: float) -> float:
        return self._scale.place(time)

    def _axis(self, height: float) -> Iterator[str]:
        for pause in self._scale.pauses:
            x, end = self._x(pause.start), self._x(pause.stop)
            hint = f"a pause of {shown_time(pause.stop - pause.start)}, drawn short"
            yield f'<g class="pause"><title>{hint}</title><rect x="{x:.1f}" y="{_AXIS:.0f}" width="{end - x:.1f}" '
            yield f'height="{height - _AXIS:.0f}"/></g>\n'
        for tick in range(_TICKS):
            x = tick * WIDTH / (_TICKS - 1)
            anchor = "start" if tick == 0 else "end" if tick == _TICKS - 1 else "middle"
            yield f'<line class="tick" x1="{x:.1f}" x2="{x:.1f}" y1="{_AXIS - 6:.0f}" y2="{height:.0f}"/>'
            yield f'<text class="time" x="{x:.1f}" y="14" text-anchor="{anchor}">'
            yield f"{shown_time(self._scale.time(x)) if tick else '0'}</text>\n"

    def _lane(self, title: str, note: str = "") -> None:
        self._height += _GAP
        told = f'<tspan class="told" dx="10">{attribute_html(note)}</tspan>' if note else ""
        self._lanes.append(
            f'<text class="lane" x="0" y="{self._height + 12:.1f}">{attribute_html(title)}{told}</text>\n'
        )
        self._height += _TITLE

    def _editor(self) -> None:
        """The editor's messages: each a bar until its answer."""
        self._lane("Editor", f"{counted(len(self._story.requests), 'message')}, each until it is answered")
        requests = self._story.requests
        ends = [heard.time if heard else self._story.last for _, heard in requests]
        labels = [message_shown(sent.message) for sent, _ in requests]
        spans = []
        for (sent, _), end, label in zip(requests, ends, labels):
            length = 6.5 * len(label.short) + 8
            begin = min(self._x(sent.time), WIDTH - length)
            spans.append((begin, max(self._x(end), begin + length)))
        rows = stacked(spans, 3.0)
        for (sent, heard), end, label, row, (begin, _) in zip(requests, ends, labels, rows, spans):
            x, y = self._x(sent.time), self._height + row * _REQUEST
            width = max(2.0, self._x(end) - x)
            said = f"answered after {shown_time(end - sent.time)}" if heard else "not answered"
            hint = f"{label.whole}\nsent at {shown_time(sent.time)}, {said}"
            self._lanes.append(
                f'<g class="request"><title>{attribute_html(hint)}</title><rect x="{x:.1f}" y="{y + 11:.1f}" '
                f'width="{width:.1f}" height="3"/><text x="{begin:.1f}" y="{y + 9:.1f}">{label.short}</text></g>\n'
            )
        self._height += (max(rows, default=0) + 1) * _REQUEST

    def _replies(self) -> None:
        """The replies: a mark for each answer, and below them how many reports came when."""
        times = self._story.report_times
        self._lane("Program", f"answers, and {counted(len(times), 'report')}")
        y = self._height
        for sent, heard in self._story.requests:
            if heard is not None:
                x = self._x(heard.time)
                label = answer_shown(heard.reply)
                hint = f"{label} to {message_shown(sent.message).whole}\nat {shown_time(heard.time)}"
                css = "answer refusal" if label.startswith("refused") else "answer"
                self._lanes.append(
                    f'<g class="{css}"><title>{attribute_html(hint)}</title>'
                    f'<path d="M{x:.1f},{y + 9:.1f}l-4,-8h8z"/></g>\n'
                )
        self._strip(times, y + 12)
        self._height += 12 + _STRIP

    def _strip(self, times: List[float], top: float) -> None:
        bins: Dict[int, int] = {}
        for time in times:
            at = int(self._x(time) / _BIN)
            bins[at] = bins.get(at, 0) + 1
        most = max(bins.values(), default=1)
        for at, count in bins.items():
            height = max(2.0, _STRIP * count / most)
            self._lanes.append(
                f'<g class="reports"><title>{counted(count, "report")} here</title><rect x="{at * _BIN:.1f}" '
                f'y="{top + _STRIP - height:.1f}" width="{_BIN - 1:.1f}" height="{height:.1f}"/></g>\n'
            )

    def _version(self, version: Version) -> None:
        made = version.made
        told = f"{counted(len(made), 'execution')} made, {version.kept:,} kept"
        if version.assigned is None:
            told = "not assigned"
        ends = [part.stop for execution in made for part in execution.parts if part.stop is not None]
        if ends and version.assigned is not None:
            told += f", the last report {shown_time(max(ends) - version.sent)} after the update"
        self._lane(f"Version {version.number}", told)
        self._untouched(version)
        rows = rows_of(version)
        height = _row_height(len(rows))
        top = self._height
        self._names([row[0][0].node for row in rows], top, height)
        for bar in bars_of(version, rows, self._story.last):
            self._lanes.append(self._bar(bar, top + bar.row * height, height))
        self._height += len(rows) * height

    def _untouched(self, version: Version) -> None:
        """A hollow bar for each theory that is as it was."""
        for node, count in version.untouched:
            hint = f"{node}: {counted(count, 'execution')}, all kept"
            self._name(node, self._height)
            begin = version.sent if version.assigned is None else version.assigned
            self._lanes.append(self._bar(Bar(0, begin, None, "eval", Fate.KEPT, hint), self._height, _ROW))
            self._height += _ROW

    def _names(self, nodes: List[str], top: float, height: float) -> None:
        """The names of theories beside the first of their rows, where there is room."""
        before, room = "", top
        for number, node in enumerate(nodes):
            y = top + number * height
            if node != before and y >= room:
                self._name(node, y)
                before, room = node, y + _ROW

    def _name(self, node: str, y: float) -> None:
        self._lanes.append(f'<text class="told" x="0" y="{y + 10:.1f}">{attribute_html(node)}</text>\n')

    def _bar(self, bar: Bar, y: float, height: float) -> str:
        x = self._x(bar.begin)
        width = _KEPT if bar.end is None else max(1.5, self._x(bar.end) - x)
        if bar.fate is Fate.KEPT:
            x = max(0.0, x - _KEPT)
        thick = height - min(2.0, height / 4)
        inset = 0.5 if bar.fate in (Fate.KEPT, Fate.LEFT, Fate.PENDING) else 0.0
        shape = f'x="{x + inset:.1f}" y="{y + inset:.1f}" width="{width:.1f}" height="{thick - 2 * inset:.1f}"'
        crossed = f'<rect class="cross" {shape}/>' if bar.fate in (Fate.DROPPED, Fate.CANCELLED) else ""
        return (
            f'<g class="bar {bar.part} {bar.fate.value}"><title>{attribute_html(bar.hint)}</title>'
            f"<rect {shape}/>{crossed}</g>\n"
        )


def _row_height(rows: int) -> float:
    return _ROW if rows <= 40 else 6.0 if rows <= 120 else 3.0


def _times(story: Story) -> List[float]:
    """All times at which something came, and the last one."""
    times: List[Optional[float]] = [story.last, *story.report_times]
    for sent, heard in story.requests:
        times += [sent.time, heard.time if heard else None]
    for execution in story.executions.values():
        times += [part.stop for part in execution.parts]
    return [time for time in times if time is not None]


_CROSSES = (
    '<defs><pattern id="crosses" width="8" height="8" patternUnits="userSpaceOnUse">'
    '<path d="M0,0L8,8M8,0L0,8"/></pattern></defs>\n'
)
