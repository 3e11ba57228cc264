"""The command `timeline`: a recorded session as a page."""

from __future__ import annotations

import argparse
from pathlib import Path
from typing import Any, Iterator, List, Tuple

from ..errors import PideError
from ..output import write_lines
from .escaping import text_html
from .frame import Frame, counted, page, write_page
from .recording import Events, RecordFault, events_of
from .scale import shown_time
from .story import Execution, Story
from .timeline_style import SCRIPT, STYLE
from .timeline_svg import Drawing

MOST_SLOW = 50

_LEGEND = (
    ("eval", "done", "evaluation of a command"),
    ("fork", "done", "check of its proof"),
    ("print", "done", "print of its state"),
    ("eval", "kept", "kept from an older version"),
    ("eval", "cancelled", "cancelled or dropped"),
    ("eval", "left", "not reported, or left out by a newer version"),
)


def add_command(commands: Any, common: argparse.ArgumentParser) -> None:
    """Adds the command to those of `python3 -m pide`."""
    parser = commands.add_parser("timeline", help="draw a recorded session",
                                 description="Draws a session that record has kept, as one page.")
    parser.add_argument("record", metavar="RECORD", type=Path)
    parser.add_argument("-o", dest="output", metavar="PAGE", type=Path, required=True, help="the page, an HTML file")
    parser.set_defaults(run=run)


def run(asked: argparse.Namespace) -> int:
    """Draws the page, and gives 0."""
    words, story = read_story(asked.record)
    try:
        write_page(asked.output, timeline_page(story, words))
    except OSError as error:
        raise PideError(f"{asked.output}: {error.strerror}") from error
    write_lines([str(asked.output)])
    return 0


def read_story(path: Path) -> Tuple[str, Story]:
    """The words of the program, and the session. Raises PideError where the file isn't there or is no record."""
    story, events = Story(), Events()
    try:
        with open(path, "rb") as stream:
            for event in events_of(stream, events):
                story.take(event)
    except OSError as error:
        raise PideError(f"{path}: {error.strerror}") from error
    except RecordFault as error:
        raise RecordFault(f"{path}: {error}") from error
    return events.words, story


def timeline_page(story: Story, words: str = "") -> Iterator[str]:
    """The page, piece by piece."""
    frame = Frame("Timeline of a session", style=STYLE, script=SCRIPT, skip_to="slowest",
                  skip_label="Skip the drawing, to the slowest executions")
    yield from page(frame, _header(story, words), _main(story))


def _header(story: Story, words: str) -> Iterator[str]:
    versions, executions = len(story.versions), len(story.executions)
    program = f" Program: <code>{text_html(words)}</code>." if words else ""
    yield (
        f"<p>{counted(len(story.requests), 'message')}, {counted(versions, 'version')}, "
        f"{counted(executions, 'execution')}, {shown_time(story.last)}."
        f"{program}</p>\n"
    )


def _main(story: Story) -> Iterator[str]:
    yield _legend()
    yield '<div class="graph" tabindex="0" role="region" aria-label="Drawing of the session">\n'
    yield from Drawing(story).pieces()
    yield '</div>\n<p id="hint" class="hint" aria-hidden="true"></p>\n'
    yield (
        '<p class="remark">A bar begins at the assign that made its execution and ends at its report, so it holds '
        "the time for which the execution waited; rows follow the document. The program doesn’t tell which worker "
        "did what: what overlaps stands in rows of its own. Times are those at which bytes came; pauses are shaded, "
        "and drawn short.</p>\n"
    )
    yield from _versions(story)
    yield from _slowest(story)


def _legend() -> str:
    rows: List[str] = []
    for part, fate, label in _LEGEND:
        cross = '<rect class="cross" x="1" y="2" width="26" height="10"/>' if fate == "cancelled" else ""
        rows.append(
            f'<li><svg width="28" height="14" aria-hidden="true"><g class="bar {part} {fate}">'
            f'<rect x="1" y="2" width="26" height="10"/>{cross}</g></svg> {label}</li>'
        )
    return f'<ul class="legend" aria-label="Legend">{"".join(rows)}</ul>\n'


def _versions(story: Story) -> Iterator[str]:
    yield '<h2>Versions</h2>\n<table>\n<thead><tr><th scope="col">Version</th>'
    yield '<th scope="col" class="number">Made</th><th scope="col" class="number">Kept</th>'
    yield '<th scope="col">Sent at</th><th scope="col">Assigned after</th></tr></thead>\n<tbody>\n'
    for version in story.versions.values():
        after = shown_time(version.assigned - version.sent) if version.assigned is not None else "–"
        yield f'<tr><th scope="row">{version.number}</th><td class="number">{len(version.made):,}</td>'
        yield f'<td class="number">{version.kept:,}</td><td>{shown_time(version.sent)}</td><td>{after}</td></tr>\n'
    yield "</tbody>\n</table>\n"


def _slowest(story: Story) -> Iterator[str]:
    yield '<h2 id="slowest" tabindex="-1">Slowest executions</h2>\n'
    slow = sorted(story.executions.values(), key=_duration, reverse=True)[:MOST_SLOW]
    if not slow:
        yield "<p>No execution was assigned.</p>\n"
        return
    yield '<table>\n<thead><tr><th scope="col" class="number">Execution</th><th scope="col">Theory</th>'
    yield '<th scope="col">Command</th><th scope="col" class="number">Until its last report</th></tr></thead>\n'
    yield "<tbody>\n"
    for execution in slow:
        yield (
            f'<tr><th scope="row" class="number">{execution.number}</th><td>{text_html(execution.node)}</td>'
            f"<td><code>{text_html(execution.text)}</code></td>"
            f'<td class="number">{shown_time(_duration(execution))}</td></tr>\n'
        )
    yield "</tbody>\n</table>\n"


def _duration(execution: Execution) -> float:
    """From the assign to the last report; 0 where there is none."""
    stops = [part.stop for part in execution.parts if part.stop is not None]
    return max(stops) - execution.assigned if stops else 0.0
