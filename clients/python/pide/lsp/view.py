"""A theory as requests see it: its text, its commands, and what is known of them, by places in characters."""

from __future__ import annotations

from typing import Dict, Iterator, List, Optional, Tuple

from ..reports import Report
from ..tokens import Span
from .mirror import Mirror
from .node import Node
from .positions import Encoding, Range
from .project import Project


class View:
    """A theory that is checked, and through it all others. Nothing of it changes while a request is answered."""

    def __init__(
        self, node: Node, nodes: Dict[str, Node], mirror: Mirror, project: Project, encoding: Encoding
    ) -> None:
        self.node = node
        self.name = node.name
        self.text = node.text
        self.cut = node.cut
        self.uri = node.source.uri
        self.encoding = encoding
        self._nodes = nodes
        self._mirror = mirror
        self._project = project

    def other(self, name: str) -> Optional[View]:
        """Another theory that is checked, or this one, by its name."""
        node = self._nodes.get(name)
        return View(node, self._nodes, self._mirror, self._project, self.encoding) if node else None

    def all(self) -> Iterator[View]:
        """All theories that are checked."""
        return (view for view in map(self.other, list(self._nodes)) if view is not None)

    def in_scope(self) -> Iterator[View]:
        """This theory and all that it imports, the nearest first."""
        return (view for view in map(self.other, self._project.with_imports(self.name)) if view is not None)

    def command_at(self, place: int) -> Optional[int]:
        """The number of the command in which the place is, or at whose end; else None."""
        number = self.cut.at(place)
        return number if number >= 0 and place <= self.cut.span(number).stop else None

    def last_command(self, place: int) -> Optional[int]:
        """The number of the last command that begins at or before the place, if there is one."""
        number = self.cut.at(place)
        return number if number >= 0 else None

    def span(self, number: int) -> Span:
        """The command of this number, with its place in the text."""
        return self.cut.span(number)

    def texts(self, number: int) -> Iterator[str]:
        """What the program has told of a command, as it wrote it."""
        return self._mirror.texts(self.name, number) if number < self._known() else iter(())

    def reports(self, number: int) -> List[Report]:
        """What is known of a command, at its places in the text."""
        if number >= self._known():
            return []
        start = self.cut.starts[number]
        return [report._replace(start=report.start + start, stop=report.stop + start)
                for report in self._mirror.reports(self.name, number)]

    def _known(self) -> int:
        mirrored = self._mirror.nodes.get(self.name)
        return len(mirrored.rows.rows) if mirrored else 0

    def is_pending(self, number: int) -> bool:
        """Whether something of the command isn't checked yet."""
        return number >= self._known() or self._mirror.is_pending(self.name, number)

    @property
    def is_finished(self) -> bool:
        """Whether nothing is pending in any theory."""
        return self._mirror.is_finished

    def is_printed(self, number: int) -> bool:
        """Whether the command's state is known."""
        return not self.is_pending(number) and any(report.kind == "state" for report in self.reports(number))

    def errors(self) -> Iterator[Tuple[int, Report]]:
        """The errors that are known, each with the number of its command, at their places in the text."""
        if self._known() != len(self.cut):
            return
        for number, report in self._mirror.errors(self.name):
            start = self.cut.starts[number]
            yield number, report._replace(start=report.start + start, stop=report.stop + start)

    def range(self, start: int, stop: int) -> Range:
        """The range of LSP between two places."""
        return self.node.lines.range(start, stop, self.encoding)
