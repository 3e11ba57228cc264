"""The open texts and the theories that belong to them, kept in step with the engine."""

from __future__ import annotations

from pathlib import Path
from typing import Dict, List, Optional, Sequence

from ..errors import PideError
from ..messages import Change, Close, Insert, Item
from .documents import Document, Mark, sendable
from .engine import Engine
from .node import Node
from .perspectives import Perspectives
from .positions import Encoding
from .project import Files, Project, project_of
from .view import View


class Workspace:
    """Open texts by URI, the theories that are sent, and what is known of them."""

    def __init__(self, engine: Engine, folders: Sequence[Path]) -> None:
        self.engine = engine
        self.documents: Dict[str, Document] = {}
        self.files = Files()
        self.project = Project()
        self.perspectives = Perspectives()
        self.encoding = Encoding.UTF16
        self.may_start = True
        self._folders = folders
        self._is_stale = True
        self._failure: Optional[str] = None

    # Texts

    def open(self, document: Document) -> None:
        """Takes in a text that the editor has opened."""
        self.documents[document.uri] = document
        self.touch()

    def close(self, uri: str) -> None:
        """Lets a text go; its file counts from then on, where it is imported."""
        self.documents.pop(uri, None)
        self.touch()

    def touch(self) -> None:
        """Notes that texts have come or gone, or a header or a file has changed; a dead engine may be started anew."""
        self._is_stale = True
        self.may_start = True

    def note_edit(self, document: Document, has_other_header: bool) -> None:
        """Notes that something was typed."""
        self.may_start = True
        self._is_stale = self._is_stale or has_other_header
        name = self.name_of(document)
        if name is not None and document.unsent:
            last = document.unsent[-1]
            place = document.mark(last.start + len(last.text))
            self.perspectives.note_edit(name, place, self.engine.nodes, self.project)

    # The engine

    def step(self) -> bool:
        """Sends what has changed where no update is on its way; whether there is a new project."""
        if not self.engine.is_idle:
            return False
        if not self.engine.is_running and not (self.may_start and self.documents and self._start()):
            return False
        is_new = self._is_stale
        if self._is_stale:
            self.project = project_of(list(self.documents.values()), self.files, self._folders)
            self._is_stale = False
        self.perspectives.widen(self.engine.mirror.is_finished)
        items = self._changes()
        if items:
            self.engine.update(items)
        return is_new

    def _start(self) -> bool:
        """Starts the engine; why that fails is reported once."""
        self.may_start = False
        self._is_stale = True
        try:
            self.engine.start()
        except PideError as error:
            if str(error) != self._failure:
                self._failure = str(error)
                self.engine.fail(self._failure)
            return False
        self._failure = None
        return True

    def _changes(self) -> Dict[str, Item]:
        nodes, sources = self.engine.nodes, self.project.sources
        items: Dict[str, Item] = {}
        for name in [name for name in nodes if name not in sources]:
            del nodes[name]
            items[name] = Close()
        for name, source in sources.items():
            node = nodes.get(name)
            inherited = self.project.inherited.get(name, {})
            if node is None:
                node = nodes[name] = Node(name, source, inherited)
                node.perspective = self.perspectives.of(node)
                text = sendable(node.text)
                items[name] = Change((Insert(0, text),) if text else (), node.perspective)
                continue
            edits = node.edits(source)
            node.cut.inherit(node.text, inherited)
            perspective = self.perspectives.of(node)
            if edits:
                self.engine.mirror.changed.add(name)  # its errors move, though its commands may be the same
            if edits or perspective != node.perspective:
                items[name] = Change(edits, perspective)
                node.perspective = perspective
        return items

    # What is asked

    def name_of(self, document: Document) -> Optional[str]:
        """The theory whose text the document is, if it is checked."""
        return next((name for name, source in self.project.sources.items() if source is document), None)

    def node_of(self, document: Document) -> Optional[Node]:
        """The same as the engine has it."""
        name = self.name_of(document)
        return self.engine.nodes.get(name) if name is not None else None

    def view(self, name: str) -> Optional[View]:
        """A theory that is checked, for who asks about it."""
        node = self.engine.nodes.get(name)
        if node is None:
            return None
        return View(node, self.engine.nodes, self.engine.mirror, self.project, self.encoding)

    @property
    def is_current(self) -> bool:
        """Whether what is known is of the texts as they are."""
        return (self.engine.is_idle and not self._is_stale
                and all(node.is_current for node in self.engine.nodes.values()))

    @property
    def is_checked(self) -> bool:
        """Whether all that is open, and what it imports, is checked to its end."""
        return self.is_current and not self.engine.mirror.pending and not self.perspectives.is_narrow

    def look_at(self, document: Document, marks: List[Mark]) -> None:
        """Has the commands at these places printed."""
        name = self.name_of(document)
        if name is not None:
            self.perspectives.asked[name] = marks
