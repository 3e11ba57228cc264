"""The requests that are served, and what each needs to be known before it is answered."""

from __future__ import annotations

from dataclasses import dataclass
from typing import Any, Callable, Dict, Optional

from . import actions, completion, folding, hover, navigation, rename, semantic_tokens, symbols
from .documents import Document, Mark
from .positions import Position
from .rpc import ErrorCode, Json, RequestId, RpcError
from .view import View
from .workspace import Workspace

NOT_YET = object()
PATIENCE = 10.0
STATE_PATIENCE = 5.0
NAMES_PATIENCE = 1.0

Params = Dict[str, Any]


@dataclass
class Request:
    """A request that is to be answered, until its deadline; `mark` is the place that it asks about."""

    identifier: RequestId
    method: str
    kind: Method
    params: Params
    deadline: float
    document: Optional[Document] = None
    mark: Optional[Mark] = None

    @property
    def place(self) -> int:
        """The place in the text as it is now."""
        return self.mark.place if self.mark is not None else 0


@dataclass(frozen=True)
class Method:
    """A method: how it is answered, how it names a place, whether it needs the state there or the names that are given
    by commands that aren't finished yet, and how many seconds it may wait."""

    of_text: Optional[Callable[[View, Request], Json]] = None
    of_all: Optional[Callable[[Workspace, Request], Json]] = None
    place: Optional[Callable[[Params], Position]] = None
    needs_state: bool = False
    needs_names: bool = False
    patience: float = PATIENCE

    @property
    def has_text(self) -> bool:
        """Whether it is about one text."""
        return self.of_text is not None

    def answer(self, view: View, request: Request, is_late: bool) -> Json:
        """The result for a text, or NOT_YET where what it needs isn't known and there is time."""
        assert self.of_text is not None
        if self.needs_state and not is_late:
            number = view.last_command(request.place)
            if number is not None and not view.is_printed(number):
                return NOT_YET
        if self.needs_names and not is_late and not view.is_finished:
            return NOT_YET
        return self.of_text(view, request)

    def answer_all(self, workspace: Workspace, request: Request, is_late: bool) -> Json:
        """The result for all texts, or NOT_YET."""
        assert self.of_all is not None
        return self.of_all(workspace, request)


def _position(params: Params) -> Position:
    position: Position = params["position"]
    return position


def _range_start(params: Params) -> Position:
    position: Position = params["range"]["start"]
    return position


def _at(answer: Callable[[View, int], Json]) -> Method:
    return Method(lambda view, request: answer(view, request.place), place=_position, needs_names=True,
                  patience=NAMES_PATIENCE)


def _of(answer: Callable[[View], Json]) -> Method:
    return Method(lambda view, request: answer(view))


def _references(view: View, request: Request) -> Json:
    context = request.params.get("context")
    includes = isinstance(context, dict) and context.get("includeDeclaration") is True
    return navigation.references(view, request.place, includes)


def _tokens_of_range(view: View, request: Request) -> Json:
    return semantic_tokens.of_range(view, *view.node.lines.offsets(request.params["range"], view.encoding))


def _rename(view: View, request: Request) -> Json:
    name = request.params.get("newName")
    if not isinstance(name, str):
        raise RpcError(ErrorCode.INVALID_PARAMS, "newName is no text")
    return rename.rename(view, request.place, name)


def _actions(view: View, request: Request) -> Json:
    return actions.code_actions(view, request.place, request.params.get("context"))


def _workspace_symbols(workspace: Workspace, request: Request) -> Json:
    views = [view for view in map(workspace.view, list(workspace.engine.nodes)) if view is not None]
    return symbols.workspace_symbols(views, str(request.params.get("query", "")))


def _checked(workspace: Workspace, request: Request) -> Json:
    if workspace.engine.is_running and not workspace.is_checked:
        return NOT_YET
    return {"theories": len(workspace.engine.nodes)}


METHODS: Dict[str, Method] = {
    "textDocument/hover": Method(lambda view, request: hover.hover(view, request.place), place=_position,
                                 needs_state=True, patience=STATE_PATIENCE),
    "textDocument/definition": _at(navigation.definition),
    "textDocument/references": Method(_references, place=_position, needs_names=True),
    "textDocument/documentHighlight": _at(navigation.highlights),
    "textDocument/documentSymbol": _of(symbols.document_symbols),
    "textDocument/foldingRange": _of(folding.folding_ranges),
    "textDocument/semanticTokens/full": _of(semantic_tokens.of_text),
    "textDocument/semanticTokens/range": Method(_tokens_of_range),
    "textDocument/codeAction": Method(_actions, place=_range_start, needs_state=True, patience=STATE_PATIENCE),
    "textDocument/completion": _at(completion.completion),
    "textDocument/prepareRename": _at(rename.prepare),
    "textDocument/rename": Method(_rename, place=_position, needs_names=True),
    "workspace/symbol": Method(of_all=_workspace_symbols),
    "pide/state": Method(lambda view, request: hover.state(view, request.place), place=_position,
                         needs_state=True, patience=STATE_PATIENCE),
    "pide/checked": Method(of_all=_checked, patience=3600.0),
}
