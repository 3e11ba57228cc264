"""What the server can do, as `initialize` tells it."""

from __future__ import annotations

from typing import Any

from .positions import Encoding
from .rpc import Json
from .semantic_tokens import LEGEND

INCREMENTAL = 2


class Capabilities:
    """What a client can do, as it tells."""

    def __init__(self, told: Any) -> None:
        self._told = told

    def of(self, *path: str) -> Any:
        """What stands at the path; None where nothing does."""
        found = self._told
        for key in path:
            found = found.get(key) if isinstance(found, dict) else None
        return found


def initialize_result(encoding: Encoding) -> Json:
    """The answer to `initialize`."""
    return {
        "serverInfo": {"name": "pide", "version": "0.1"},
        "capabilities": {
            "positionEncoding": encoding.value,
            "textDocumentSync": {"openClose": True, "change": INCREMENTAL, "save": {"includeText": False}},
            "hoverProvider": True,
            "definitionProvider": True,
            "referencesProvider": True,
            "documentHighlightProvider": True,
            "documentSymbolProvider": True,
            "workspaceSymbolProvider": True,
            "foldingRangeProvider": True,
            "codeActionProvider": {"codeActionKinds": ["quickfix"]},
            "completionProvider": {"triggerCharacters": ["(", "."]},
            "renameProvider": {"prepareProvider": True},
            "semanticTokensProvider": {"legend": LEGEND, "full": True, "range": True},
            "experimental": {"pideState": True},
        },
    }


def watch_registration() -> Json:
    """What asks the client to tell which theories' files change."""
    watch = {"id": "pide-files", "method": "workspace/didChangeWatchedFiles",
             "registerOptions": {"watchers": [{"globPattern": "**/*.thy"}]}}
    return {"registrations": [watch]}
