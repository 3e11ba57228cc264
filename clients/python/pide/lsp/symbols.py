"""The symbols of a text as a tree, and facts of all theories by name."""

from __future__ import annotations

import re
from dataclasses import dataclass, field
from typing import Any, Dict, Iterable, List

from .names import definitions
from .rpc import Json
from .view import View

MODULE, FUNCTION, VARIABLE, CONSTANT, EVENT = 2, 12, 13, 14, 24
MOST_FOUND = 500

_KINDS = {"theory": MODULE, "axiom": CONSTANT, "lemma": FUNCTION, "have": FUNCTION, "show": EVENT, "assume": VARIABLE,
          "fix": VARIABLE}
_TOP = frozenset(("axiom", "lemma", "load", "end"))
_NAME = re.compile(r"[ \t\r\n]*([A-Za-z][A-Za-z0-9_']*)")


@dataclass
class _Symbol:
    """A symbol that may still get children: its command, how deep its block is, and where it stops so far."""

    number: int
    word: str
    depth: int
    stop: int
    children: List[_Symbol] = field(default_factory=list)


def document_symbols(view: View) -> Json:
    """Axioms and lemmas in their theory; what is assumed, had and shown in its proof."""
    root = _Symbol(-1, "", -1, 0)
    path = [root]
    depth, stop = 1, 0
    for number in range(len(view.cut)):
        word = view.cut.meaning(number)
        depth = 1 if word in _TOP else depth
        if word in _KINDS or word in _TOP:
            _close(path, 0 if word == "theory" else depth, stop)
        stop = view.span(number).stop
        if word in _KINDS:
            symbol = _Symbol(number, word, 0 if word == "theory" else depth, stop)
            path[-1].children.append(symbol)
            path.append(symbol)
        depth += (word == "proof") - (word == "qed")
    _close(path, 0, stop)
    return [_shown(view, symbol) for symbol in root.children]


def _close(path: List[_Symbol], depth: int, stop: int) -> None:
    """Ends the symbols of blocks that are as deep or deeper."""
    while path[-1].depth >= depth:
        path.pop().stop = stop


def _shown(view: View, root: _Symbol) -> Json:
    """The symbol with all below it, without a recursion as deep as proofs are nested."""
    shown = _node(view, root)
    waiting = [(root, shown)]
    while waiting:
        symbol, parent = waiting.pop()
        for child in symbol.children:
            node = _node(view, child)
            parent["children"].append(node)
            waiting.append((child, node))
    return shown


def _node(view: View, symbol: _Symbol) -> Dict[str, Any]:
    span = view.span(symbol.number)
    behind = span.start + len(span.word)
    name = _NAME.match(view.text, behind, span.stop)
    start, stop = name.span(1) if name else (span.start, behind)
    return {"name": view.text[start:stop], "detail": span.word, "kind": _KINDS[symbol.word],
            "range": view.range(span.start, symbol.stop), "selectionRange": view.range(start, stop), "children": []}


def workspace_symbols(views: Iterable[View], query: str) -> Json:
    """Facts of all theories in whose names the query stands, whatever its case; some hundreds at most."""
    found: List[Json] = []
    for view in views:
        for number, name in definitions(view):
            if query.lower() in name.lower():
                found += _facts(view, number)
            if len(found) >= MOST_FOUND:
                return found
    return found


def _facts(view: View, number: int) -> List[Json]:
    """The facts that a command gives."""
    given = ((dict(report.properties), report) for report in view.reports(number) if report.kind == "def")
    return [{"name": properties["name"], "kind": FUNCTION, "containerName": view.name,
             "location": {"uri": view.uri, "range": view.range(report.start, report.stop)}}
            for properties, report in given if "theory" in properties]
