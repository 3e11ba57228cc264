"""Ranges of lines that can be folded: lemmas with their proofs, blocks, comments."""

from __future__ import annotations

from typing import Any, Dict, Iterator, List, Optional, Tuple

from ..tokens import TokenKind, tokens_of
from .rpc import Json
from .view import View

_GOALS = frozenset(("lemma", "have", "show"))


def folding_ranges(view: View) -> Json:
    """The ranges, of which each has several lines."""
    found = [*_proofs(view), *_comments(view)]
    return [fold for fold in (_fold(view, *place) for place in found) if fold]


def _proofs(view: View) -> Iterator[Tuple[int, int, Optional[str]]]:
    """From each goal to the end of its proof, and from each `proof` to its `qed`."""
    goals: List[int] = []
    blocks: List[Tuple[int, int]] = []
    for number in range(len(view.cut)):
        word, span = view.cut.meaning(number), view.span(number)
        if word == "lemma":
            goals, blocks = [], []
        if word in _GOALS:
            goals.append(span.start)
        elif word == "proof":
            blocks.append((span.start, len(goals)))
        elif word == "qed" and blocks:
            start, count = blocks.pop()
            del goals[count:]
            yield start, span.stop, None
        if word in ("by", "qed") and goals:
            yield goals.pop(), span.stop, None


def _comments(view: View) -> Iterator[Tuple[int, int, Optional[str]]]:
    """The comments between commands."""
    place = 0
    for number in range(len(view.cut) + 1):
        stop = view.cut.starts[number] if number < len(view.cut) else len(view.text)
        if view.text.find("(*", place, stop) >= 0:
            for token in tokens_of(view.text, place, stop):
                if token.kind is TokenKind.COMMENT:
                    yield token.start, token.stop, "comment"
        place = view.span(number).stop if number < len(view.cut) else stop


def _fold(view: View, start: int, stop: int, kind: Optional[str]) -> Optional[Dict[str, Any]]:
    first, last = view.node.lines.line_of(start), view.node.lines.line_of(stop)
    if first == last:
        return None
    return {"startLine": first, "endLine": last, **({"kind": kind} if kind else {})}
