"""Semantic tokens: commands, names of facts, formulas, comments."""

from __future__ import annotations

from typing import Dict, Iterator, List, NamedTuple

from ..tokens import TokenKind, tokens_of
from .proof_terms import RULES, Term
from .names import term_of
from .rpc import Json
from .view import View

TYPES = ["keyword", "comment", "string", "function", "parameter", "variable", "namespace", "macro", "operator"]
MODIFIERS = ["declaration"]
LEGEND = {"tokenTypes": TYPES, "tokenModifiers": MODIFIERS}

_NUMBERS = {name: number for number, name in enumerate(TYPES)}
_KINDS = {TokenKind.COMMAND: "keyword", TokenKind.KEYWORD: "keyword", TokenKind.COMMENT: "comment",
          TokenKind.STRING: "string", TokenKind.CARTOUCHE: "string", TokenKind.ERROR: "string"}
_NAMED = {"lemma": "function", "axiom": "function", "have": "function", "assume": "parameter", "fix": "variable"}


class Marked(NamedTuple):
    """A token to be shown: its range in characters, its type, whether it gives a name."""

    start: int
    stop: int
    kind: str
    is_declaration: bool = False


def of_text(view: View) -> Json:
    """The tokens of the whole text."""
    return of_range(view, 0, len(view.text))


def of_range(view: View, start: int, stop: int) -> Json:
    """The tokens of all commands that have a part of the range."""
    first = max(view.cut.at(start), 0)
    last = view.cut.at(max(start, stop - 1))
    begin = 0 if first == 0 or not len(view.cut) else view.cut.starts[first]
    marked = _marked(view, first, last, begin, stop)
    return {"data": _encoded(view, (token for token in marked if token.stop > start and token.start < stop))}


def _marked(view: View, first: int, last: int, place: int, stop: int) -> Iterator[Marked]:
    """What is to be shown of these commands, and of what stands before, between and behind them up to the stop."""
    for number in range(first, last + 1):
        span = view.span(number)
        yield from _improper(view, place, span.start)
        yield from _of_command(view, number)
        place = span.stop
    yield from _improper(view, place, max(place, stop))


def _improper(view: View, place: int, stop: int) -> Iterator[Marked]:
    """The comments between commands."""
    if "(*" in view.text[place:stop]:
        for token in tokens_of(view.text, place, stop, view.cut.aliases):
            if token.kind is TokenKind.COMMENT:
                yield Marked(token.start, token.stop, "comment")


def _of_command(view: View, number: int) -> Iterator[Marked]:
    span = view.span(number)
    meaning = view.cut.meaning(number)
    in_term = _types_in_term(term_of(view, number)) if meaning == "by" else {}
    is_named = False
    for token in tokens_of(view.text, span.start, span.stop, view.cut.aliases):
        kind = _KINDS.get(token.kind)
        if kind is not None:
            yield Marked(token.start, token.stop, kind)
        elif meaning == "by":
            if token.start in in_term:
                yield in_term[token.start]
        elif token.kind in (TokenKind.IDENT, TokenKind.LONG_IDENT):
            kind = "namespace" if meaning == "theory" else _NAMED.get(meaning)
            if kind is not None and (meaning == "theory" or not is_named):
                yield Marked(token.start, token.stop, kind, not is_named)
            is_named = True


def _types_in_term(term: Term) -> Dict[int, Marked]:
    """What is to be shown of a proof term, by places."""
    found: Dict[int, Marked] = {}
    for token in term.rules:
        if token.text in RULES:
            found[token.start] = Marked(token.start, token.stop, "macro")
    for binder in term.binders:
        kind = "variable" if binder.is_variable else "parameter"
        found[binder.token.start] = Marked(binder.token.start, binder.token.stop, kind, True)
    for token in term.names:
        is_bound = term.binder_of(token.text, token.start) is not None
        found[token.start] = Marked(token.start, token.stop, "parameter" if is_bound else "function")
    return found


def _encoded(view: View, tokens: Iterator[Marked]) -> List[int]:
    """Five numbers a token, lines and characters from the token before, as LSP has them. A token ends with its line."""
    numbers: List[int] = []
    lines, encoding = view.node.lines, view.encoding
    last_line, last_character = 0, 0
    for token in tokens:
        for start, stop in lines.pieces(token.start, token.stop):
            position = lines.position(start, encoding)
            line, character = position["line"], position["character"]
            numbers += (line - last_line, character - (last_character if line == last_line else 0),
                        encoding.units(view.text[start:stop]), _NUMBERS[token.kind], int(token.is_declaration))
            last_line, last_character = line, character
    return numbers
