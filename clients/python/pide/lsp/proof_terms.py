"""Proof terms as they stand in a text: the rules, the names that they cite, and what their binders bind.

The engine reports no binders, and nothing of a wrong proof; so a term is read here from its tokens. What is malformed
is read as far as it goes.
"""

from __future__ import annotations

from dataclasses import dataclass, field
from typing import Dict, Iterable, List, Mapping, NamedTuple, Optional

from ..tokens import Token, TokenKind

_QUOTED = (TokenKind.STRING, TokenKind.CARTOUCHE)
_NAMES = (TokenKind.IDENT, TokenKind.LONG_IDENT)


class Rule(NamedTuple):
    """A rule of proof terms: its arguments, one letter each (t a term, s a quoted text, h the name of an assumption,
    v that of a variable); for each binder the argument in which it is bound; and what docs/FORMATS.md says of it."""

    arguments: str
    scopes: Mapping[int, int]
    form: str
    goal: str
    parts: str


RULES: Dict[str, Rule] = {
    "conjI": Rule("tt", {}, "(conjI t u)", "A & B", "t: A, u: B"),
    "conjE1": Rule("st", {}, '(conjE1 "B" t)', "any", "t: G & B"),
    "conjE2": Rule("st", {}, '(conjE2 "A" t)', "any", "t: A & G"),
    "disjI1": Rule("t", {}, "(disjI1 t)", "A | B", "t: A"),
    "disjI2": Rule("t", {}, "(disjI2 t)", "A | B", "t: B"),
    "disjE": Rule("ssththt", {3: 4, 5: 6}, '(disjE "A" "B" t x u y v)', "any",
                  "t: A | B; u: G, with x: A; v: G, with y: B"),
    "impI": Rule("ht", {0: 1}, "(impI x t)", "A --> B", "t: B, with x: A"),
    "impE": Rule("stt", {}, '(impE "A" t u)', "any", "t: A --> G, u: A"),
    "notI": Rule("ht", {0: 1}, "(notI x t)", "~A", "t: False, with x: A"),
    "notE": Rule("stt", {}, '(notE "A" t u)', "False", "t: ~A, u: A"),
    "falseE": Rule("t", {}, "(falseE t)", "any", "t: False"),
    "allI": Rule("vt", {0: 1}, "(allI x t)", "ALL y. P", "t: P at x, which is fresh"),
    "allE": Rule("sst", {}, '(allE "ALL y. P" "s" t)', "P at s", "t: ALL y. P"),
    "exI": Rule("st", {}, '(exI "s" t)', "EX y. P", "t: P at s"),
    "exE": Rule("svhtt", {1: 4, 2: 4}, '(exE "EX y. P" x h t u)', "any",
                "t: EX y. P; u: G, with h: P at x, which is fresh"),
}


@dataclass
class Binder:
    """A name that a rule binds, and where: a range that is empty until the argument has been read."""

    token: Token
    rule: str
    is_variable: bool
    start: int = 0
    stop: int = 0


@dataclass
class Term:
    """What stands in a proof term: names that are cited, rules, and binders, outer ones first."""

    names: List[Token] = field(default_factory=list)
    rules: List[Token] = field(default_factory=list)
    binders: List[Binder] = field(default_factory=list)

    def binder_of(self, name: str, place: int) -> Optional[Binder]:
        """The innermost binder of an assumption of this name in whose range the place is."""
        around = (binder for binder in self.binders if binder.start <= place < binder.stop)
        named = [binder for binder in around if binder.token.text == name and not binder.is_variable]
        return max(named, key=lambda binder: binder.start) if named else None


@dataclass
class _Open:
    """A parenthesis whose rule and arguments are being read; -1 is the start of the whole term, which has no rule."""

    start: int
    rule: Optional[Token] = None
    count: int = 0
    binders: Dict[int, Binder] = field(default_factory=dict)

    def kind(self) -> str:
        """The kind of the next argument; a term where the rule has none left."""
        rule = RULES.get(self.rule.text) if self.rule else None
        return rule.arguments[self.count] if rule and self.count < len(rule.arguments) else "t"

    def end_argument(self, start: int, stop: int) -> None:
        """Notes that an argument has been read, and which binders are bound in it."""
        rule = RULES.get(self.rule.text) if self.rule else None
        for number, scope in rule.scopes.items() if rule else ():
            if scope == self.count and number in self.binders:
                self.binders[number].start, self.binders[number].stop = start, stop
        self.count += 1


def read_term(tokens: Iterable[Token]) -> Term:
    """What stands in the term of these tokens, which begin behind the `by`."""
    term = Term()
    opened = [_Open(-1)]
    stop = 0
    for token in (token for token in tokens if token.is_proper):
        stop = token.stop
        if token.text == "(":
            opened.append(_Open(token.start))
        elif token.text == ")":
            if len(opened) > 1:
                closed = opened.pop()
                opened[-1].end_argument(closed.start, token.stop)
        elif token.kind in _QUOTED:
            opened[-1].end_argument(token.start, token.stop)
        elif token.kind in _NAMES:
            _read_name(term, opened[-1], token)
    while len(opened) > 1:
        closed = opened.pop()
        opened[-1].end_argument(closed.start, stop)
    return term


def _read_name(term: Term, around: _Open, token: Token) -> None:
    if around.start >= 0 and around.rule is None:
        around.rule = token
        term.rules.append(token)
        return
    kind = around.kind()
    if kind in "hv" and around.rule is not None:
        binder = Binder(token, around.rule.text, kind == "v")
        around.binders[around.count] = binder
        term.binders.append(binder)
    else:
        term.names.append(token)
    around.end_argument(token.start, token.stop)
