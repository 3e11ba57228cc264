"""What may stand at a place: names of facts in scope, rules, commands, words of the header."""

from __future__ import annotations

import re
from typing import Any, Dict, Iterator, List, Optional, Set, Tuple

from ..headers import COMMANDS
from ..messages import is_name
from .names import commands_in_scope, definitions, stated_formula, term_of
from .proof_terms import RULES
from .rpc import Json
from .view import View

FUNCTION, VARIABLE, MODULE, KEYWORD, CONSTRUCTOR = 3, 6, 9, 14, 4
MOST_ITEMS = 200
_PREFIX = re.compile(r"[A-Za-z][A-Za-z0-9_'.]*\Z")
_FORMULAS = ("lemma", "axiom", "assume", "have", "show")

Item = Dict[str, Any]


def completion(view: View, place: int) -> Json:
    """What may stand here and begins as the word before the place does; a part of it where there is much."""
    start = view.text.rfind("\n", 0, place) + 1
    found = _PREFIX.search(view.text, start, place)
    prefix = found[0] if found else ""
    items: List[Item] = []
    for item in _candidates(view, place - len(prefix), prefix):
        if len(items) == MOST_ITEMS:
            return {"isIncomplete": True, "items": items}
        items.append(item)
    return {"isIncomplete": False, "items": items}


def _candidates(view: View, place: int, prefix: str) -> Iterator[Item]:
    """What fits at the place where the word begins."""
    number = view.last_command(place - 1)
    word = view.cut.meaning(number) if number is not None else ""
    span = view.span(number) if number is not None else None
    if number is None or span is None or not word:
        yield from _words(prefix, ["theory"])
    elif word == "theory" and (place < view.cut.aliases.header_stop or not view.cut.aliases.header_stop):
        yield from _in_header(view, prefix)
    elif word == "by" and place >= span.start + len(span.word):
        is_rule = view.text[:place].endswith("(")
        yield from _rules(prefix)
        if not is_rule:
            yield from _facts(view, number, place, prefix)
            yield from _commands(view, prefix)
    elif not _in_quotes(view, span.start, place):
        yield from _commands(view, prefix)


def _in_quotes(view: View, start: int, place: int) -> bool:
    return view.text.count('"', start, place) % 2 == 1


def _words(prefix: str, words: List[str]) -> Iterator[Item]:
    return ({"label": word, "kind": KEYWORD} for word in words if word.startswith(prefix))


def _commands(view: View, prefix: str) -> Iterator[Item]:
    """The commands, and the aliases with what they stand for."""
    yield from _words(prefix, sorted(COMMANDS))
    for word, target in view.cut.aliases.targets.items():
        if word.startswith(prefix):
            yield {"label": word, "kind": KEYWORD, "detail": target}


def _in_header(view: View, prefix: str) -> Iterator[Item]:
    """The words of a header, and theories: those that are checked, and those of the folder."""
    yield from _words(prefix, ["begin", "imports", "keywords"])
    path = view.node.source.path
    files = {file.stem for file in path.parent.glob("*.thy")} if path is not None else set()
    for name in sorted({other.name for other in view.all()} | files):
        if name.startswith(prefix) and name != view.name and is_name(name):
            yield {"label": name, "kind": MODULE}


def _rules(prefix: str) -> Iterator[Item]:
    for name, rule in RULES.items():
        if name.startswith(prefix):
            yield {"label": name, "kind": CONSTRUCTOR, "detail": rule.form,
                   "documentation": f"goal G: {rule.goal}; {rule.parts}"}


def _facts(view: View, number: int, place: int, prefix: str) -> Iterator[Item]:
    """The facts that a proof may cite, those of the proof first, then those of theories, the nearest first."""
    seen: Set[str] = set()
    for name, formula, kind in [*_bound(view, number, place), *_in_blocks(view, number)]:
        if name.startswith(prefix) and name not in seen:
            seen.add(name)
            yield {"label": name, "kind": kind, **({"detail": formula} if formula else {})}
    for other in view.in_scope():
        for at, name in definitions(other, prefix.rpartition(".")[2]):
            label = name if name not in seen and "." not in prefix else f"{other.name}.{name}"
            if label.startswith(prefix) and (other.name != view.name or at < number):
                seen.add(name)
                yield {"label": label, "kind": FUNCTION, "detail": stated_formula(other, at) or ""}


def _bound(view: View, number: int, place: int) -> Iterator[Tuple[str, Optional[str], int]]:
    """The assumptions of the term's own rules."""
    for binder in reversed(term_of(view, number).binders):
        if not binder.is_variable and binder.start <= place <= binder.stop:
            yield binder.token.text, f"assumption of {binder.rule}", VARIABLE


def _in_blocks(view: View, number: int) -> Iterator[Tuple[str, Optional[str], int]]:
    """The assumptions and facts of the blocks around."""
    for other in commands_in_scope(view, number):
        for report in view.reports(other):
            if report.kind == "def":
                yield dict(report.properties)["name"], stated_formula(view, other), VARIABLE
