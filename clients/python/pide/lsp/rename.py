"""A fact is renamed with all its references."""

from __future__ import annotations

import re
from typing import Any, Dict, List

from ..headers import COMMANDS, KEYWORDS
from .names import Fact, Local, Meaning, Occurrence, definition_of, occurrence_at
from .navigation import uses
from .rpc import ErrorCode, Json, RpcError
from .view import View

_NAME = re.compile("[A-Za-z][A-Za-z0-9_']*")


def prepare(view: View, place: int) -> Json:
    """The range of the name at the place, and the name; null where it can't be renamed."""
    occurrence = occurrence_at(view, place)
    if occurrence is None or not _can_be_renamed(occurrence.meaning):
        return None
    start, stop = _simple_range(occurrence)
    return {"range": view.range(start, stop), "placeholder": occurrence.meaning.name}


def rename(view: View, place: int, name: str) -> Json:
    """The edits that give the fact at the place another name. Raises RpcError where it can't have that."""
    occurrence = occurrence_at(view, place)
    if occurrence is None or not _can_be_renamed(occurrence.meaning):
        raise RpcError(ErrorCode.REQUEST_FAILED, "here is no fact that can be renamed")
    if not _is_free(view, occurrence.meaning, name):
        raise RpcError(ErrorCode.REQUEST_FAILED, f"{name} can't be the name of a fact here")
    edits: Dict[str, List[Any]] = {}
    for other, found, _ in uses(view, occurrence):
        edits.setdefault(other.uri, []).append({"range": other.range(*_simple_range(found)), "newText": name})
    return {"changes": edits}


def _can_be_renamed(meaning: Meaning) -> bool:
    """Variables stand in formulas too, of which the engine tells no names."""
    return isinstance(meaning, Fact) or isinstance(meaning, Local) and not meaning.is_variable


def _simple_range(occurrence: Occurrence) -> "tuple[int, int]":
    """The name without the theory before it."""
    return occurrence.stop - len(occurrence.meaning.name), occurrence.stop


def _is_free(view: View, meaning: Meaning, name: str) -> bool:
    taken = COMMANDS | KEYWORDS | frozenset(view.cut.aliases.targets)
    if not _NAME.fullmatch(name) or name in taken:
        return False
    other = view.other(meaning.theory) if isinstance(meaning, Fact) else None
    return other is None or definition_of(other, name) is None
