"""Definitions, references and highlights of names."""

from __future__ import annotations

from typing import Iterator, Optional, Tuple

from .names import Fact, Local, Meaning, Occurrence, TheoryName, definition_of, occurrence_at, occurrences
from .rpc import Json
from .view import View

READ, WRITE = 2, 3


def definition(view: View, place: int) -> Json:
    """Where the name at the place is given."""
    occurrence = occurrence_at(view, place)
    found = definition_place(view, occurrence.meaning) if occurrence else None
    return _location(found[0], found[1], found[2]) if found else None


def definition_place(view: View, meaning: Meaning) -> Optional[Tuple[View, int, int]]:
    """The theory and the range in which the name is given."""
    if isinstance(meaning, Local):
        return view, meaning.start, meaning.start + len(meaning.name)
    if isinstance(meaning, Fact):
        other = view.other(meaning.theory)
        definition = definition_of(other, meaning.name) if other else None
        return (other, definition[1].start, definition[1].stop) if other and definition else None
    if isinstance(meaning, TheoryName):
        other = view.other(meaning.name)
        header = other.node.source.header if other else None
        start = header.place if header else 0
        return (other, start, start + len(meaning.name) if header else 0) if other else None
    return None


def references(view: View, place: int, includes_definition: bool) -> Json:
    """Where the name at the place is cited, in all theories."""
    occurrence = occurrence_at(view, place)
    if occurrence is None:
        return None
    return [_location(other, found.start, found.stop)
            for other, found, is_definition in uses(view, occurrence) if includes_definition or not is_definition]


def highlights(view: View, place: int) -> Json:
    """Where the name at the place stands in this text."""
    occurrence = occurrence_at(view, place)
    if occurrence is None:
        return None
    return [{"range": view.range(found.start, found.stop), "kind": WRITE if is_definition else READ}
            for other, found, is_definition in uses(view, occurrence) if other.name == view.name]


def uses(view: View, occurrence: Occurrence) -> Iterator[Tuple[View, Occurrence, bool]]:
    """All places where a name stands, and whether it is given there."""
    given = definition_place(view, occurrence.meaning)
    at = (given[0].name, given[1]) if given else None
    for other, found in occurrences(view, occurrence.meaning):
        yield other, found, (other.name, found.start) == at


def _location(view: View, start: int, stop: int) -> Json:
    return {"uri": view.uri, "range": view.range(start, stop)}
