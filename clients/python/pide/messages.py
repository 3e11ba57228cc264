"""What an editor can ask, as values. docs/FORMATS.md tells what each does.

Places count scalars of a text from 0. Ids are 1 to 10^18 - 1.
"""

from __future__ import annotations

import re
from dataclasses import dataclass
from typing import Optional, Tuple, Union

_NAME = re.compile(r"[A-Za-z][A-Za-z0-9_']{0,63}")


def is_name(text: str) -> bool:
    """Whether a node or a blob may be called so."""
    return _NAME.fullmatch(text) is not None


@dataclass(frozen=True)
class Insert:
    """The text is put in at the start."""

    start: int
    text: str


@dataclass(frozen=True)
class Remove:
    """The text, which stands at the start, goes."""

    start: int
    text: str


Edit = Union[Insert, Remove]


@dataclass(frozen=True)
class Perspective:
    """Whether all of a node is to be checked, and the visible ranges, each its start and its stop."""

    required: bool = True
    ranges: Tuple[Tuple[int, int], ...] = ()


@dataclass(frozen=True)
class Change:
    """Edits of a node, one after the other, and what is looked at from then on, where that changes."""

    edits: Tuple[Edit, ...] = ()
    perspective: Optional[Perspective] = None


@dataclass(frozen=True)
class Close:
    """The node goes."""


Item = Union[Change, Close]


def opened(text: str, required: bool = True) -> Change:
    """The change that makes a new node of this text."""
    return Change((Insert(0, text),) if text else (), Perspective(required))


@dataclass(frozen=True)
class Update:
    """A new version. The blobs are names with texts, or with None for those that go; None changes none."""

    version: int
    items: Tuple[Tuple[str, Item], ...] = ()
    blobs: Optional[Tuple[Tuple[str, Optional[str]], ...]] = None


@dataclass(frozen=True)
class AskSnapshot:
    version: int
    node: str
    edits: Tuple[Edit, ...] = ()


@dataclass(frozen=True)
class Settle:
    version: int


@dataclass(frozen=True)
class Cancel:
    execution: int


@dataclass(frozen=True)
class RemoveVersions:
    versions: Tuple[int, ...]


@dataclass(frozen=True)
class ChooseProtocol:
    number: int


@dataclass(frozen=True)
class Claim:
    worker: int


@dataclass(frozen=True)
class Finish:
    worker: int


Message = Union[Update, AskSnapshot, Settle, Cancel, RemoveVersions, ChooseProtocol, Claim, Finish]
