"""What the program replies, as values. docs/FORMATS.md tells when each comes.

Places of reports count scalars from 0; where symbols are asked for they number these, from 1. Reports and rows are
read when they are looked at.
"""

from __future__ import annotations

from dataclasses import dataclass
from typing import List, Sequence, Tuple, Union

from .errors import Refusal
from .reports import Report, of_kind
from .rows import Rows


@dataclass(frozen=True)
class Assigned:
    """The nodes whose rows differ from the version before: of each command its id, and its executions (none, the
    evaluation, or the evaluation and the print)."""

    version: int
    nodes: Sequence[Tuple[str, Rows]]


@dataclass(frozen=True)
class Snapshot:
    """What is known of a node: the reports, the executions that aren't finished, whether edits were pending."""

    version: int
    node: str
    reports: Sequence[Report]
    pending: Tuple[int, ...]
    outdated: bool

    @property
    def is_whole(self) -> bool:
        """Whether nothing is pending: then the reports are the whole markup of what is wanted of the node."""
        return not self.pending

    def of_kind(self, kind: str) -> List[Report]:
        return of_kind(self.reports, kind)

    @property
    def errors(self) -> List[Report]:
        return self.of_kind("error")


@dataclass(frozen=True)
class Settled:
    version: int
    stuck: Tuple[int, ...]


@dataclass(frozen=True)
class Cancelled:
    execution: int


@dataclass(frozen=True)
class Idle:
    execution: int


@dataclass(frozen=True)
class Removed:
    versions: Tuple[int, ...]


@dataclass(frozen=True)
class ProtocolChosen:
    number: int


@dataclass(frozen=True)
class Refused:
    refusal: Refusal


@dataclass(frozen=True)
class Claimed:
    worker: int
    execution: int
    part: str


@dataclass(frozen=True)
class Reported:
    """A part is finished; places count from the command's start."""

    execution: int
    part: str
    reports: Sequence[Report]


@dataclass(frozen=True)
class Dropped:
    """A part is let go: nobody wants it any more."""

    execution: int
    part: str


@dataclass(frozen=True)
class Built:
    """A theory of a build is checked; places count from its text's start."""

    node: str
    reports: Sequence[Report]


@dataclass(frozen=True)
class Total:
    """All theories of a build are checked: how many there are, and how many errors."""

    nodes: int
    errors: int


Reply = Union[
    Assigned,
    Snapshot,
    Settled,
    Cancelled,
    Idle,
    Removed,
    ProtocolChosen,
    Refused,
    Claimed,
    Reported,
    Dropped,
    Built,
    Total,
]
