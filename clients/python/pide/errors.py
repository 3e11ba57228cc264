"""What can go wrong: faults of what is read, refusals, a program that isn't there or has ended."""

from __future__ import annotations

import enum
import functools
import pkgutil
from dataclasses import dataclass
from typing import Mapping


class PideError(Exception):
    """Any error of this package."""


class UsageError(PideError, ValueError):
    """What is asked for can't be sent, or makes no sense yet. Nothing was sent, and the session goes on."""


class ProtocolFault(PideError):
    """Bytes that are read are no message, or no reply that was waited for."""


class FrameFault(ProtocolFault):
    """The bytes are no byte messages: `name` says why, `at` is where the faulty message begins."""

    def __init__(self, name: str, at: int, detail: str = "") -> None:
        super().__init__(f"{name} at byte {at}{detail}")
        self.name = name
        self.at = at


class YxmlFault(ProtocolFault):
    """The text is no YXML: `name` says why, `at` is the byte where the faulty chunk begins."""

    def __init__(self, name: str, at: int) -> None:
        super().__init__(f"{name} at byte {at}")
        self.name = name
        self.at = at


class DataFault(ProtocolFault):
    """A body is no value of the shape: `path` is the numbers of the children that lead to the first wrong place."""

    def __init__(self, path: tuple[int, ...] = ()) -> None:
        super().__init__(f"another shape is wanted at {list(path)}")
        self.path = path

    def below(self, child: int) -> DataFault:
        """The same fault, told from the body in which that child stands."""
        return DataFault((child,) + self.path)


class Refusal(enum.IntEnum):
    """Why a message isn't served, by the numbers and names of docs/FORMATS.md."""

    UnknownFunction = 1
    ArgumentCount = 2
    BadUtf8 = 3
    BadYxml = 4
    BadData = 5
    VersionNotHigher = 6
    UnknownVersion = 7
    TipVersion = 8
    NodeTwice = 9
    UnknownNode = 10
    EditOutOfRange = 11
    RemoveDiffers = 12
    PerspectiveOutOfRange = 13
    UnknownExecution = 14
    Limit = 15
    NothingToStep = 16
    StepHeld = 17
    ProtocolFixed = 18
    BlobTwice = 19
    UnknownBlob = 20


class RefusedError(PideError):
    """The program refused a message; nothing has changed, and the session goes on."""

    def __init__(self, refusal: Refusal, function: str) -> None:
        super().__init__(f"{function} is refused: {refusal.name} ({refusal.value})")
        self.refusal = refusal
        self.function = function


@dataclass(frozen=True)
class Status:
    """An exit status of the program: its number, its name in README, and a few words on it."""

    number: int
    name: str
    meaning: str


@functools.lru_cache(maxsize=None)
def statuses() -> Mapping[int, Status]:
    """The program's exit statuses by number, as `statuses.tsv` beside this module lists them."""
    text = (pkgutil.get_data(__package__, "statuses.tsv") or b"").decode()
    rows = (line.split("\t") for line in text.splitlines() if not line.startswith("#"))
    return {int(number): Status(int(number), name, meaning) for number, name, meaning in rows}


class ProgramError(PideError):
    """The program isn't found, can't be started, or has ended before it answered; `status` is its exit status."""

    def __init__(self, text: str, status: int | None = None) -> None:
        super().__init__(text)
        self.status = status


def ended(status: int) -> ProgramError:
    """The error that says that the program has ended with this status; a negative one is a signal's number."""
    if status < 0:
        return ProgramError(f"the program was ended by signal {-status}", status)
    known = statuses().get(status)
    return ProgramError(f"the program has ended with status {status}" + (f": {known.meaning}" if known else ""), status)
