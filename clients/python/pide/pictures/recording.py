"""Records: what passed between an editor and the program, and when.

A record is byte messages, as docs/FORMATS.md has them. The first is `pide record`, `1` and the program's words. Each
other one has a direction (`>` to the program, `<` from it), a time in microseconds since the start, and bytes as they
were read, in pieces; the last is `end`, the time and the program's exit status.
"""

from __future__ import annotations

import threading
import time
from dataclasses import dataclass
from typing import BinaryIO, Callable, Iterator, List, Optional, Sequence, Tuple, Union

from ..errors import FrameFault, PideError, ProtocolFault
from ..framing import Frames, message_bytes
from ..messages import Message
from ..replies import Reply
from ..wire import message_of, reply_of

TITLE = b"pide record"
FORMAT = b"1"
SENT, REPLIED, END = b">", b"<", b"end"
PIECE = 1 << 16


class RecordFault(PideError):
    """A file is no record."""


class Recorder:
    """Writes a record as bytes pass. Where it can't be written any more `fault` says why, and nothing more is kept."""

    def __init__(self, write: Callable[[bytes], object], words: Sequence[str]) -> None:
        self._write = write
        self._start = time.monotonic()
        self._lock = threading.Lock()
        self.fault: Optional[OSError] = None
        self._put([TITLE, FORMAT, " ".join(words).encode("utf-8", "replace")])

    def piece(self, direction: bytes, piece: bytes) -> None:
        """Keeps bytes that have just come."""
        self._put([direction, self._now(), piece])

    def end(self, status: int) -> None:
        self._put([END, self._now(), str(status).encode()])

    def _now(self) -> bytes:
        return str(int((time.monotonic() - self._start) * 1_000_000)).encode()

    def _put(self, chunks: List[bytes]) -> None:
        with self._lock:
            try:
                if self.fault is None:
                    self._write(message_bytes(chunks))
            except OSError as error:
                self.fault = error


@dataclass(frozen=True)
class Unread:
    """A message that the program refuses, or can't read: what is wrong with it."""

    text: str


@dataclass(frozen=True)
class Sent:
    """A message to the program is whole, at a time in seconds."""

    time: float
    message: Union[Message, Unread]


@dataclass(frozen=True)
class Heard:
    """A reply is whole, at a time in seconds."""

    time: float
    reply: Reply


@dataclass(frozen=True)
class Ended:
    """The program has ended, with its exit status."""

    time: float
    status: int


Event = Union[Sent, Heard, Ended]


class Events:
    """Reads a record that is fed piece by piece, so one that is still being written too.

    Raises RecordFault where the bytes are no record, or its replies are none.
    """

    def __init__(self) -> None:
        self._record = Frames()
        self._has_title = False
        self._sent: Optional[Frames] = Frames()
        self._replies = Frames(None)
        self.words = ""

    def feed(self, piece: bytes) -> Iterator[Event]:
        """The events that are whole with this piece, in order."""
        for chunks in _fed(self._record, piece):
            if not self._has_title:
                self._take_title(chunks)
            else:
                yield from self._entry(chunks)

    def _take_title(self, chunks: List[bytes]) -> None:
        if chunks[0] != TITLE:
            raise RecordFault("it is no record")
        if len(chunks) != 3 or chunks[1] != FORMAT:
            raise RecordFault("the record has another format")
        self._has_title = True
        self.words = chunks[2].decode("utf-8", "replace")

    def _entry(self, chunks: List[bytes]) -> Iterator[Event]:
        direction, at, piece = _three(chunks)
        if direction == SENT:
            for message in self._messages(piece):
                yield Sent(at, message)
        elif direction == REPLIED:
            for reply in _fed(self._replies, piece):
                yield Heard(at, _reply(reply))
        elif direction == END and piece.isdigit():
            yield Ended(at, int(piece))
        else:
            raise RecordFault("the record has an entry of another kind")

    def _messages(self, piece: bytes) -> Iterator[Union[Message, Unread]]:
        """The messages; behind a line that is none the program reads no more."""
        if self._sent is None:
            return
        try:
            for chunks in self._sent.feed(piece):
                yield _message(chunks)
        except FrameFault as fault:
            self._sent = None
            yield Unread(str(fault))


def _three(chunks: List[bytes]) -> Tuple[bytes, float, bytes]:
    if len(chunks) != 3 or not chunks[1].isdigit() or len(chunks[1]) > 18:
        raise RecordFault("the record has an entry of another shape")
    return chunks[0], int(chunks[1]) / 1_000_000, chunks[2]


def _fed(frames: Frames, piece: bytes) -> List[List[bytes]]:
    try:
        return frames.feed(piece)
    except FrameFault as fault:
        raise RecordFault(f"the record is broken: {fault}") from fault


def _message(chunks: List[bytes]) -> Union[Message, Unread]:
    try:
        return message_of(chunks)
    except ProtocolFault as fault:
        return Unread(str(fault))


def _reply(chunks: List[bytes]) -> Reply:
    try:
        return reply_of(chunks)
    except ProtocolFault as fault:
        raise RecordFault(f"the record has a reply that is none: {fault}") from fault


def events_of(stream: BinaryIO, events: Events) -> Iterator[Event]:
    """The events of a record to its end, as the reader tells them. One that breaks off, as of a session that was
    stopped, ends there."""
    begun = False
    while True:
        piece = stream.read(PIECE)
        if not piece:
            break
        begun = True
        yield from events.feed(piece)
    if not begun:
        raise RecordFault("the record is empty")
