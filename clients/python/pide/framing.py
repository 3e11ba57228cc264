"""Byte messages: a header line with the lengths of the chunks, and the chunks with nothing between them."""

from __future__ import annotations

import re
from functools import lru_cache
from typing import List, NamedTuple, Optional, Sequence, Tuple

from .errors import FrameFault, UsageError

LONGEST_LINE = 200
MOST_CHUNKS = 16
LONGEST_CHUNK = 1 << 24

_HEADER = re.compile(rb"([0-9]+(?:,[0-9]+)*)\r?")


def message_pieces(chunks: Sequence[bytes]) -> List[bytes]:
    """The bytes of the message with these chunks: its header line, and the chunks as they are.

    Raises UsageError where there are not 1 to 16 of them, or one is longer than 2^24 bytes.
    """
    if not 1 <= len(chunks) <= MOST_CHUNKS:
        raise UsageError(f"a message has 1 to {MOST_CHUNKS} chunks, not {len(chunks)}")
    if any(len(chunk) > LONGEST_CHUNK for chunk in chunks):
        raise UsageError(f"a chunk has at most {LONGEST_CHUNK} bytes")
    return [b",".join(b"%d" % len(chunk) for chunk in chunks) + b"\n", *chunks]


def message_bytes(chunks: Sequence[bytes]) -> bytes:
    """The bytes of the message with these chunks, as one. Raises UsageError as message_pieces does."""
    return b"".join(message_pieces(chunks))


class _Header(NamedTuple):
    """The lengths that a header line tells, the sum of them, and the greatest."""

    lengths: Tuple[int, ...]
    total: int
    longest: int


@lru_cache(maxsize=4096)
def _header_of(line: bytes) -> Optional[_Header]:
    """What a header line tells; None where it is none."""
    found = _HEADER.fullmatch(line)
    if found is None:
        return None
    lengths = tuple(int(number) for number in found[1].split(b","))
    return _Header(lengths, sum(lengths), max(lengths))


class Frames:
    """Cuts a stream, fed piece by piece, into its messages.

    A chunk may have `longest` bytes, or any number where that is None, as in replies. After a fault nothing more of
    the stream is read. Bytes are copied at most twice, into the messages and before that where a message stands in
    several pieces.
    """

    def __init__(self, longest: Optional[int] = LONGEST_CHUNK) -> None:
        self._longest = float("inf") if longest is None else longest
        self._pieces: List[bytes] = []  # the message that isn't whole yet, from its header line on
        self._missing = 0  # how many bytes it lacks at least
        self._begin = 0  # where it begins in the stream
        self._fault: Optional[FrameFault] = None

    def feed(self, piece: bytes) -> List[List[bytes]]:
        """The messages, each as its chunks, that are whole with this piece.

        Raises the fault of the stream; where whole messages stand before it, the next call does.
        """
        messages: List[List[bytes]] = []
        if self._fault is None and piece:
            self._pieces.append(piece)
            self._missing -= len(piece)
            if self._missing <= 0:
                self._cut(piece if len(self._pieces) == 1 else b"".join(self._pieces), messages)
        if self._fault is not None and not messages:
            raise self._fault
        return messages

    def finish(self) -> None:
        """Raises what is wrong with the stream where it ends here: its fault, or Truncated within a message."""
        if self._fault is not None:
            raise self._fault
        if self._pieces:
            raise FrameFault("Truncated", self._begin)

    def _cut(self, stream: bytes, messages: List[List[bytes]]) -> None:
        """Adds the whole messages with which the stream begins, and keeps what is behind them."""
        place, size, missing = 0, len(stream), 1
        while True:
            end = stream.find(b"\n", place, place + LONGEST_LINE + 1)
            header = _header_of(stream[place:end]) if end >= 0 else None
            if header is None or header.longest > self._longest or len(header.lengths) > MOST_CHUNKS:
                if end >= 0 or size - place > LONGEST_LINE:
                    self._fault = self._fault_of(header, self._begin + place)
                break
            start = end + 1
            if start + header.total > size:
                missing = start + header.total - size
                break
            place = start + header.total
            chunks = []
            for length in header.lengths:
                chunks.append(stream[start : start + length])
                start += length
            messages.append(chunks)
        self._begin += place
        self._pieces = [stream[place:]] if place < size else []
        self._missing = missing

    def _fault_of(self, header: Optional[_Header], at: int) -> FrameFault:
        if header is None:
            return FrameFault("BadHeader", at)
        if len(header.lengths) > MOST_CHUNKS:
            return FrameFault("TooMany", at, f": {len(header.lengths)} chunks")
        number = next(number for number, length in enumerate(header.lengths) if length > self._longest)
        return FrameFault("TooLong", at, f": chunk {number}")
