"""The stored exchanges of crates/test_exchanges, in the form that docs/FORMATS.md tells."""

from __future__ import annotations

import re
from dataclasses import dataclass, field
from pathlib import Path
from typing import Iterator, List, Optional

from pide.framing import message_bytes

FOLDER = Path(__file__).resolve().parents[3] / "crates" / "test_exchanges"


@dataclass
class Exchange:
    """What is sent (whole messages by their chunks; all of it as bytes), and what comes of it."""

    title: str
    words: List[str] = field(default_factory=list)
    messages: List[List[bytes]] = field(default_factory=list)
    sent: bytes = b""
    is_plain: bool = True
    status: int = 0
    place: Optional[int] = None
    replies: List[List[bytes]] = field(default_factory=list)

    @property
    def serves(self) -> bool:
        return self.words in (["serve"], ["serve", "--workers", "0"], ["mirror"], ["replay"])


def unescaped(shown: str) -> bytes:
    return re.sub(rb"%([0-9A-F]{2})", lambda escape: bytes([int(escape[1], 16)]), shown.encode())


def chunk_of(shown: str) -> bytes:
    """The bytes of a chunk in which YXML is shown as XML. A `<` right behind a backslash is the text's own."""

    def tag(found: re.Match[str]) -> str:
        inside = found[1].replace("/", "").replace(" ", "\x06")
        return f"\x05\x06{inside}\x05"

    return unescaped(re.sub(r"(?<!\\)<([^>]*)>", tag, shown))


def chunks_of(shown: str) -> List[bytes]:
    return [chunk_of(chunk) for chunk in shown.split("|")]


def _send(exchange: Exchange, line: str) -> None:
    name, _, rest = line.partition(" ")
    if name == ">":
        exchange.messages.append(chunks_of(rest))
        exchange.sent += message_bytes(exchange.messages[-1])
    elif name == ">>":
        exchange.sent += unescaped(rest)
    elif name == "repeat":
        count, _, shown = rest.partition(" ")
        exchange.sent += unescaped(shown) * int(count)
    elif name == "words":
        exchange.words = rest.split()
    elif name in ("pull", "push", "room", "limit"):
        exchange.is_plain = False


def _answer(exchange: Exchange, line: str) -> None:
    name, _, rest = line.partition(" ")
    if name == "<":
        exchange.replies.append(chunks_of(rest))
    elif name == "status":
        status, _, *place = rest.split()
        exchange.status = int(status)
        exchange.place = int(place[0]) if place else None


def _blocks(name: str) -> Iterator[List[str]]:
    """The lines of each exchange of a file, its title first."""
    for block in (FOLDER / name).read_text("ascii").split("\n\n"):
        lines = block.strip("\n").split("\n")
        if lines[0].startswith("*"):
            yield lines


def exchanges() -> List[Exchange]:
    """All stored exchanges with their answers."""
    found = []
    for asked, answered in zip(_blocks("stdin"), _blocks("stdout")):
        if asked[0] != answered[0]:
            raise ValueError(f"the files part at {asked[0]!r} and {answered[0]!r}")
        exchange = Exchange(asked[0][2:])
        for line in asked[1:]:
            _send(exchange, line)
        for line in answered[1:]:
            _answer(exchange, line)
        found.append(exchange)
    return found
