"""Headers of theories: their names, and what they import."""

from __future__ import annotations

import re
from dataclasses import dataclass
from typing import Iterator, List, Optional, Tuple

COMMANDS = frozenset("theory end axiom lemma load proof fix assume have show next qed by".split())
KEYWORDS = frozenset("imports keywords begin".split())

_SPACE = re.compile(r"[ \t\r\n]+")
_STRING = re.compile(r'"(?:\\["\\]|[^"\\]|\\(?!["\\]))*"')
_WORD = re.compile(r"[A-Za-z][A-Za-z0-9_']*(?:\.[A-Za-z][A-Za-z0-9_']*)*")
_COMMENT_END = re.compile(r"\(\*|\*\)")


@dataclass(frozen=True)
class Header:
    """What a theory's header tells: its name, each import with its place, each alias with what it stands for, and
    where the name stands."""

    name: str
    imports: Tuple[Tuple[str, int], ...] = ()
    keywords: Tuple[Tuple[str, str], ...] = ()
    place: int = 0


def _proper_tokens(text: str) -> Iterator[Tuple[str, int]]:
    """The tokens that may stand in a header, each with its place: words, strings and `=`. It ends at any other one."""
    place = 0
    while place < len(text):
        space = _SPACE.match(text, place)
        if space:
            place = space.end()
        elif text.startswith("(*", place):
            place = _comment_end(text, place)
        else:
            token = _WORD.match(text, place) or _STRING.match(text, place)
            end = token.end() if token else place + 1
            if token is None and text[place] != "=":
                return
            yield text[place:end], place
            place = end


def _comment_end(text: str, start: int) -> int:
    """Where the comment that begins at the start ends; the text's end where it doesn't."""
    depth = 0
    for mark in _COMMENT_END.finditer(text, start):
        depth += 1 if mark[0] == "(*" else -1
        if depth == 0:
            return mark.end()
    return len(text)


def _is_free(word: str) -> bool:
    """Whether a header may have the word as a name."""
    return _WORD.fullmatch(word) is not None and "." not in word and word not in COMMANDS | KEYWORDS


def header_of(text: str) -> Optional[Header]:
    """The header with which the text begins, or None where there is none."""
    words = _proper_tokens(text)
    if next(words, ("", 0))[0] != "theory":
        return None
    name, start = next(words, ("", 0))
    word, place = next(words, ("", 0))
    imports: List[Tuple[str, int]] = []
    keywords: List[Tuple[str, str]] = []
    if word == "imports":
        word, place = next(words, ("", 0))
        while _is_free(word):
            imports.append((word, place))
            word, place = next(words, ("", 0))
        if not imports:
            return None
    if word == "keywords":
        word = _read_keywords(words, keywords)
    if not _is_free(name) or word != "begin":
        return None
    return Header(name, tuple(imports), tuple(keywords), start)


def _read_keywords(words: Iterator[Tuple[str, int]], keywords: List[Tuple[str, str]]) -> str:
    """The word behind the pairs of names and strings, which are added; there has to be one."""
    for word, _ in words:
        if not _is_free(word):
            return word if keywords else ""
        equals, string = next(words, ("", 0))[0], next(words, ("", 0))[0]
        if equals != "=" or not string.startswith('"'):
            return ""
        keywords.append((word, string[1:-1]))
    return ""
