"""Tokens and spans of a theory's text, as docs/FORMATS.md has them; all places count characters from 0.

Lexing may begin at the start of any token, so a part of a text is lexed alone.
"""

from __future__ import annotations

import enum
import functools
import re
from typing import Dict, FrozenSet, Iterator, Mapping, NamedTuple, Optional, Tuple

from .headers import COMMANDS, KEYWORDS


class TokenKind(enum.Enum):
    """The kinds of docs/FORMATS.md. SPACE and COMMENT are improper, all others proper."""

    SPACE = "space"
    COMMENT = "comment"
    STRING = "string"
    CARTOUCHE = "cartouche"
    ERROR = "error"
    SYMBOL = "symbol"
    LONG_IDENT = "long identifier"
    COMMAND = "command"
    KEYWORD = "keyword"
    IDENT = "identifier"
    SYM = "sym"


class Token(NamedTuple):
    """A token: its kind, where it starts, the character after its last one, and its text."""

    kind: TokenKind
    start: int
    stop: int
    text: str

    @property
    def is_proper(self) -> bool:
        """Whether it is neither blanks nor a comment."""
        return self.kind is not TokenKind.SPACE and self.kind is not TokenKind.COMMENT


class Span(NamedTuple):
    """A command with its arguments, or malformed words before the first command, whose `word` is empty."""

    start: int
    stop: int
    word: str


class Aliases(NamedTuple):
    """The command names that are in force behind a header, each with the name that it stands for, and where the header
    ends: behind its `begin`, or at 0 where the text has no header."""

    targets: Mapping[str, str]
    header_stop: int


NO_ALIASES = Aliases({}, 0)

_IDENT = "[A-Za-z][A-Za-z0-9_']*"
_TOKEN = re.compile(
    r"(?P<SPACE>[ \t\r\n]+)"
    rf"|(?P<LONG_IDENT>{_IDENT}(?:\.{_IDENT})+)"
    rf"|(?P<IDENT>{_IDENT})"
    r'|(?P<STRING>"[^"\\]*(?:\\(?:["\\]|(?!["\\]))[^"\\]*)*")'
    r"|(?P<COMMENT>\(\*)"
    r"|(?P<CARTOUCHE>\\<open>)"
    rf"|(?P<SYMBOL>\\<\^?{_IDENT}>)"
    r"|(?P<SYM>.)",
    re.DOTALL,
)
_BLANKS = " \t\r\n"
_OPEN, _CLOSE = "\\<open>", "\\<close>"
_ESCAPE = re.compile(r'\\(?:(["\\])|(0[0-9]{2}|1[01][0-9]|12[0-7]))')
_BRACKETS = {"COMMENT": re.compile(r"(\(\*)|\*\)"), "CARTOUCHE": re.compile(r"(\\<open>)|\\<close>")}
_TARGETS = COMMANDS - {"theory", "end"}
_MISSING = Token(TokenKind.ERROR, 0, 0, "")
_KINDS = {kind.name: kind for kind in TokenKind}


def tokens_of(text: str, start: int = 0, stop: Optional[int] = None, aliases: Aliases = NO_ALIASES) -> Iterator[Token]:
    """The tokens from the start, which is that of a token, up to the first one at or behind the stop.

    An alias is a command only behind the header.
    """
    end = len(text) if stop is None else stop
    while start < end:
        token = _token_at(text, start, aliases)
        yield token
        start = token.stop


def _token_at(text: str, start: int, aliases: Aliases) -> Token:
    found = _TOKEN.match(text, start)
    assert found is not None and found.lastgroup is not None
    name, stop = found.lastgroup, found.end()
    kind = _KINDS[name]
    if name == "IDENT":
        kind = _kind_of_word(found[0], start, aliases)
    elif name in _BRACKETS:
        closed = _bracket_stop(_BRACKETS[name], text, start)
        kind, stop = (kind, closed) if closed is not None else (TokenKind.ERROR, len(text))
    elif name == "SYM" and text[start] == '"':
        kind, stop = TokenKind.ERROR, len(text)
    return Token(kind, start, stop, text[start:stop])


def _kind_of_word(word: str, start: int, aliases: Aliases) -> TokenKind:
    if word in COMMANDS or (start >= aliases.header_stop and word in aliases.targets):
        return TokenKind.COMMAND
    return TokenKind.KEYWORD if word in KEYWORDS else TokenKind.IDENT


def _bracket_stop(brackets: re.Pattern[str], text: str, start: int) -> Optional[int]:
    """Where the bracket that opens at the start is closed, or None where it isn't."""
    depth = 0
    for bracket in brackets.finditer(text, start):
        depth += 1 if bracket[1] else -1
        if depth == 0:
            return bracket.end()
    return None


def aliases_of(text: str, inherited: Mapping[str, str] = {}) -> Aliases:
    """The aliases in force in the text, those that its imports hand on first, and where its header ends.

    NO_ALIASES where the text has no header. An alias of a name that is in force already, or of what is no command, or
    is `theory` or `end`, has no effect.
    """
    words = (token for token in tokens_of(text) if token.is_proper)
    if _next(words).text != "theory" or _next(words).kind is not TokenKind.IDENT:
        return NO_ALIASES
    token = _next(words)
    if token.text == "imports":
        token = _behind_imports(words)
    targets: Dict[str, str] = dict(inherited)
    if token.text == "keywords":
        token = _read_aliases(words, targets)
    return Aliases(targets, token.stop) if token.text == "begin" else NO_ALIASES


def _next(words: Iterator[Token]) -> Token:
    return next(words, _MISSING)


def _behind_imports(words: Iterator[Token]) -> Token:
    """The token behind the names, of which there has to be one."""
    token = _next(words)
    if token.kind is not TokenKind.IDENT:
        return _MISSING
    while token.kind is TokenKind.IDENT:
        token = _next(words)
    return token


def _read_aliases(words: Iterator[Token], targets: Dict[str, str]) -> Token:
    """Adds the pairs of names and strings, of which there has to be one; gives the token behind them."""
    token, count = _next(words), 0
    while token.kind is TokenKind.IDENT:
        equals, string = _next(words), _next(words)
        if equals.text != "=" or string.kind is not TokenKind.STRING:
            return _MISSING
        target = string_content(string.text)
        if target in _TARGETS:
            targets.setdefault(token.text, target)
        token, count = _next(words), count + 1
    return token if count else _MISSING


def string_content(string: str) -> str:
    """What a String stands for: its text without the quotes, with its escapes replaced."""
    return _ESCAPE.sub(lambda found: chr(int(found[2])) if found[2] else found[1], string[1:-1])


def content_of(token: Token) -> str:
    """The content of a String or a Cartouche, and the text of any other token."""
    if token.kind is TokenKind.STRING:
        return string_content(token.text)
    if token.kind is TokenKind.CARTOUCHE:
        return token.text[len(_OPEN) : -len(_CLOSE)]
    return token.text


_RUN = (
    r"""(?:[^A-Za-z"\\(]+|(?!COMMAND)IDENT(?:\.IDENT)*|"[^"\\]*(?:\\(?:["\\]|(?!["\\]))[^"\\]*)*"|\((?!\*)"""
    r"|(?!\\<open>)\\(?:<\^?IDENT>)?){0,500}"
)


@functools.lru_cache(maxsize=64)
def _run_pattern(words: FrozenSet[str]) -> re.Pattern[str]:
    """Matches a command of these words, or none, and the tokens behind it that are neither commands, comments nor
    cartouches; at most some hundreds, so that long texts take little memory."""
    command = "(?:" + "|".join(sorted(words)) + r")(?![A-Za-z0-9_'])(?!\.[A-Za-z])"
    return re.compile(f"({command})?({_RUN})".replace("COMMAND", command).replace("IDENT", _IDENT))


def spans_of(text: str, start: int = 0, aliases: Aliases = NO_ALIASES) -> Iterator[Span]:
    """The proper spans from the start, at which a token begins, to the text's end. Comments and blanks between spans
    belong to none; those within one do."""
    begin, stop, word = -1, -1, ""
    for at, name, proper_stop in _runs_of(text, start, aliases):
        if name and begin >= 0:
            yield Span(begin, stop, word)
        if name or begin < 0:
            begin, word = at, name
        stop = proper_stop
    if begin >= 0:
        yield Span(begin, stop, word)


def _runs_of(text: str, place: int, aliases: Aliases) -> Iterator[Tuple[int, str, int]]:
    """Runs of tokens with their first and last proper ones: where the run starts, the command with which it begins or
    the empty text, and where its last proper token stops."""
    in_header, behind = _run_pattern(COMMANDS), _run_pattern(COMMANDS | frozenset(aliases.targets))
    end = len(text)
    while place < end:
        is_in_header = place < aliases.header_stop
        run = (in_header if is_in_header else behind).match(text, place, aliases.header_stop if is_in_header else end)
        assert run is not None
        if run.end() > place:
            start, stop = _without_blanks(run[0], place)
            place = run.end()
            if start < stop:
                yield start, run[1] or "", stop
            continue
        token = _token_at(text, place, aliases)
        place = token.stop
        if token.is_proper:
            yield token.start, token.text if token.kind is TokenKind.COMMAND else "", token.stop


def _without_blanks(run: str, place: int) -> Tuple[int, int]:
    """Where the run starts and stops without the blanks around it; start and stop are one where it is blank."""
    start = place + len(run) - len(run.lstrip(_BLANKS))
    return start, max(start, place + len(run.rstrip(_BLANKS)))
