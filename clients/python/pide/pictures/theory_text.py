"""A theory's text as HTML: as typed, coloured, with its names linked and the states of its commands beside it."""

from __future__ import annotations

from typing import Dict, Iterator, List, Mapping, Optional

from ..tokens import Token, TokenKind, tokens_of
from .checking import Checked
from .commands import Command
from .escaping import attribute_html, text_html
from .meanings import Meaning, Meanings
from .names import command_id

_CLASSES: Dict[TokenKind, str] = {
    TokenKind.COMMENT: "comment",
    TokenKind.STRING: "formula",
    TokenKind.CARTOUCHE: "formula",
    TokenKind.ERROR: "broken",
    TokenKind.COMMAND: "word",
    TokenKind.KEYWORD: "keyword",
}
_SIGN = '<span aria-hidden="true">✗ </span><span class="hidden">error: </span>'


def text_elements(checked: Checked, commands: List[Command], files: Mapping[str, str]) -> Iterator[str]:
    """The element of the text, piece by piece. The texts within it, without those of notes, are the theory's text."""
    yield '<pre id="text" tabindex="-1"><code>'
    yield from _Writer(checked, commands, files).pieces()
    if checked.ending is not None:
        yield f'<span id="ending" class="fault" role="note">{_SIGN}{text_html(checked.ending.text)}</span>'
    yield "</code></pre>\n"


class _Writer:
    """Walks over the tokens and the commands at once."""

    def __init__(self, checked: Checked, commands: List[Command], files: Mapping[str, str]) -> None:
        self._checked = checked
        self._commands = iter(commands)
        self._meanings_of = Meanings(checked, files)
        self._beside = _shown_beside(checked.text, commands)
        self._line = 1
        self._faults = ""
        self._meanings: Dict[int, Meaning] = {}

    def pieces(self) -> Iterator[str]:
        command: Optional[Command] = next(self._commands, None)
        is_open = False
        yield _line_mark(1)
        for token in tokens_of(self._checked.text, 0, None, self._checked.aliases):
            if command is not None and not is_open and token.start >= command.start:
                self._meanings = self._meanings_of.of(command)
                yield _opening(command)
                is_open = True
            yield self._token(token, is_open)
            if command is not None and is_open and token.stop >= command.stop:
                yield self._closing(command)
                command, is_open = next(self._commands, None), False
        yield self._faults

    def _closing(self, command: Command) -> str:
        """Closes the command's element and puts its note behind it. Its error is put below its last line, later."""
        if command.error is not None:
            self._faults += f'<span class="fault below" aria-hidden="true">✗ {text_html(command.error)}</span>'
        return "</span>" + _note(command, self._beside.get(command.start))

    def _token(self, token: Token, is_in_command: bool) -> str:
        if token.kind is TokenKind.SPACE:
            return self._space(token, is_in_command)
        shown = self._lines(token.text)
        meaning = self._meanings.get(token.start)
        if meaning is not None and token.is_proper:
            return _named(meaning, shown)
        css = _CLASSES.get(token.kind)
        return f'<span class="{css}">{shown}</span>' if css else shown

    def _space(self, token: Token, is_in_command: bool) -> str:
        """Blanks; where a line ends between commands, the errors of this line are put below it. Where the theory's
        text ends with a line no other one is counted."""
        if "\n" not in token.text:
            return text_html(token.text)
        before, behind = token.text.split("\n", 1)
        faults = "" if is_in_command else self._faults
        if faults:
            self._faults = ""
        is_end = token.stop == len(self._checked.text) and not behind
        self._line += 1
        mark = "" if is_end else _line_mark(self._line)
        return f"{text_html(before)}\n{faults}{mark}{self._lines(behind)}"

    def _lines(self, text: str) -> str:
        """The text escaped, with a mark where each line begins."""
        if "\n" not in text:
            return text_html(text)
        first, *others = text.split("\n")
        pieces = [text_html(first)]
        for other in others:
            self._line += 1
            pieces.append(f"\n{_line_mark(self._line)}{text_html(other)}")
        return "".join(pieces)


def _line_mark(number: int) -> str:
    return f'<span class="line" id="line-{number}" data-line="{number}"></span>'


def _named(meaning: Meaning, shown: str) -> str:
    hint = f' title="{attribute_html(meaning.hint)}"' if meaning.hint else ""
    identifier = f' id="{attribute_html(meaning.identifier)}"' if meaning.identifier else ""
    if meaning.target:
        return f'<a class="{meaning.css}" href="{attribute_html(meaning.target)}"{identifier}{hint}>{shown}</a>'
    return f'<span class="{meaning.css}"{identifier}{hint}>{shown}</span>'


def _opening(command: Command) -> str:
    css = "command in-error" if command.error is not None else "command"
    note = f' role="group" tabindex="0" aria-describedby="state-{command.start}"' if _has_note(command) else ""
    return f'<span class="{css}" id="{command_id(command.start)}"{note}>'


def _has_note(command: Command) -> bool:
    return bool(command.state or command.is_proved or command.suggestion or command.error is not None)


def _note(command: Command, has_state_beside: Optional[bool]) -> str:
    """The note of a command: where it stands beside the text it may have the state there; None where it doesn't."""
    if not _has_note(command):
        return ""
    css = "note" if has_state_beside is None else "note beside"
    lines = "".join(_note_lines(command, bool(has_state_beside)))
    return f'<span class="{css}" id="state-{command.start}" role="note">{lines}</span>'


def _note_lines(command: Command, has_state_beside: bool) -> Iterator[str]:
    if command.error is not None:
        yield f'<span class="fault">{_SIGN}{text_html(command.error)}</span>'
    if command.is_proved:
        yield '<span class="proved"><span aria-hidden="true">✓</span> proved</span>'
    if command.state:
        css = "state" if has_state_beside else "state resting"
        yield f'<span class="{css}"><span class="hidden">state: </span>{text_html(command.state)}</span>'
    if command.suggestion:
        yield f'<span class="suggestion">Suggested: {text_html(command.suggestion)}</span>'


def _is_resting(command: Command) -> bool:
    """Whether no proof is open behind the command."""
    return command.state.startswith("theory ")


def _shown_beside(text: str, commands: List[Command]) -> Dict[int, bool]:
    """The starts of commands whose notes stand beside the text, each with whether its state stands there too: those in
    error, and in each line the last one, where its proof is right, or it has the state of a proof that is another
    than the one above it."""
    beside: Dict[int, bool] = {}
    above = ""
    for number, command in enumerate(commands):
        following = commands[number + 1] if number + 1 < len(commands) else None
        is_last = following is None or "\n" in text[command.stop : following.stop]
        is_new = is_last and command.state != above and not _is_resting(command) and command.error is None
        if command.error is not None or (is_last and command.is_proved) or is_new:
            beside[command.start] = is_new
        above = command.state if is_last else above
    return beside
