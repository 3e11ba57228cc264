"""Texts as HTML: escaped whatever they hold, and read by a browser as just these characters."""

from __future__ import annotations

import re

_SPECIAL = re.compile("[&<>\"'\r\x00-\x08\x0b\x0c\x0e-\x1f\x7f-\x9f\u200e\u200f\u202a-\u202e\u2066-\u2069]")
_ENTITIES = {"&": "&amp;", "<": "&lt;", ">": "&gt;", '"': "&quot;", "'": "&#39;", "\r": "&#13;"}


def text_html(text: str) -> str:
    """The text within an element. Controls, and marks that turn the direction of writing, are shown by their number;
    their effect ends with them."""
    return _SPECIAL.sub(_shown, text)


def attribute_html(text: str) -> str:
    """The text as the value of an attribute in double quotes, or of an element of plain text, such as a title."""
    return _SPECIAL.sub(lambda found: _ENTITIES.get(found[0], found[0]), text)


def _shown(found: re.Match[str]) -> str:
    char = found[0]
    return _ENTITIES.get(char) or f'<span class="control" data-code="U+{ord(char):04X}">{char}</span>'
