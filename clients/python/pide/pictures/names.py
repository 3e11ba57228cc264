"""Names of files and of places within pages that are safe, whatever a theory or a fact is called."""

from __future__ import annotations

import re
from typing import Dict, Iterable
from urllib.parse import quote

FOLDER = "theory"

_UNSAFE = re.compile("[^A-Za-z0-9_-]")
_RESERVED = frozenset(
    ["con", "prn", "aux", "nul", *(f"{port}{number}" for port in ("com", "lpt") for number in range(10))]
)


def page_files(names: Iterable[str]) -> Dict[str, str]:
    """The file of each theory's page: no two are the same where case isn't told apart, and none is a device's."""
    files: Dict[str, str] = {}
    taken = set(_RESERVED)
    for name in sorted(names):
        base = _UNSAFE.sub("-", name) or "-"
        file, number = base, 1
        while file.lower() in taken:
            number += 1
            file = f"{base}-{number}"
        taken.add(file.lower())
        files[name] = f"{file}.html"
    return files


def fact_id(name: str) -> str:
    """The id of the place where a theory's fact is given."""
    return f"fact-{name}"


def place_id(start: int) -> str:
    """The id of a name that is given at a place of the text."""
    return f"at-{start}"


def command_id(start: int) -> str:
    """The id of the command that starts at a place of the text."""
    return f"command-{start}"


def fragment(identifier: str) -> str:
    """The id as the end of a link."""
    return "#" + quote(identifier, safe="")
