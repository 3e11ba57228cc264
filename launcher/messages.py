"""What the launcher says on standard error, and what the program's exit statuses mean."""

from __future__ import annotations

import sys
from pathlib import Path
from typing import Dict


def say(text: str) -> None:
    """Writes one line; where nobody reads it, it is lost."""
    try:
        print(f"pide: {text}", file=sys.stderr, flush=True)
    except (OSError, ValueError):
        pass


def meanings(top: Path) -> Dict[int, str]:
    """What the program's exit statuses mean, by the table that its clients read too."""
    table = top / "clients" / "python" / "pide" / "statuses.tsv"
    rows = [line.split("\t") for line in table.read_text().splitlines() if line and not line.startswith("#")]
    return {int(number): meaning for number, _, meaning in rows}


def say_status(top: Path, status: int) -> None:
    """Says what a status other than 0 means."""
    if status != 0:
        say(f"status {status}: {meanings(top).get(status, 'the program was ended from outside')}")
