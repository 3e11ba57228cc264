"""What ends the launcher before the program runs."""

from __future__ import annotations


class LauncherError(Exception):
    """The program can't be run; the text says why, and what to do."""
