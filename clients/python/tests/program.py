"""Where the program is for tests that need it: that of PIDE, else the one that is built from this checkout."""

import os
import shutil
import subprocess
import sys
import unittest
from pathlib import Path

TOP = Path(__file__).resolve().parents[3]
PYTHON = TOP / "clients" / "python"


def _program():
    if "PIDE" in os.environ:
        return shutil.which(os.environ["PIDE"])
    asked = subprocess.run([str(TOP / "pide"), "--which"], stdout=subprocess.PIPE, text=True, check=False)
    return asked.stdout.strip() or None


PROGRAM = _program()

needs_program = unittest.skipUnless(PROGRAM, "the program isn't built, and PIDE names none")


def wanted_program():
    """The program's path; where there is none, this run ends with a word."""
    return PROGRAM or sys.exit("the program isn't built, and PIDE names none")


def environment():
    """What a client is started with: this checkout's package, and the program."""
    return {**os.environ, "PYTHONPATH": str(PYTHON), **({"PIDE": PROGRAM} if PROGRAM else {})}


def checked_lines(text):
    """What the program's own `check` writes of a text."""
    ran = subprocess.run([PROGRAM, "check"], input=text.encode(), stdout=subprocess.PIPE, check=True)
    return ran.stdout.decode().splitlines()
