"""The commands by their names, and what they have in common: options, output that fails, errors told in a line."""

from __future__ import annotations

import argparse
import sys
from importlib import import_module
from pathlib import Path
from typing import IO, TYPE_CHECKING, List, Optional

from . import __version__
from .errors import PideError
from .output import flush, tell, write_error, write_lines

if TYPE_CHECKING:
    Commands = argparse._SubParsersAction[argparse.ArgumentParser]

# Each module has `add_command(commands, common)`, which adds a parser that sets `run`: a function of the words as they
# are parsed that gives the exit status.
MODULES = {
    "check": ".check", "watch": ".watch", "lsp": ".lsp.command", "html": ".pictures.html", "record": ".pictures.record",
    "timeline": ".pictures.timeline", "top": ".pictures.top",
}

FAILED = 2


class _Parser(argparse.ArgumentParser):
    """A parser whose help is written as all else is: where that fails it is reported."""

    def _print_message(self, message: str, file: Optional[IO[str]] = None) -> None:
        if file is None or file is sys.stderr:
            write_error(message)
        else:
            write_lines(message.splitlines())


def run(words: List[str]) -> int:
    """Runs the command that the words name. What fails is reported in one line on standard error, and gives 2."""
    try:
        status = _run(words)
        flush(sys.stdout)
        return status
    except PideError as error:
        tell(str(error))
    except OSError as error:
        tell(f"{error.filename}: {error.strerror}" if error.filename else str(error.strerror or error))
    except MemoryError:
        tell("out of memory")
    return FAILED


def _run(words: List[str]) -> int:
    try:
        asked = _parser(words).parse_args(words)
    except SystemExit as ended:  # the words are wrong, or ask for help or the version
        return ended.code if isinstance(ended.code, int) else FAILED
    status: int = asked.run(asked)
    return status


def _parser(words: List[str]) -> argparse.ArgumentParser:
    """A parser of the command that the first word names, else of all of them."""
    parser = _Parser(prog="python3 -m pide", description="Checks theories, and shows them.")
    parser.add_argument("--version", action="version", version=f"pide {__version__}")
    commands, common = parser.add_subparsers(dest="command", required=True), _common()
    named = [word for word in words[:1] if word in MODULES]
    for name in named or MODULES:
        import_module(MODULES[name], __package__).add_command(commands, common)
    return parser


def _common() -> argparse.ArgumentParser:
    """The options of all commands that read theories and start the program."""
    common = argparse.ArgumentParser(add_help=False)
    common.add_argument("-I", dest="folders", metavar="FOLDER", type=Path, action="append", default=[],
                        help="look for imports there too")
    common.add_argument("--program", metavar="PATH",
                        help="the program (else that of PIDE, of this checkout, or of the PATH)")
    common.add_argument("--version", action="version", version=f"pide {__version__}")
    return common
