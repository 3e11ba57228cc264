"""The command `lsp`."""

from __future__ import annotations

import argparse
import os
import sys
from pathlib import Path
from typing import Any, Optional, TextIO

from .server import Options, Server

PIECE = 1 << 16
MOST_WORKERS = 16


def add_command(commands: Any, common: argparse.ArgumentParser) -> None:
    """Adds the command to those of `python3 -m pide`."""
    parser = commands.add_parser("lsp", parents=[common], help="serve an editor that speaks LSP",
                                 description="Serves an editor that speaks LSP 3.17, on standard input and output.")
    parser.add_argument("--workers", metavar="N", type=_workers, default=_default_workers(),
                        help="how many threads check, 1 to 16 (processors less one)")
    parser.add_argument("--log", metavar="FILE", type=Path, help="write each message to this file")
    parser.add_argument("--stdio", action="store_true", help="standard input and output are used in any case")
    parser.set_defaults(run=run)


def _workers(text: str) -> int:
    number = int(text)
    if not 1 <= number <= MOST_WORKERS:
        raise argparse.ArgumentTypeError(f"1 to {MOST_WORKERS}")
    return number


def _default_workers() -> int:
    return min(max(1, (os.cpu_count() or 2) - 1), MOST_WORKERS)


def run(asked: argparse.Namespace) -> int:
    """Serves until the client is done; the exit status is 0 where it shut the server down before, else 1."""
    log: Optional[TextIO] = open(asked.log, "a", encoding="utf-8") if asked.log else None
    try:
        options = Options(asked.program, asked.workers, asked.folders, log)
        return Server(lambda: os.read(sys.stdin.fileno(), PIECE), _write, options).run()
    finally:
        if log is not None:
            log.close()


def _write(sent: bytes) -> None:
    sys.stdout.buffer.write(sent)
    sys.stdout.buffer.flush()
