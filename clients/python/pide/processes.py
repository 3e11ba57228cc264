"""How the program is ended that doesn't end by itself."""

from __future__ import annotations

import subprocess

PATIENCE = 2.0


def stop(process: subprocess.Popen[bytes], at_once: bool = False, patience: float = PATIENCE) -> int:
    """Waits until the process has ended, and gives its status.

    It has as many seconds as the patience says for that, none where it is to end at once; then it is terminated, and
    after as many seconds more killed.
    """
    if not at_once and _has_ended(process, patience):
        return process.returncode
    process.terminate()
    if not _has_ended(process, patience):
        process.kill()
    return process.wait()


def _has_ended(process: subprocess.Popen[bytes], patience: float) -> bool:
    try:
        process.wait(patience)
    except subprocess.TimeoutExpired:
        return False
    return True
