"""`python3 -m pide`: runs the command that the words name. An interrupt ends it at any moment without a traceback.

So nothing is imported here but what Python has imported already.
"""

import sys

INTERRUPTED = 130


def main(words: "list[str] | None" = None) -> int:
    """Runs the command that the words name, those of the command line where none are given; gives its exit status."""
    try:
        from .commands import run

        return run(sys.argv[1:] if words is None else words)
    except KeyboardInterrupt:
        return INTERRUPTED


def _ignore_interrupts() -> None:
    """The status is known: an interrupt while Python ends changes nothing."""
    import signal

    signal.signal(signal.SIGINT, signal.SIG_IGN)


if __name__ == "__main__":
    try:
        status = main()
        _ignore_interrupts()
    except KeyboardInterrupt:
        _ignore_interrupts()
        status = INTERRUPTED
    sys.exit(status)
