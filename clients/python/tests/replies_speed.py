"""Times how replies are read: `python3 -m tests.replies_speed [FOLDER..]`.

The program checks a theory of 10,000 lemmas, which brings some 30,000 replies, and one text of 5 MB. Told is processor
time in seconds: of the program; of the library where it cuts the replies, reads them, and as a session that asks for
the errors. Each FOLDER is the `clients/python` of another checkout, whose library is measured beside this one.
"""

from __future__ import annotations

import os
import resource
import subprocess
import sys
import time
from pathlib import Path
from tempfile import TemporaryDirectory
from typing import Callable, List

PYTHON = Path(__file__).resolve().parents[1]
PIECE = 1 << 16
RUNS = 5


def text_of(lemmas: int, comment: int) -> str:
    """A theory of so many lemmas, with a comment of so many characters before each."""
    remark = f"(* {'x' * comment} *) " if comment else ""
    return "theory Big begin\n" + "".join(
        f'{remark}lemma l{number}: "P --> P" by (impI h h)\n' for number in range(1, lemmas + 1)
    ) + "end\n"


TEXTS = {"10,000 lemmas": text_of(10_000, 0), "5 MB": text_of(10_000, 460)}


def pieces_of(stream: bytes) -> List[bytes]:
    return [stream[start : start + PIECE] for start in range(0, len(stream), PIECE)]


def best(run: Callable[[], object]) -> float:
    """The least processor time of a few runs, in seconds."""
    times = []
    for _ in range(RUNS):
        begin = time.process_time()
        run()
        times.append(time.process_time() - begin)
    return min(times)


def measure(text_file: str, stream_file: str) -> str:
    """The figures of the library that is imported here: frames, frames and values, a session."""
    from pide import Session, opened
    from pide.framing import Frames
    from pide.wire import reply_of

    pieces = pieces_of(Path(stream_file).read_bytes())
    text = Path(text_file).read_text()

    def frames() -> int:
        cutter = Frames(None)
        return sum(len(cutter.feed(piece)) for piece in pieces)

    def values() -> None:
        cutter = Frames(None)
        for piece in pieces:
            for chunks in cutter.feed(piece):
                reply_of(chunks)

    def session() -> None:
        with Session() as asked:
            asked.update({"Big": opened(text)})
            asked.settle()
            assert not asked.snapshot("Big").errors

    return f"{best(frames):.3f} | {best(values):.3f} | {best(session):.3f}"


def stream_of(text: str, program: str) -> bytes:
    """What the program replies to the text, a settle and a snapshot."""
    from pide import opened
    from pide.framing import message_bytes
    from pide.messages import AskSnapshot, Settle, Update
    from pide.wire import chunks_of

    asked = [Update(1, (("Big", opened(text)),)), Settle(1), AskSnapshot(1, "Big")]
    sent = b"".join(message_bytes(chunks_of(message)) for message in asked)
    return subprocess.run([program, "serve"], input=sent, stdout=subprocess.PIPE, check=True).stdout


def processor_time() -> float:
    """What the processes that have ended took, in seconds."""
    used = resource.getrusage(resource.RUSAGE_CHILDREN)
    return used.ru_utime + used.ru_stime


def main(folders: List[str]) -> None:
    from .program import wanted_program

    program = wanted_program()
    print("text | library | program | frames | frames and values | session")
    with TemporaryDirectory() as place:
        for title, text in TEXTS.items():
            times = []
            for _ in range(RUNS):
                begin = processor_time()
                stream = stream_of(text, program)
                times.append(processor_time() - begin)
            files = [Path(place, name) for name in ("text", "stream")]
            files[0].write_text(text)
            files[1].write_bytes(stream)
            for folder in [*folders, str(PYTHON)]:
                ran = subprocess.run(
                    [sys.executable, __file__, *map(str, files)], stdout=subprocess.PIPE, text=True, check=True,
                    cwd=place, env={**os.environ, "PYTHONPATH": folder, "PIDE": program},
                )
                print(f"{title} | {folder} | {min(times):.3f} | {ran.stdout.strip()}", flush=True)


if __name__ == "__main__":
    if __package__:
        main(sys.argv[1:])
    else:
        print(measure(*sys.argv[1:]))
