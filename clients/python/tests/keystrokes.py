"""Times a keystroke in a theory of 10,000 lemmas, until its error is known: `python3 -m tests.keystrokes`.

A letter is typed into the proof of one lemma and taken away again, with some 40 lines visible around it. Told are the
medians of twenty letters: until the program's replies are there as bytes, and until the library has the error.
"""

from __future__ import annotations

import statistics
import subprocess
import time
from typing import Callable, List, Tuple

from pide import Change, Insert, Perspective, Remove, Session
from pide.framing import Frames, message_bytes
from pide.messages import AskSnapshot, Message, RemoveVersions, Settle, Update
from pide.wire import chunks_of

from .program import wanted_program

LEMMAS = 10_000
LETTERS = 20
VISIBLE = 20


def lemma(number: int) -> str:
    return f'lemma l{number}: "P --> P" by (impI h h)\n'


HEADER = "theory Big begin\n"
TEXT = HEADER + "".join(lemma(number) for number in range(1, LEMMAS + 1)) + "end\n"


def place_of(number: int) -> int:
    """Where the lemma begins."""
    return len(HEADER) + sum(len(lemma(before)) for before in range(1, number))


def perspective_of(number: int, is_whole: bool) -> Perspective:
    start, stop = (place_of(min(max(1, number + by), LEMMAS)) for by in (-VISIBLE, VISIBLE))
    return Perspective(is_whole, ((start, stop),))


def letters(number: int) -> Tuple[Change, Change]:
    """The letter x behind the proof's last h, and that it goes again."""
    place = place_of(number) + len(lemma(number)) - 2
    return Change((Insert(place, "x"),)), Change((Remove(place, "x"),))


def messages(version: int, change: Change) -> List[Message]:
    """What a client sends for a keystroke."""
    asked: List[Message] = [Update(version, (("Big", change),)), Settle(version), AskSnapshot(version, "Big")]
    return asked if version == 1 else asked[:1] + [RemoveVersions((version - 1,))] + asked[1:]


class Bytes:
    """The program alone: its replies are cut, and not read."""

    def __init__(self) -> None:
        self.process = subprocess.Popen([wanted_program(), "serve"], stdin=subprocess.PIPE, stdout=subprocess.PIPE)
        self.frames = Frames(None)
        self.size = 0

    def ask(self, asked: List[Message]) -> None:
        self.process.stdin.write(b"".join(message_bytes(chunks_of(message)) for message in asked))
        self.process.stdin.flush()
        self.size = 0
        while True:
            piece = self.process.stdout.read1(1 << 20)
            self.size += len(piece)
            if any(chunks[0] == b"markup" for chunks in self.frames.feed(piece)):
                return

    def close(self) -> None:
        self.process.stdin.close()
        self.process.wait()
        self.process.stdout.close()


class Library:
    """The library: the error is found among the reports."""

    def __init__(self) -> None:
        self.session = Session(wanted_program())
        self.size = 0

    def ask(self, asked: List[Message]) -> None:
        answers = [self.session.ask(message) for message in asked]
        errors = answers[-1].result().errors
        assert len(errors) == isinstance(asked[0].items[0][1].edits[0], Insert) * (asked[0].version > 1)

    def close(self) -> None:
        self.session.close()


def median(client: Callable, number: int, is_whole: bool) -> Tuple[float, int]:
    """Milliseconds a letter, and how many bytes of replies it brought."""
    asker = client()
    asker.ask(messages(1, Change((Insert(0, TEXT),), perspective_of(number, is_whole))))
    times = []
    size = 0
    for letter in range(LETTERS):
        for by, change in enumerate(letters(number)):
            begin = time.perf_counter()
            asker.ask(messages(2 + 2 * letter + by, change))
            if by == 0:
                times.append(1000 * (time.perf_counter() - begin))
                size = asker.size
    asker.close()
    return statistics.median(times), size


def main() -> None:
    print("lemma | checked | program, ms | library, ms | bytes of replies")
    for number, is_whole in [(20, False), (5_000, False), (LEMMAS - 20, False), (20, True), (LEMMAS - 20, True)]:
        alone, size = median(Bytes, number, is_whole)
        known, _ = median(Library, number, is_whole)
        print(f"{number} | {'all' if is_whole else 'visible'} | {alone:.0f} | {known:.0f} | {size}", flush=True)


if __name__ == "__main__":
    main()
