"""Times keystrokes through the language server, until their diagnostics are there: `python3 -m tests.lsp_keystrokes`.

In theories of 10, 1,000 and 10,000 lemmas a letter is typed into the proof of one lemma, at the end and in the middle,
and taken away again. Told are the median and the worst of fifty letters, in milliseconds from the `didChange` to the
diagnostics with its error; how long it takes from the start of the server to the first diagnostics of the whole
theory; and the memory of server and engine when all is done.
"""

from __future__ import annotations

import statistics
import subprocess
import sys
import time
from typing import List, Tuple

from .lsp_client import Client, change
from .program import wanted_program

SIZES = (10, 1_000, 10_000)
LETTERS = 50
BETWEEN = 0.1
URI = "file:///keystrokes/Big.thy"


def text_of(lemmas: int) -> str:
    """A theory whose last lemma but one has a wrong proof, so that its diagnostics show when all is checked."""
    proofs = ["by (impI h h)"] * (lemmas - 2) + ["by wrong", "by (impI h h)"]
    lines = [f'lemma l{number}: "P --> P" {proof}\n' for number, proof in enumerate(proofs, 1)]
    return "theory Big begin\n" + "".join(lines) + "end\n"


def type_letters(client: Client, text: str, line: int) -> List[float]:
    """Types so many letters into the proof in a line, and takes each away; milliseconds from each to its error."""
    character = len(text.splitlines()[line]) - 1
    times = []
    for _ in range(LETTERS):
        begin = time.perf_counter()
        client.change(URI, change(line, character, character, "x"))
        client.wait(lambda: "unknown name hx" in client.messages_of(URI))
        times.append(1000 * (time.perf_counter() - begin))
        time.sleep(BETWEEN)
        client.change(URI, change(line, character, character + 1, ""))
        client.wait(lambda: "unknown name hx" not in client.messages_of(URI))
        time.sleep(BETWEEN)
    client.checked()
    return times


def memory(process: int) -> float:
    """The resident memory of a process, in megabytes."""
    ran = subprocess.run(["ps", "-o", "rss=", "-p", str(process)], stdout=subprocess.PIPE, check=True)
    return int(ran.stdout) / 1024


def children(process: int) -> List[int]:
    ran = subprocess.run(["ps", "-o", "pid=", "--ppid", str(process)], stdout=subprocess.PIPE, check=False)
    return [int(number) for number in ran.stdout.split()]


def measure(lemmas: int) -> Tuple[float, List[List[float]], float, float]:
    """The start in milliseconds, the times of letters at the end and in the middle, megabytes of server and engine."""
    begin = time.perf_counter()
    client = Client("--program", wanted_program())
    client.initialize()
    text = text_of(lemmas)
    client.open(URI, text)
    client.wait(lambda: "unknown name wrong" in client.messages_of(URI))
    start = 1000 * (time.perf_counter() - begin)
    client.checked()
    times = [type_letters(client, text, line) for line in (lemmas, lemmas // 2)]
    engine, = children(client.process.pid)
    sizes = memory(client.process.pid), memory(engine)
    client.stop()
    return (start, times, *sizes)


def main() -> None:
    print("lemmas | first diagnostics | end: median, worst | middle: median, worst | server | engine")
    for lemmas in map(int, sys.argv[1:]) if sys.argv[1:] else SIZES:
        start, times, server, engine = measure(lemmas)
        shown = [f"{statistics.median(found):.0f}, {max(found):.0f} ms" for found in times]
        print(f"{lemmas} | {start:.0f} ms | {shown[0]} | {shown[1]} | {server:.0f} MB | {engine:.0f} MB", flush=True)


if __name__ == "__main__":
    main()
