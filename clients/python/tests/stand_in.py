"""A stand-in for the program, for tests of the client alone: it answers as one word of its command line says.

`replies` answers each message at once, and never reads on while a reply isn't taken; `stops` ends with status 8 at a
settle; `babbles` answers a settle by what is no reply; `other` answers it by another reply than was asked for;
`stays` answers, and ends neither with its input nor when it is terminated; `reports` has 4 MB of reports before each
answer.
"""

import os
import signal
import sys
import time

from pide.framing import Frames, message_bytes
from pide.messages import AskSnapshot, RemoveVersions, Settle, Update
from pide.replies import Assigned, Refused, Removed, Reported, Settled, Snapshot
from pide.reports import Report
from pide.wire import MessageFault, chunks_of, message_of

LENGTH = 1 << 20


def write(reply):
    data = message_bytes(chunks_of(reply))
    while data:
        data = data[os.write(1, data) :]


def answer(message, kind):
    if kind == "reports":
        for number in range(1, 5):
            write(Reported(number, "eval", (Report(0, 3, "error", (), "x" * LENGTH),)))
    if isinstance(message, Update):
        write(Assigned(message.version, ()))
    elif isinstance(message, Settle):
        settle(message, kind)
    elif isinstance(message, AskSnapshot):
        write(Snapshot(message.version, message.node, (Report(0, 1, "error", (), "x" * LENGTH),), (), False))
    elif isinstance(message, RemoveVersions):
        write(Removed(tuple(sorted(set(message.versions)))))


def settle(message, kind):
    if kind == "stops":
        sys.exit(8)
    if kind == "babbles":
        os.write(1, b"3,x\n")
    elif kind == "other":
        write(Removed((1,)))
    else:
        write(Reported(1, "eval", (Report(0, 3, "command", (("name", "end"),)),)))
        write(Settled(message.version, ()))


def main(kind):
    frames = Frames()
    if kind == "stays":
        signal.signal(signal.SIGTERM, signal.SIG_IGN)
    while True:
        piece = os.read(0, 1 << 16)
        if not piece:
            if kind == "stays":
                time.sleep(60)
            return
        for chunks in frames.feed(piece):
            try:
                answer(message_of(chunks), kind)
            except MessageFault as fault:
                write(Refused(fault.refusal))


if __name__ == "__main__":
    main(sys.argv[1])
