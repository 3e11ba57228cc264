"""A session with the program: it is started, asked, and ended here."""

from __future__ import annotations

import os
import shutil
import subprocess
import threading
from collections import deque
from concurrent.futures import Future
from pathlib import Path
from queue import SimpleQueue
from types import TracebackType
from typing import IO, Any, Callable, Deque, Dict, Iterable, List, Mapping, Optional, Sequence, Tuple, Type, TypeVar

from .errors import ProgramError, ProtocolFault, RefusedError, UsageError, ended
from .framing import Frames, message_pieces
from .messages import (
    AskSnapshot,
    Cancel,
    ChooseProtocol,
    Edit,
    Item,
    Message,
    RemoveVersions,
    Settle,
    Update,
)
from .processes import PATIENCE, stop
from .replies import (
    Assigned,
    Cancelled,
    Dropped,
    Idle,
    ProtocolChosen,
    Refused,
    Removed,
    Reply,
    Reported,
    Settled,
    Snapshot,
)
from .wire import chunks_of, reply_of, word_of

PIECE = 1 << 16
ENDING_PATIENCE = 30.0  # seconds: a program that has held a long text gives much memory back before it ends

A = TypeVar("A")

_ANSWERS: Dict[Type[Any], Tuple[Type[Any], ...]] = {
    Update: (Assigned,),
    AskSnapshot: (Snapshot,),
    Settle: (Settled,),
    Cancel: (Cancelled, Idle),
    RemoveVersions: (Removed,),
    ChooseProtocol: (ProtocolChosen,),
}


def find_program(given: Optional[str] = None) -> str:
    """The program's path: the one given, else that of the environment's PIDE, else the one that is built from the
    checkout in which this package stands, else `pide` on the PATH.

    Raises ProgramError where there is none, and where the checkout's isn't proved and built yet: that takes more than
    an hour, which nobody who opens a file asks for.
    """
    named = given or os.environ.get("PIDE")
    if named:
        found = shutil.which(named)
        if found is None:
            raise ProgramError(f"the program {named} isn't there, or can't be run")
        return found
    for top in list(Path(__file__).resolve().parents)[3:4]:
        if (top / "crates.txt").is_file() and os.access(top / "pide", os.X_OK):
            return _built_program(top / "pide")
    found = shutil.which("pide")
    if found is None:
        raise ProgramError("the program isn't found: name it by --program or PIDE, or have `pide` on the PATH")
    return found


def _built_program(launcher: Path) -> str:
    """The program that a checkout's launcher has built from its sources."""
    asked = subprocess.run([str(launcher), "--which"], stdin=subprocess.DEVNULL, stdout=subprocess.PIPE, check=False)
    if asked.returncode != 0:
        raise ProgramError(f"the program isn't built from these sources: {launcher} --prove proves and builds it")
    return os.fsdecode(asked.stdout.strip())


class Session:
    """A running program and what was asked of it.

    Messages are answered in their order. A call waits for its answer; `ask` doesn't. Reports and dropped parts are
    handed to `on_report` and `on_drop` as they come, on the thread that reads: there no call may wait for an answer.
    All that comes before an answer is handed over before the answer is given. What these two raise ends the session.

    Leaving a `with` block ends the session by closing the program's input; where an error leaves it, the program is
    ended at once. Where this process is killed the program sees the end of its input and ends by itself. `on_end` is
    called, on the thread that reads, once the program has ended, however it did, and before those that wait hear of it.

    Messages are written on a thread of their own, so that no full pipe stops both sides, and `ask` never waits. A
    program that is to end and doesn't is ended by force after `patience` seconds: it is terminated, and killed where it
    goes on for two seconds more.
    """

    def __init__(
        self,
        program: Optional[str] = None,
        on_report: Optional[Callable[[Reported], None]] = None,
        on_drop: Optional[Callable[[Dropped], None]] = None,
        words: Sequence[str] = ("serve",),
        on_end: Optional[Callable[[], None]] = None,
        patience: float = ENDING_PATIENCE,
    ) -> None:
        self.on_report = on_report
        self.on_drop = on_drop
        self.on_end = on_end
        self.version = 0
        self._asked_version = 0
        self._waiting: Deque[Tuple[Message, Future[Any]]] = deque()
        self._fault: Optional[BaseException] = None
        self._has_ended = False
        self._heard = 0
        self._is_taking = False
        self._is_closed = False
        self._patience = patience
        self._asking = threading.Lock()
        self._outbox: SimpleQueue[Optional[List[bytes]]] = SimpleQueue()
        try:
            self._process = subprocess.Popen(
                [find_program(program), *words], stdin=subprocess.PIPE, stdout=subprocess.PIPE
            )
        except OSError as error:
            raise ProgramError(f"the program can't be started: {error}") from error
        self._reader = threading.Thread(target=self._read, name="pide-replies", daemon=True)
        self._writer = threading.Thread(target=self._write_all, name="pide-messages", daemon=True)
        self._reader.start()
        self._writer.start()

    # What is asked

    def update(
        self,
        items: Mapping[str, Item],
        blobs: Optional[Mapping[str, Optional[str]]] = None,
        version: Optional[int] = None,
    ) -> Assigned:
        """Makes a new version, numbered one above all before where no number is given, and tells what it assigns."""
        number = self._asked_version + 1 if version is None else version
        self._asked_version = max(self._asked_version, number)
        message = Update(number, tuple(items.items()), None if blobs is None else tuple(blobs.items()))
        assigned = self._answer(message, Assigned)
        self.version = number
        return assigned

    def settle(self, version: Optional[int] = None) -> Settled:
        """Waits until each part of the version, which is the newest where none is given, is finished or stuck."""
        return self._answer(Settle(self._known(version)), Settled)

    def snapshot(self, node: str, edits: Iterable[Edit] = (), version: Optional[int] = None) -> Snapshot:
        """What is known of a node of the version, told for its text after edits that aren't sent yet."""
        return self._answer(AskSnapshot(self._known(version), node, tuple(edits)), Snapshot)

    def cancel(self, execution: int) -> bool:
        """Cancels an execution; False where nothing of it was unfinished, or it was cancelled already."""
        return isinstance(self._answer(Cancel(execution), object), Cancelled)

    def remove_versions(self, versions: Iterable[int]) -> Tuple[int, ...]:
        """Lets versions go, and tells them rising."""
        return self._answer(RemoveVersions(tuple(versions)), Removed).versions

    def count_symbols(self) -> None:
        """Has places of reports told as numbers of symbols, from 1. It has to be the first call of all."""
        self._answer(ChooseProtocol(2), ProtocolChosen)

    def ask(self, message: Message) -> Future[Any]:
        """Sends a message, and gives its answer as one that is to come.

        The answer raises RefusedError where the program refuses the message, and ProgramError where it ends before.
        Raises UsageError where the message can't be sent, ProgramError where the session has ended or is closed.
        """
        pieces = message_pieces(chunks_of(message))
        future: Future[Any] = Future()
        future.set_running_or_notify_cancel()  # what is sent can't be taken back
        with self._asking:
            self._raise_if_ended()
            self._waiting.append((message, future))
            self._outbox.put(pieces)
        return future

    # How it ends

    def close(self) -> None:
        """Closes the program's input and waits until all that was asked is answered and the program has ended.

        Raises what was wrong with its replies, and ProgramError where its exit status isn't 0. So it does where the
        program has answered all and then writes nothing and doesn't end for the patience's seconds; it is killed then.
        """
        with self._asking:
            self._is_closed = True
            self._outbox.put(None)
        while self._reader.is_alive():
            heard = self._heard
            self._reader.join(self._patience)
            if self._reader.is_alive() and self._heard == heard and not self._is_taking and not self._waiting:
                self.kill()
                raise ProgramError("the program doesn't end by itself, and was killed")
        if self._fault is not None:
            raise self._fault

    def kill(self) -> None:
        """Ends the program at once, whatever it is at: it is terminated, and two seconds later killed."""
        stop(self._process, at_once=True, patience=min(PATIENCE, self._patience))
        if threading.current_thread() is self._reader:
            return
        self._reader.join(self._patience)
        if self._reader.is_alive() and not self._is_taking:  # something that the program started holds its output
            self._end(ProgramError("the session is closed"))

    @property
    def has_ended(self) -> bool:
        """Whether the program has ended."""
        return self._has_ended

    def wait(self) -> Optional[BaseException]:
        """Waits until the program has ended, and gives what was wrong with its end or its replies, if anything was."""
        self._reader.join()
        return self._fault

    def __enter__(self) -> Session:
        return self

    def __exit__(
        self, kind: Optional[Type[BaseException]], error: Optional[BaseException], trace: Optional[TracebackType]
    ) -> None:
        if kind is None:
            self.close()
        else:
            self.kill()

    # How it is done

    def _answer(self, message: Message, kind: Type[A]) -> A:
        if threading.current_thread() is self._reader:
            raise RuntimeError("a call that is handed reports can't wait for an answer: use ask")
        answer = self.ask(message).result()
        assert isinstance(answer, kind)
        return answer

    def _known(self, version: Optional[int]) -> int:
        """The version that is meant. Raises UsageError where none is given, and there is none yet."""
        if version is None and self.version == 0:
            raise UsageError("there is no version yet: an update makes the first")
        return self.version if version is None else version

    def _write_all(self) -> None:
        """Writes what is asked, one message behind the other, and closes the program's input at the end."""
        assert self._process.stdin is not None
        try:
            while self._write(self._process.stdin, self._outbox.get()):
                pass
        except (OSError, ValueError):
            pass  # the program has ended: the reader sees it too, and tells all that wait
        finally:
            _close(self._process.stdin)

    @staticmethod
    def _write(stream: IO[bytes], pieces: Optional[List[bytes]]) -> bool:
        """Writes a message, piece by piece, so that a long text isn't copied; False where there is none."""
        if pieces is None:
            return False
        for piece in pieces:
            stream.write(piece)
        stream.flush()
        return True

    def _raise_if_ended(self) -> None:
        if self._fault is not None:
            raise self._fault
        if self._has_ended or self._is_closed:
            raise ProgramError("the session is closed")

    def _read(self) -> None:
        """Reads replies until the program ends, or one is at fault."""
        assert self._process.stdout is not None
        frames = Frames(None)
        fault: Optional[BaseException] = None
        try:
            while True:
                piece = os.read(self._process.stdout.fileno(), PIECE)
                if not piece:
                    break
                self._is_taking = True
                for chunks in frames.feed(piece):
                    self._take(reply_of(chunks))
                self._is_taking = False
                self._heard += 1
            frames.finish()
        except BaseException as error:
            fault = error
        self._process.stdout.close()
        status = stop(self._process, at_once=fault is not None, patience=self._patience)
        if fault is None and (status != 0 or self._waiting):
            fault = ended(status)
        self._end(fault)

    def _end(self, fault: Optional[BaseException]) -> None:
        """Tells all that wait that no answer comes."""
        if self._has_ended:
            return
        self._fault = fault
        self._has_ended = True
        if self.on_end is not None:
            self.on_end()
        with self._asking:
            self._outbox.put(None)
            waiting, self._waiting = list(self._waiting), deque()
        for _, future in waiting:
            future.set_exception(fault or ProgramError("the session is closed"))

    def _take(self, reply: Reply) -> None:
        if isinstance(reply, Reported):
            if self.on_report is not None:
                self.on_report(reply)
        elif isinstance(reply, Dropped):
            if self.on_drop is not None:
                self.on_drop(reply)
        else:
            self._give(reply)

    def _give(self, reply: Reply) -> None:
        if not self._waiting:
            raise ProtocolFault(f"a reply {word_of(reply)} that nothing asked for")
        message, future = self._waiting.popleft()
        if isinstance(reply, Refused):
            future.set_exception(RefusedError(reply.refusal, word_of(message)))
        elif isinstance(reply, _ANSWERS[type(message)]):
            future.set_result(reply)
        else:
            error = ProtocolFault(f"a reply {word_of(reply)} to {word_of(message)}")
            future.set_exception(error)
            raise error


def _close(stream: IO[bytes]) -> None:
    try:
        stream.close()
    except OSError:
        pass
