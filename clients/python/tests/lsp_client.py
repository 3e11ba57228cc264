"""A client of the language server, for tests: it starts the server as a process, and keeps what it hears."""

from __future__ import annotations

import queue
import subprocess
import sys
import threading
import time
from typing import Any, Callable, Dict, List, Optional

from pide.lsp.rpc import MessageReader, message_bytes

from .program import environment

PATIENCE = 60.0


class Client:
    """A server, what it has published by URI, and all that was heard, in order."""

    def __init__(self, *words: str, environ: Optional[Dict[str, str]] = None) -> None:
        self.process = subprocess.Popen(
            [sys.executable, "-m", "pide", "lsp", *words], stdin=subprocess.PIPE, stdout=subprocess.PIPE,
            env=environ or environment(),
        )
        self.diagnostics: Dict[str, Dict[str, Any]] = {}
        self.heard: List[Dict[str, Any]] = []
        self._messages: "queue.Queue[Optional[Dict[str, Any]]]" = queue.Queue()
        self._answers: Dict[Any, Dict[str, Any]] = {}
        self._count = 0
        self._versions: Dict[str, int] = {}
        threading.Thread(target=self._read, daemon=True).start()

    def _read(self) -> None:
        reader = MessageReader()
        while True:
            piece = self.process.stdout.read1(1 << 16)
            if not piece:
                self.process.stdout.close()
                self._messages.put(None)
                return
            for message in reader.feed(piece):
                self._messages.put(message)

    # What is sent

    def write(self, sent: bytes) -> None:
        self.process.stdin.write(sent)
        self.process.stdin.flush()

    def send(self, message: Dict[str, Any]) -> None:
        self.write(message_bytes(message))

    def notify(self, method: str, params: Any = None) -> None:
        self.send({"jsonrpc": "2.0", "method": method, "params": params})

    def ask(self, method: str, params: Any = None) -> int:
        """Sends a request, and gives its id."""
        self._count += 1
        self.send({"jsonrpc": "2.0", "id": self._count, "method": method, "params": params})
        return self._count

    def request(self, method: str, params: Any = None) -> Any:
        """The result of a request; an answer that is an error is raised."""
        answer = self.answer(self.ask(method, params))
        if "error" in answer:
            raise RuntimeError(answer["error"]["message"])
        return answer["result"]

    def initialize(self, **capabilities: Any) -> Any:
        result = self.request("initialize", {"processId": None, "rootUri": None, "capabilities": capabilities})
        self.notify("initialized", {})
        return result

    def open(self, uri: str, text: str) -> None:
        self._versions[uri] = 1
        document = {"uri": uri, "languageId": "pide", "version": 1, "text": text}
        self.notify("textDocument/didOpen", {"textDocument": document})

    def change(self, uri: str, *changes: Dict[str, Any]) -> int:
        """Sends changes, and gives the text's version behind them."""
        self._versions[uri] += 1
        document = {"uri": uri, "version": self._versions[uri]}
        self.notify("textDocument/didChange", {"textDocument": document, "contentChanges": list(changes)})
        return self._versions[uri]

    # What is heard

    def hear(self, patience: float = PATIENCE) -> Optional[Dict[str, Any]]:
        """The next message; None where the server has ended. Requests of the server are answered by null."""
        message = self._messages.get(timeout=patience)
        if message is None:
            return None
        self.heard.append(message)
        if "method" not in message:
            self._answers[message["id"]] = message
        elif "id" in message:
            self.send({"jsonrpc": "2.0", "id": message["id"], "result": None})
        elif message["method"] == "textDocument/publishDiagnostics":
            self.diagnostics[message["params"]["uri"]] = message["params"]
        return message

    def answer(self, identifier: Any) -> Dict[str, Any]:
        while identifier not in self._answers:
            assert self.hear() is not None, "the server has ended"
        return self._answers.pop(identifier)

    def wait(self, holds: Callable[[], bool], tell: Callable[[], Any] = lambda: "", patience: float = PATIENCE) -> None:
        """Hears messages until something holds. Raises AssertionError with what is to be told where it doesn't."""
        end = time.monotonic() + patience
        while not holds():
            try:
                assert self.hear(max(0, end - time.monotonic())) is not None, "the server has ended"
            except queue.Empty:
                raise AssertionError(tell()) from None

    def checked(self) -> None:
        """Waits until all that is open is checked to its end, and that has been told."""
        self.request("pide/checked")

    def messages_of(self, uri: str) -> List[str]:
        """What is published of a text."""
        return [found["message"] for found in self.diagnostics.get(uri, {"diagnostics": []})["diagnostics"]]

    # How it ends

    def stop(self) -> int:
        """Shuts the server down, and gives its exit status."""
        self.request("shutdown")
        self.notify("exit")
        return self.end()

    def end(self) -> int:
        """Closes its input, and gives its exit status."""
        self.process.stdin.close()
        status = self.process.wait(PATIENCE)
        return status

    def kill(self) -> None:
        """Ends the server, whatever it is at."""
        self.process.kill()
        self.process.wait()
        self.process.stdin.close()


def change(line: int, start: int, stop: int, text: str, last: Optional[int] = None) -> Dict[str, Any]:
    """What replaces a range of a line, or one that stops in another."""
    end = {"line": line if last is None else last, "character": stop}
    return {"range": {"start": {"line": line, "character": start}, "end": end}, "text": text}


def at(uri: str, line: int, character: int, **more: Any) -> Dict[str, Any]:
    """The parameters of a request about a place."""
    return {"textDocument": {"uri": uri}, "position": {"line": line, "character": character}, **more}
