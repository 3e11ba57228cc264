"""The server: takes the client's messages one after the other, and answers them."""

from __future__ import annotations

import functools
import json
import threading
import time
import traceback
from dataclasses import dataclass, field
from pathlib import Path
from typing import Any, Callable, Dict, List, Optional, Sequence, TextIO, Union

from .capabilities import Capabilities, initialize_result, watch_registration
from .documents import Document, Mark
from .engine import Engine
from .inbox import Inbox
from .positions import chosen_encoding
from .progress import Progress
from .publishing import Publisher
from .requests import METHODS, NOT_YET, Request
from .rpc import ErrorCode, Json, Message, MessageReader, RequestId, RpcError, message_bytes
from .workspace import Workspace

BETWEEN_LOOKS = 2.0
ERROR = 1
MALFORMED = (KeyError, TypeError, ValueError, AttributeError)


@dataclass
class Options:
    """How the server was started."""

    program: Optional[str] = None
    workers: int = 1
    folders: Sequence[Path] = ()
    log: Optional[TextIO] = None


@dataclass
class Client:
    """What the client can do, and where its life stands."""

    is_initialized: bool = False
    has_shut_down: bool = False
    can_register_watches: bool = False
    calls: Dict[RequestId, Callable[[], None]] = field(default_factory=dict)


class Server:
    """Serves one client until it says `exit` or its input ends; `run` gives the exit status."""

    def __init__(self, read: Callable[[], bytes], write: Callable[[bytes], None], options: Options) -> None:
        self._read = read
        self._write = write
        self._options = options
        self._inbox = Inbox()
        self._client = Client()
        self._status: Optional[int] = None
        self._waiting: List[Request] = []
        self._next_look = time.monotonic() + BETWEEN_LOOKS
        self._calls = 0
        engine = Engine(options.program, options.workers, self._inbox, self._engine_ended)
        self._workspace = Workspace(engine, options.folders)
        self._publisher = Publisher(self._workspace, self._notify)
        self._progress = Progress(self._workspace, self._notify, self._ask)
        self._notifications: Dict[str, Callable[[Any], None]] = {
            "initialized": self._initialized,
            "textDocument/didOpen": self._open,
            "textDocument/didChange": self._change,
            "textDocument/didSave": self._touch,
            "textDocument/didClose": self._close,
            "workspace/didChangeWatchedFiles": self._touch,
            "$/cancelRequest": self._cancel,
        }

    # Its life

    def run(self) -> int:
        """Serves until the end: 0 where a shutdown came before it, else 1."""
        threading.Thread(target=self._read_messages, name="lsp-client", daemon=True).start()
        try:
            while self._status is None:
                event = self._inbox.take(self._next_step())
                if event is not None:
                    event()
                if not self._inbox.has_more():
                    self._step()
        except BrokenPipeError:
            self._status = 1
        finally:
            self._workspace.engine.stop()
        return self._status or 0

    def _next_step(self) -> float:
        """When there is something to do though nothing happens."""
        workspace = self._workspace
        moments = [self._publisher.next_step(), self._progress.next_step(), self._next_look,
                   workspace.perspectives.next_look(workspace.engine.mirror.is_finished),
                   *(request.deadline for request in self._waiting)]
        return min(moment for moment in moments if moment is not None)

    def _step(self) -> None:
        """Does what is due behind an event, or as time has passed."""
        self._look_at_files()
        if self._workspace.step():
            self._publisher.forget()
        self._publisher.step()
        self._answer_waiting()
        self._progress.step()

    def _look_at_files(self) -> None:
        """Looks whether files have changed, where the client doesn't tell."""
        if time.monotonic() >= self._next_look:
            self._next_look = time.monotonic() + BETWEEN_LOOKS
            if not self._client.can_register_watches and self._workspace.files.have_changed():
                self._workspace.touch()

    def _engine_ended(self, reason: str) -> None:
        message = f"{reason}; it is started anew at the next change"
        self._notify("window/showMessage", {"type": ERROR, "message": message})

    # What the client sends

    def _read_messages(self) -> None:
        """Reads messages until the input ends, on a thread of its own."""
        messages = MessageReader()
        while True:
            piece = self._read()
            if not piece:
                self._inbox.add(self._lose_client)
                return
            for message in messages.feed(piece):
                self._inbox.add(functools.partial(self._take, message))

    def _lose_client(self) -> None:
        """The client has ended without `exit`."""
        if self._status is None:
            self._status = 1

    def _take(self, message: Union[Message, RpcError]) -> None:
        """Takes in a message: a request, a notification, or the answer to a request of the server."""
        if isinstance(message, RpcError):
            self._send(message.reply(None))
            return
        self._log("<-", message)
        method, identifier = message.get("method"), message.get("id")
        if not isinstance(method, str):
            self._take_answer(message)
        elif identifier is None:
            self._take_notification(method, message.get("params"))
        else:
            self._take_request(identifier, method, message.get("params"))

    def _take_answer(self, message: Message) -> None:
        identifier = message.get("id")
        call = self._client.calls.pop(identifier, None) if isinstance(identifier, (int, str)) else None
        if call is not None and "error" not in message:
            call()
        elif call is None and "result" not in message and "error" not in message:
            self._send(RpcError(ErrorCode.INVALID_REQUEST, "the message has no method").reply(None))

    def _take_notification(self, method: str, params: Any) -> None:
        """Serves a notification; one that isn't known, or is malformed, is logged and has no other effect."""
        if method == "exit":
            self._status = 0 if self._client.has_shut_down else 1
            return
        notification = self._notifications.get(method)
        if notification is None or not self._client.is_initialized or self._client.has_shut_down:
            return
        try:
            notification(params)
        except MALFORMED as error:
            self._log("malformed", {"method": method, "error": repr(error)})

    def _take_request(self, identifier: RequestId, method: str, params: Any) -> None:
        try:
            self._check_life(method)
            if method == "initialize":
                self._answer(identifier, self._initialize(params if isinstance(params, dict) else {}))
            elif method == "shutdown":
                self._client.has_shut_down = True
                self._answer(identifier, None)
            else:
                self._waiting.append(self._request(identifier, method, params))
        except RpcError as error:
            self._send(error.reply(identifier))
        except MALFORMED as error:
            self._send(RpcError(ErrorCode.INVALID_PARAMS, f"{method}: {error!r}").reply(identifier))

    def _check_life(self, method: str) -> None:
        """Raises RpcError where no such request may come now."""
        if self._client.has_shut_down:
            raise RpcError(ErrorCode.INVALID_REQUEST, "the server has shut down")
        if method == "initialize":
            if self._client.is_initialized:
                raise RpcError(ErrorCode.INVALID_REQUEST, "the server is initialized already")
        elif not self._client.is_initialized:
            raise RpcError(ErrorCode.SERVER_NOT_INITIALIZED, "the server isn't initialized")
        elif method != "shutdown" and method not in METHODS:
            raise RpcError(ErrorCode.METHOD_NOT_FOUND, f"there is no method {method}")

    def _initialize(self, params: Message) -> Json:
        can = Capabilities(params.get("capabilities"))
        self._workspace.encoding = chosen_encoding(can.of("general", "positionEncodings"))
        self._client.can_register_watches = can.of("workspace", "didChangeWatchedFiles", "dynamicRegistration") is True
        self._progress.is_wanted = can.of("window", "workDoneProgress") is True
        self._client.is_initialized = True
        return initialize_result(self._workspace.encoding)

    def _initialized(self, _: Any) -> None:
        if self._client.can_register_watches:
            self._ask("client/registerCapability", watch_registration(), lambda: None)

    # Texts

    def _open(self, params: Any) -> None:
        text = params["textDocument"]
        self._workspace.open(Document(text["uri"], text.get("version"), text["text"]))

    def _change(self, params: Any) -> None:
        document = self._workspace.documents.get(params["textDocument"]["uri"])
        if document is None:
            return
        version = params["textDocument"].get("version")
        has_other_header = document.change(version, params["contentChanges"], self._workspace.encoding)
        self._workspace.note_edit(document, has_other_header)

    def _close(self, params: Any) -> None:
        self._workspace.close(params["textDocument"]["uri"])

    def _touch(self, _: Any) -> None:
        self._workspace.touch()

    def _cancel(self, params: Any) -> None:
        for request in self._waiting:
            if request.identifier == params["id"]:
                self._waiting.remove(request)
                self._send(RpcError(ErrorCode.REQUEST_CANCELLED, "the client has cancelled it").reply(params["id"]))
                return

    # What is asked

    def _request(self, identifier: RequestId, method: str, params: Any) -> Request:
        """The request, which is answered when what it asks for is known."""
        kind = METHODS[method]
        params = params if isinstance(params, dict) else {}
        request = Request(identifier, method, kind, params, time.monotonic() + kind.patience)
        if kind.has_text:
            request.document = self._workspace.documents.get(params["textDocument"]["uri"])
        if kind.place is not None and request.document is not None:
            lines = request.document.lines
            position = kind.place(params)
            request.mark = request.document.mark(lines.offset(position, self._workspace.encoding))
            if kind.needs_state:
                self._workspace.look_at(request.document, self._marks(request.document) + [request.mark])
        return request

    def _marks(self, document: Document) -> List[Mark]:
        """The places whose states are still waited for."""
        return [request.mark for request in self._waiting
                if request.document is document and request.kind.needs_state and request.mark is not None]

    def _answer_waiting(self) -> None:
        waiting, self._waiting = self._waiting, []
        for request in waiting:
            try:
                result = self._result(request)
            except RpcError as error:
                self._send(error.reply(request.identifier))
                continue
            except Exception as error:  # a mistake of the server: the client gets an error, and all else goes on
                self._log("failed", {"method": request.method, "error": traceback.format_exc()})
                text = f"{request.method} failed: {type(error).__name__}"
                self._send(RpcError(ErrorCode.INTERNAL_ERROR, text).reply(request.identifier))
                continue
            if result is NOT_YET:
                self._waiting.append(request)
            else:
                self._answer(request.identifier, result)

    def _result(self, request: Request) -> Json:
        """The result of a request, or NOT_YET."""
        workspace = self._workspace
        is_late = time.monotonic() >= request.deadline
        if workspace.engine.is_running and not workspace.is_current and not is_late:
            return NOT_YET
        if not request.kind.has_text:
            return request.kind.answer_all(workspace, request, is_late)
        node = workspace.node_of(request.document) if request.document is not None else None
        view = workspace.view(node.name) if node is not None and workspace.is_current else None
        return request.kind.answer(view, request, is_late) if view is not None else None

    # What the server sends

    def _answer(self, identifier: RequestId, result: Json) -> None:
        self._send({"jsonrpc": "2.0", "id": identifier, "result": result})

    def _notify(self, method: str, params: Dict[str, Any]) -> None:
        self._send({"jsonrpc": "2.0", "method": method, "params": params})

    def _ask(self, method: str, params: Any, call: Callable[[], None]) -> None:
        """Sends a request, and makes the call when the client has answered without an error."""
        self._calls += 1
        identifier = f"pide-{self._calls}"
        self._client.calls[identifier] = call
        message: Message = {"jsonrpc": "2.0", "id": identifier, "method": method}
        self._send({**message, "params": params} if params is not None else message)

    def _send(self, message: Message) -> None:
        self._log("->", message)
        self._write(message_bytes(message))

    def _log(self, sign: str, message: Message) -> None:
        log = self._options.log
        if log is not None:
            log.write(f"{time.time():.3f} {sign} {json.dumps(message)}\n")
            log.flush()
