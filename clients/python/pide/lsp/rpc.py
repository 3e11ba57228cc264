"""JSON-RPC messages as LSP frames them: a header with Content-Length, and so many bytes of JSON."""

from __future__ import annotations

import enum
import json
import re
from typing import Any, Dict, List, Optional, Union

from ..errors import PideError

LONGEST_HEADER = 1 << 13
LONGEST_BODY = 1 << 28

_HEADER_END = b"\r\n\r\n"
_LENGTH = re.compile(rb"^content-length:[ \t]*([0-9]{1,10})[ \t]*$", re.IGNORECASE | re.MULTILINE)

Json = Any
Message = Dict[str, Any]
RequestId = Union[int, str]


class ErrorCode(enum.IntEnum):
    """The codes of JSON-RPC and of LSP that the server answers with."""

    PARSE_ERROR = -32700
    INVALID_REQUEST = -32600
    METHOD_NOT_FOUND = -32601
    INVALID_PARAMS = -32602
    INTERNAL_ERROR = -32603
    SERVER_NOT_INITIALIZED = -32002
    REQUEST_FAILED = -32803
    CONTENT_MODIFIED = -32801
    REQUEST_CANCELLED = -32800


class RpcError(PideError):
    """What a request is answered with in place of a result."""

    def __init__(self, code: ErrorCode, text: str) -> None:
        super().__init__(text)
        self.code = code

    def reply(self, request: Optional[RequestId]) -> Message:
        """The response to the request; to one whose id isn't known the id is null."""
        return {"jsonrpc": "2.0", "id": request, "error": {"code": int(self.code), "message": str(self)}}


def message_bytes(message: Message) -> bytes:
    """The bytes of a message with its header."""
    body = json.dumps(message, separators=(",", ":")).encode()
    return b"Content-Length: %d\r\n\r\n%b" % (len(body), body)


class MessageReader:
    """Cuts a stream, fed in any pieces, into messages."""

    def __init__(self) -> None:
        self._bytes = bytearray()
        self._length: Optional[int] = None

    def feed(self, piece: bytes) -> List[Union[Message, RpcError]]:
        """The messages that are whole with this piece; in the place of one that can't be read the error to answer.

        A header without a length is dropped up to its empty line.
        """
        self._bytes += piece
        messages: List[Union[Message, RpcError]] = []
        while True:
            if self._length is None and not self._take_header(messages):
                return messages
            if self._length is None:
                continue
            if len(self._bytes) < self._length:
                return messages
            body = bytes(self._bytes[: self._length])
            del self._bytes[: self._length]
            self._length = None
            messages.append(_message_of(body))

    def _take_header(self, messages: List[Union[Message, RpcError]]) -> bool:
        """Takes the header off the bytes; False where more has to come first."""
        end = self._bytes.find(_HEADER_END)
        if end < 0:
            if len(self._bytes) > LONGEST_HEADER:
                del self._bytes[: -len(_HEADER_END)]
                messages.append(RpcError(ErrorCode.PARSE_ERROR, f"a header has over {LONGEST_HEADER} bytes"))
            return False
        found = _LENGTH.search(bytes(self._bytes[:end]).replace(b"\r\n", b"\n"))
        del self._bytes[: end + len(_HEADER_END)]
        if found is None or int(found[1]) > LONGEST_BODY:
            messages.append(RpcError(ErrorCode.PARSE_ERROR, "a header has no Content-Length that can be taken"))
        else:
            self._length = int(found[1])
        return True


def _message_of(body: bytes) -> Union[Message, RpcError]:
    try:
        message = json.loads(body)
    except (ValueError, RecursionError):
        return RpcError(ErrorCode.PARSE_ERROR, "the message is no JSON in UTF-8")
    if not isinstance(message, dict):
        return RpcError(ErrorCode.INVALID_REQUEST, "the message is no JSON object")
    return message
