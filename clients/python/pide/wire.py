"""How messages and replies are written as chunks, and read from them."""

from __future__ import annotations

import re
from dataclasses import fields
from typing import Any, Callable, Dict, List, NamedTuple, Optional, Sequence, Tuple, Type, Union

from .data import BOOL, INT, STRING, Shape, checked, get_variant, list_of, option, pair, part, put_variant
from .errors import DataFault, ProtocolFault, Refusal, UsageError, YxmlFault
from .messages import (
    AskSnapshot,
    Cancel,
    Change,
    ChooseProtocol,
    Claim,
    Close,
    Edit,
    Finish,
    Insert,
    Item,
    Message,
    Perspective,
    Remove,
    RemoveVersions,
    Settle,
    Update,
)
from .replies import (
    Assigned,
    Built,
    Cancelled,
    Claimed,
    Dropped,
    Idle,
    ProtocolChosen,
    Refused,
    Removed,
    Reply,
    Reported,
    Settled,
    Snapshot,
    Total,
)
from .reports import PLACE, REPORTS, plain_reports
from .rows import ASSIGNMENT, ID, NODE, plain_assignment
from .unread import Unread
from .yxml import Body, parse_body, yxml_text

_IDS = list_of(ID)
_WORKER = checked(INT, lambda number: 1 <= number <= 16)
_PROTOCOL = checked(INT, lambda number: number in (1, 2))
_PARTS = ("eval", "fork", "print")
_PART = checked(STRING, lambda word: word in _PARTS)

_NUMBER = re.compile(rb"[0-9]+")
_SPELLED_ID = re.compile(rb"[1-9][0-9]{0,17}")
_SPELLED_IDS = re.compile(rb"(?:\x05\x06:\x05[1-9][0-9]{0,17}\x05\x06\x05)*")
_SPELLED_NAME = re.compile(rb"[A-Za-z][A-Za-z0-9_']{0,63}")

_REFUSAL: Shape[Refusal] = Shape(
    lambda refusal: INT.put(refusal.value),
    lambda body: Refusal(checked(INT, lambda number: 1 <= number <= len(Refusal)).get(body)),
)


def _put_edit(edit: Edit) -> Body:
    if edit.start < 0:
        raise UsageError(f"an edit starts at {edit.start}: places count from 0")
    return put_variant(0 if isinstance(edit, Insert) else 1, [str(edit.start)], STRING.put(edit.text))


def _get_edit(body: Body) -> Edit:
    index, attributes, argument = get_variant(body)
    if index > 1 or len(attributes) != 1:
        raise DataFault((0,))
    start = part(PLACE, 0, (attributes[0],))
    text = part(STRING, 0, argument)
    return Insert(start, text) if index == 0 else Remove(start, text)


_EDITS = list_of(Shape(_put_edit, _get_edit))
_LOOK = pair(BOOL, list_of(pair(PLACE, PLACE)))


def _put_perspective(value: Perspective) -> Body:
    for start, stop in value.ranges:
        if not 0 <= start <= stop:
            raise UsageError(f"a visible range is {start} to {stop}: places count from 0, and the start is first")
    return _LOOK.put((value.required, value.ranges))


_PERSPECTIVE: Shape[Perspective] = Shape(
    _put_perspective,
    lambda body: Perspective(*_LOOK.get(body)),
)
_EDITED = pair(_EDITS, option(_PERSPECTIVE))


def _put_item(item: Item) -> Body:
    if isinstance(item, Close):
        return put_variant(1, [], ())
    return put_variant(0, [], _EDITED.put((item.edits, item.perspective)))


def _get_item(body: Body) -> Item:
    index, attributes, argument = get_variant(body)
    if index > 1 or attributes or (index == 1 and argument):
        raise DataFault((0,))
    return Close() if index == 1 else Change(*part(_EDITED, 0, argument))


_ITEMS = list_of(pair(NODE, Shape(_put_item, _get_item)))
_BLOBS = list_of(pair(NODE, option(STRING)))


_Quick = Callable[[bytes], Any]


class _Chunk(NamedTuple):
    """An argument: its shape, and whether it stands in YXML or, as names and numbers do, as its text alone.

    What is long has a fast reader of the spelling that the program writes, which gives None for any other one, and is
    read when it is looked at. What is short has one of its bytes, and is read at once.
    """

    shape: Shape[Any]
    in_yxml: bool = True
    fast: Optional[Callable[[str], Any]] = None
    quick: Optional[_Quick] = None

    def parsed(self, text: str) -> Callable[[], Any]:
        """Reads the text, which may be at fault as YXML; what is given reads the value."""
        if self.fast is not None:
            return lambda: Unread(text, self.read)
        body = parse_body(text) if self.in_yxml else STRING.put(text)
        return lambda: self.shape.get(body)

    def read(self, text: str) -> Any:
        """The value of a long text in YXML."""
        value = self.fast(text) if self.fast else None
        return self.shape.get(parse_body(text)) if value is None else value


def _unread(fast: Callable[[str], Any], shape: Shape[Any]) -> _Chunk:
    read = _Chunk(shape, fast=fast).read
    return _Chunk(shape, fast=fast, quick=lambda spelled: Unread(spelled, read))


def _plain(shape: Shape[Any], quick: Optional[_Quick] = None) -> _Chunk:
    return _Chunk(shape, in_yxml=False, quick=quick)


def _quick_id(spelled: bytes) -> Optional[int]:
    return int(spelled) if _SPELLED_ID.fullmatch(spelled) else None


def _quick_ids(spelled: bytes) -> Optional[Tuple[int, ...]]:
    if not spelled:
        return ()
    return tuple(map(int, _NUMBER.findall(spelled))) if _SPELLED_IDS.fullmatch(spelled) else None


def _quick_name(spelled: bytes) -> Optional[str]:
    return spelled.decode() if _SPELLED_NAME.fullmatch(spelled) else None


class _Form(NamedTuple):
    """What a word goes with: a class of values, and an argument for each of its fields, the last of which may be
    missing."""

    made: Type[Any]
    chunks: Tuple[_Chunk, ...]
    missing: int = 0


_FUNCTIONS: Dict[bytes, _Form] = {
    b"Session.update": _Form(Update, (_plain(ID), _Chunk(_ITEMS), _Chunk(_BLOBS)), 1),
    b"Session.snapshot": _Form(AskSnapshot, (_plain(ID), _plain(NODE), _Chunk(_EDITS))),
    b"Session.settle": _Form(Settle, (_plain(ID),)),
    b"Session.cancel": _Form(Cancel, (_plain(ID),)),
    b"Session.remove_versions": _Form(RemoveVersions, (_Chunk(_IDS),)),
    b"Session.protocol": _Form(ChooseProtocol, (_plain(_PROTOCOL),)),
    b"Step.claim": _Form(Claim, (_plain(_WORKER),)),
    b"Step.finish": _Form(Finish, (_plain(_WORKER),)),
}

_ONE = _plain(ID, _quick_id)
_NAME = _plain(NODE, _quick_name)
_LIST = _Chunk(_IDS, quick=_quick_ids)
_WORK = _plain(_PART, {part.encode(): part for part in _PARTS}.get)
_FLAG = _plain(BOOL, {b"0": False, b"1": True}.get)
_MARKUP = _unread(plain_reports, REPORTS)

_REPLIES: Dict[bytes, _Form] = {
    b"assign": _Form(Assigned, (_ONE, _unread(plain_assignment, ASSIGNMENT))),
    b"markup": _Form(Snapshot, (_ONE, _NAME, _MARKUP, _LIST, _FLAG)),
    b"settled": _Form(Settled, (_ONE, _LIST)),
    b"cancelled": _Form(Cancelled, (_ONE,)),
    b"idle": _Form(Idle, (_ONE,)),
    b"removed": _Form(Removed, (_LIST,)),
    b"protocol": _Form(ProtocolChosen, (_plain(_PROTOCOL),)),
    b"refused": _Form(Refused, (_plain(_REFUSAL),)),
    b"claimed": _Form(Claimed, (_plain(_WORKER), _ONE, _WORK)),
    b"report": _Form(Reported, (_ONE, _WORK, _MARKUP)),
    b"dropped": _Form(Dropped, (_ONE, _WORK)),
    b"built": _Form(Built, (_NAME, _MARKUP)),
    b"total": _Form(Total, (_plain(INT), _plain(INT))),
}

_WORDS = {form.made: word.decode() for table in (_FUNCTIONS, _REPLIES) for word, form in table.items()}


class MessageFault(ProtocolFault):
    """Chunks are no message, or no reply; `refusal` is what the program would answer to such a message."""

    def __init__(self, refusal: Refusal, text: str) -> None:
        super().__init__(f"{refusal.name}: {text}")
        self.refusal = refusal


def word_of(value: Union[Message, Reply]) -> str:
    """The first chunk of a message or reply."""
    return _WORDS[type(value)]


def chunks_of(value: Union[Message, Reply]) -> List[bytes]:
    """The chunks of a message or reply.

    Raises UsageError where a text has a lone surrogate or the character 5 or 6, or a place is negative.
    """
    word = word_of(value)
    form = _FUNCTIONS.get(word.encode()) or _REPLIES[word.encode()]
    arguments = [getattr(value, field.name) for field in fields(value)]
    if form.missing and arguments[-1] is None:
        arguments.pop()
    texts = [yxml_text(chunk.shape.put(argument)) for chunk, argument in zip(form.chunks, arguments)]
    return [word.encode(), *map(_encoded, texts)]


def _encoded(text: str) -> bytes:
    try:
        return text.encode()
    except UnicodeEncodeError as error:
        surrogate = ord(error.object[error.start])
        raise UsageError(f"a text has the lone surrogate U+{surrogate:04X}, which can't be sent") from None


def message_of(chunks: Sequence[bytes]) -> Message:
    """What an editor asks by these chunks. Raises MessageFault where the program refuses them by 1 to 5."""
    message: Message = _read(_FUNCTIONS, chunks)
    return message


def reply_of(chunks: Sequence[bytes]) -> Reply:
    """What the program says by these chunks. Raises MessageFault where they are no reply."""
    reply: Reply = _quick_reply(chunks) or _read(_REPLIES, chunks)
    return reply


def _quick_reply(chunks: Sequence[bytes]) -> Any:
    """The reply that is spelled as the program does, or None where it isn't: then all of it is read strictly."""
    form = _REPLIES.get(chunks[0])
    if form is None or len(form.chunks) != len(chunks) - 1:
        return None
    values = []
    for chunk, spelled in zip(form.chunks, chunks[1:]):
        value = chunk.quick(spelled) if chunk.quick else None
        if value is None:
            return None
        values.append(value)
    return form.made(*values)


def _read(table: Dict[bytes, _Form], chunks: Sequence[bytes]) -> Any:
    """Reads the chunks whatever they are, and says what is wrong with them."""
    form = table.get(chunks[0])
    if form is None:
        raise MessageFault(Refusal.UnknownFunction, repr(chunks[0]))
    if not len(form.chunks) - form.missing <= len(chunks) - 1 <= len(form.chunks):
        raise MessageFault(Refusal.ArgumentCount, f"{len(chunks) - 1} for {chunks[0]!r}")
    try:
        texts = [chunk.decode() for chunk in chunks[1:]]
        parsed = [chunk.parsed(text) for chunk, text in zip(form.chunks, texts)]
        return form.made(*(read() for read in parsed))
    except UnicodeDecodeError as fault:
        raise MessageFault(Refusal.BadUtf8, str(fault)) from fault
    except YxmlFault as fault:
        raise MessageFault(Refusal.BadYxml, str(fault)) from fault
    except DataFault as fault:
        raise MessageFault(Refusal.BadData, str(fault)) from fault
