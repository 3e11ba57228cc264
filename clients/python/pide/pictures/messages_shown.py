"""Messages and answers in a few words, for pictures of a session."""

from __future__ import annotations

from typing import NamedTuple, Tuple, Union

from ..messages import AskSnapshot, Cancel, Change, Message, RemoveVersions, Settle, Update
from ..replies import Assigned, Refused, Reply, Settled, Snapshot
from ..wire import word_of
from .frame import counted
from .recording import Unread

_MOST_NAMES = 4


class Label(NamedTuple):
    """A message in a word, and in a line."""

    short: str
    whole: str


def message_shown(message: Union[Message, Unread]) -> Label:
    """What an editor asks."""
    if isinstance(message, Unread):
        return Label("unreadable", f"a message that can’t be read: {message.text}")
    if isinstance(message, Update):
        return Label("update", f"update to version {message.version}: {_items(message)}")
    if isinstance(message, AskSnapshot):
        return Label("snapshot", f"snapshot of {message.node} in version {message.version}")
    if isinstance(message, Settle):
        return Label("settle", f"settle version {message.version}")
    if isinstance(message, Cancel):
        return Label("cancel", f"cancel execution {message.execution}")
    if isinstance(message, RemoveVersions):
        return Label("remove", f"remove {_versions(message.versions)}")
    word = word_of(message).split(".")[-1]
    return Label(word, word)


def answer_shown(reply: Reply) -> str:
    """What the program answers."""
    word = word_of(reply)
    if isinstance(reply, Refused):
        return f"{word} ({reply.refusal.name})"
    if isinstance(reply, Assigned):
        return f"{word} of {counted(len(reply.nodes), 'theory', 'theories')}"
    if isinstance(reply, Settled) and reply.stuck:
        return f"{word} with {counted(len(reply.stuck), 'execution')} stuck"
    if isinstance(reply, Snapshot) and reply.pending:
        return f"{word} with {counted(len(reply.pending), 'execution')} pending"
    return word


def _items(update: Update) -> str:
    names = [name for name, _ in update.items]
    edits = sum(len(item.edits) for _, item in update.items if isinstance(item, Change))
    more = len(names) - _MOST_NAMES
    shown = ", ".join(names[:_MOST_NAMES]) + (f" and {more:,} more" if more > 0 else "")
    return f"{counted(edits, 'edit')} in {shown}" if names else "no theory changes"


def _versions(versions: Tuple[int, ...]) -> str:
    return f"{'version' if len(versions) == 1 else 'versions'} {', '.join(map(str, versions))}"
