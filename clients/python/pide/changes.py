"""Changes of texts: edits between two of them, and updates that are short enough to be sent."""

from __future__ import annotations

from typing import Dict, Iterator, List, Tuple

from .messages import Change, Edit, Insert, Item, Remove

LARGEST_UPDATE = 1 << 22


def edits_between(old: str, new: str) -> Tuple[Edit, ...]:
    """The edits that make one text of the other: what is between their common beginning and end is exchanged."""
    shortest = min(len(old), len(new))
    front = _common(old, new, shortest)
    back = _common(old[::-1], new[::-1], shortest - front)
    edits: List[Edit] = []
    if front + back < len(old):
        edits.append(Remove(front, old[front : len(old) - back]))
    if front + back < len(new):
        edits.append(Insert(front, new[front : len(new) - back]))
    return tuple(edits)


def _common(one: str, other: str, most: int) -> int:
    """The length of the longest common beginning, of at most so many characters."""
    low = 0
    while low < most:
        middle = (low + most + 1) // 2
        if one.startswith(other[low:middle], low):
            low = middle
        else:
            most = middle - 1
    return low


def portions(changes: Dict[str, Item]) -> Iterator[Dict[str, Item]]:
    """The changes in updates that are short enough to be sent, one after the other: mostly one.

    A node may stand in several of them, its edits one behind the other, its perspective with the last.
    """
    portion: Dict[str, Item] = {}
    size = 0
    for name, change in changes.items():
        for piece in _pieces(change):
            length = _size(piece)
            if name in portion or size + length > LARGEST_UPDATE:
                yield portion
                portion, size = {}, 0
            portion[name] = piece
            size += length
    if portion:
        yield portion


def _size(item: Item) -> int:
    return sum(4 * len(edit.text) for edit in item.edits) if isinstance(item, Change) else 0


def _pieces(item: Item) -> Iterator[Item]:
    """The change itself, or several that each are short enough to be sent and together do the same."""
    if not isinstance(item, Change) or _size(item) <= LARGEST_UPDATE:
        yield item
        return
    most = LARGEST_UPDATE // 4
    for edit in item.edits:
        for begin in range(0, len(edit.text), most):
            text = edit.text[begin : begin + most]
            start = edit.start + begin if isinstance(edit, Insert) else edit.start
            yield Change((type(edit)(start, text),))
    yield Change((), item.perspective)
