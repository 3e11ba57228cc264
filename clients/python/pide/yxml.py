"""YXML: XML in which byte 5 and byte 6 mark up, and everything else stands for itself."""

from __future__ import annotations

from typing import List, NamedTuple, Optional, Tuple, Union

from .errors import UsageError, YxmlFault

X = "\x05"
Y = "\x06"
DEEPEST = 200


class Element(NamedTuple):
    """An element: its name, its attributes in order (keys may repeat), its body."""

    name: str
    attributes: Tuple[Tuple[str, str], ...]
    body: Body


Tree = Union[str, Element]
Body = Tuple[Tree, ...]


def yxml_text(body: Body) -> str:
    """The text of a body.

    Raises UsageError where a name, key, value or text has the character 5 or 6.
    """
    pieces: List[str] = []
    _write(pieces, body)
    return "".join(pieces)


def _write(pieces: List[str], body: Body) -> None:
    for tree in body:
        if isinstance(tree, str):
            pieces.append(_plain(tree))
            continue
        pieces += (X, Y, _plain(tree.name))
        for key, value in tree.attributes:
            pieces += (Y, _plain(key), "=", _plain(value))
        pieces.append(X)
        _write(pieces, tree.body)
        pieces += (X, Y, X)


def _plain(text: str) -> str:
    if X in text or Y in text:
        raise UsageError("a text has the character 5 or 6, which can't be sent")
    return text


def parse_body(text: str) -> Body:
    """The body that the text spells. Raises YxmlFault at the first fault from the left."""
    open_tags: List[Tuple[str, Tuple[Tuple[str, str], ...]]] = []
    bodies: List[List[Tree]] = [[]]
    chunks = text.split(X)
    for number, chunk in enumerate(chunks):
        if not chunk:
            continue
        if chunk[0] != Y:
            fault = _add_text(bodies[-1], chunk)
        elif len(chunk) > 1:
            fault = _open(open_tags, bodies, chunk)
        elif open_tags:
            name, attributes = open_tags.pop()
            body = tuple(bodies.pop())
            bodies[-1].append(Element(name, attributes, body))
            fault = None
        else:
            fault = "Unbalanced"
        if fault is not None:
            raise YxmlFault(fault, len(X.join([*chunks[:number], ""]).encode()))
    if open_tags:
        raise YxmlFault("Unbalanced", len(text.encode()))
    return tuple(bodies[0])


def _add_text(body: List[Tree], text: str) -> Optional[str]:
    """Adds a text, joined to the one before it; the name of the fault if it has one."""
    if Y in text:
        return "BadText"
    if body and isinstance(body[-1], str):
        body[-1] += text
    else:
        body.append(text)
    return None


def _open(
    open_tags: List[Tuple[str, Tuple[Tuple[str, str], ...]]], bodies: List[List[Tree]], chunk: str
) -> Optional[str]:
    """Opens an element; the name of the fault if the chunk has one."""
    _, name, *pairs = chunk.split(Y)
    if not name:
        return "BadTag"
    attributes = []
    for pair in pairs:
        key, equals, value = pair.partition("=")
        if not key or not equals:
            return "BadAttribute"
        attributes.append((key, value))
    if len(open_tags) == DEEPEST:
        return "TooDeep"
    open_tags.append((name, tuple(attributes)))
    bodies.append([])
    return None
