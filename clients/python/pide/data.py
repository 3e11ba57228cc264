"""Values as bodies of YXML. A shape writes values of one kind as bodies, and reads these bodies and no others."""

from __future__ import annotations

import re
from typing import Any, Callable, Generic, List, Optional, Sequence, Tuple, TypeVar

from .errors import DataFault
from .yxml import Body, Element

A = TypeVar("A")
B = TypeVar("B")

_INT = re.compile("0|-?[1-9][0-9]{0,17}", re.ASCII)


class Shape(Generic[A]):
    """`put` gives the body of a value, `get` the value of a body; `get` raises DataFault at the first wrong place."""

    def __init__(self, put: Callable[[A], Body], get: Callable[[Body], A]) -> None:
        self.put = put
        self.get = get


def node(body: Body) -> Element:
    """The element that holds a part of a value."""
    return Element(":", (), body)


def parts_of(body: Body) -> List[Body]:
    """The bodies of the nodes of which the body is made."""
    parts = []
    for number, tree in enumerate(body):
        if isinstance(tree, str) or tree.name != ":" or tree.attributes:
            raise DataFault((number,))
        parts.append(tree.body)
    return parts


def part(shape: Shape[A], child: int, body: Body) -> A:
    """The value of a body's child; a fault in it is reported from the whole body."""
    try:
        return shape.get(body)
    except DataFault as fault:
        raise fault.below(child) from None


def _text_of(body: Body) -> str:
    """The text that is the whole body, or the empty one."""
    if not body:
        return ""
    if len(body) == 1 and isinstance(body[0], str):
        return body[0]
    raise DataFault()


def _put_text(text: str) -> Body:
    return (text,) if text else ()


def _get_int(body: Body) -> int:
    text = _text_of(body)
    if not _INT.fullmatch(text):
        raise DataFault()
    return int(text)


def _get_bool(body: Body) -> bool:
    text = _text_of(body)
    if text not in ("0", "1"):
        raise DataFault()
    return text == "1"


INT: Shape[int] = Shape(lambda number: (str(number),), _get_int)
BOOL: Shape[bool] = Shape(lambda value: ("1" if value else "0",), _get_bool)
STRING: Shape[str] = Shape(_put_text, _text_of)


def checked(shape: Shape[A], fits: Callable[[A], Any]) -> Shape[A]:
    """The shape of those values alone that fit."""

    def get(body: Body) -> A:
        value = shape.get(body)
        if not fits(value):
            raise DataFault()
        return value

    return Shape(shape.put, get)


def pair(first: Shape[A], second: Shape[B]) -> Shape[Tuple[A, B]]:
    def put(value: Tuple[A, B]) -> Body:
        return (node(first.put(value[0])), node(second.put(value[1])))

    def get(body: Body) -> Tuple[A, B]:
        if len(body) != 2:
            raise DataFault()
        left, right = parts_of(body)
        return part(first, 0, left), part(second, 1, right)

    return Shape(put, get)


def list_of(item: Shape[A]) -> Shape[Tuple[A, ...]]:
    def put(values: Sequence[A]) -> Body:
        return tuple(node(item.put(value)) for value in values)

    def get(body: Body) -> Tuple[A, ...]:
        return tuple(part(item, number, inner) for number, inner in enumerate(parts_of(body)))

    return Shape(put, get)


def option(item: Shape[A]) -> Shape[Optional[A]]:
    def put(value: Optional[A]) -> Body:
        return () if value is None else (node(item.put(value)),)

    def get(body: Body) -> Optional[A]:
        if not body:
            return None
        if len(body) != 1:
            raise DataFault()
        return part(item, 0, parts_of(body)[0])

    return Shape(put, get)


def put_variant(index: int, attributes: Sequence[str], body: Body) -> Body:
    """The body of a variant with these attributes and this argument."""
    return (Element(str(index), tuple((str(key), value) for key, value in enumerate(attributes)), body),)


def get_variant(body: Body) -> Tuple[int, Tuple[str, ...], Body]:
    """The index, the attributes and the argument's body of a variant."""
    if len(body) != 1:
        raise DataFault()
    tree = body[0]
    if isinstance(tree, str) or not re.fullmatch("0|[1-9][0-9]*", tree.name, re.ASCII) or int(tree.name) >= 1 << 64:
        raise DataFault((0,))
    if any(key != str(number) for number, (key, _) in enumerate(tree.attributes)):
        raise DataFault((0,))
    return int(tree.name), tuple(value for _, value in tree.attributes), tree.body
