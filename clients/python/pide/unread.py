"""Long parts of replies, which are read when they are looked at: who asks for one kind of report pays for no other."""

from __future__ import annotations

from typing import Any, Callable, Iterator, Optional, Sequence, Tuple, TypeVar, Union

from .errors import ProtocolFault

A = TypeVar("A")


class Unread(Sequence[A]):
    """A sequence that is read from its text when it is first looked at. What is wrong with the text is raised then.

    The text may be given as its bytes in UTF-8, and stays so until it is looked at.
    """

    def __init__(self, spelled: Union[str, bytes], read: Callable[[str], Tuple[A, ...]]) -> None:
        self._spelled = spelled
        self._read = read
        self._items: Optional[Tuple[A, ...]] = None

    @property
    def text(self) -> str:
        """The text. Raises ProtocolFault where the bytes are no UTF-8."""
        if isinstance(self._spelled, bytes):
            try:
                self._spelled = self._spelled.decode()
            except UnicodeDecodeError as fault:
                raise ProtocolFault(f"BadUtf8: {fault}") from fault
        return self._spelled

    @property
    def items(self) -> Tuple[A, ...]:
        if self._items is None:
            self._items = self._read(self.text)
        return self._items

    def __len__(self) -> int:
        return len(self.items)

    def __getitem__(self, place: Any) -> Any:
        return self.items[place]

    def __iter__(self) -> Iterator[A]:
        return iter(self.items)

    def __eq__(self, other: object) -> bool:
        return isinstance(other, (tuple, Unread)) and self.items == tuple(other)

    def __repr__(self) -> str:
        return repr(self.items)
