"""The commands of a text, kept up to date under edits: what an edit leaves alone isn't read again."""

from __future__ import annotations

from bisect import bisect_left, bisect_right
from typing import FrozenSet, List, Mapping, Tuple

from ..tokens import Aliases, Span, aliases_of, spans_of


class Cut:
    """The proper spans of a text by number, and the aliases of its header. `starts` rise."""

    def __init__(self, text: str, inherited: Mapping[str, str]) -> None:
        self.aliases = Aliases({}, 0)
        self._inherited = inherited
        self.starts: List[int] = []
        self.lengths: List[int] = []
        self.words: List[str] = []
        self._cut_whole(text, aliases_of(text, inherited))

    def __len__(self) -> int:
        return len(self.starts)

    def span(self, number: int) -> Span:
        """The command of this number, with its place in the text."""
        start = self.starts[number]
        return Span(start, start + self.lengths[number], self.words[number])

    def meaning(self, number: int) -> str:
        """The command's own name: of an alias the name for which it stands."""
        word = self.words[number]
        return self.aliases.targets.get(word, word)

    def words_for(self, command: str) -> FrozenSet[str]:
        """The command's name and its aliases."""
        return frozenset({command, *(word for word, target in self.aliases.targets.items() if target == command)})

    def at(self, place: int) -> int:
        """The number of the last span that starts at or before the place; -1 where there is none."""
        return bisect_right(self.starts, place) - 1

    def inherit(self, text: str, inherited: Mapping[str, str]) -> None:
        """Takes in what aliases the imports of this text hand on."""
        if inherited != self._inherited:
            self._inherited = inherited
            self._cut_whole(text, aliases_of(text, inherited))

    def edit(self, text: str, start: int, stop: int, new_stop: int) -> None:
        """Takes in that the range to `stop` has become, in this text, the range to `new_stop`."""
        if start <= self.aliases.header_stop or not self.aliases.header_stop:
            aliases = aliases_of(text, self._inherited)
            if aliases.targets or self.aliases.targets:
                self._cut_whole(text, aliases)
                return
            self.aliases = aliases
        # a token that the edit changes begins at the last but one span before it, or behind
        first = max(0, bisect_left(self.starts, start) - 2)
        spans, kept = self._cut_until_kept(text, first, stop, new_stop)
        shift = new_stop - stop
        self.starts[first:] = [span.start for span in spans] + [place + shift for place in self.starts[kept:]]
        self.lengths[first:kept] = [span.stop - span.start for span in spans]
        self.words[first:kept] = [span.word for span in spans]

    def _cut_until_kept(self, text: str, first: int, stop: int, new_stop: int) -> Tuple[List[Span], int]:
        """The spans from that number on until one stands behind the edit and stood there before, and its number."""
        spans: List[Span] = []
        for span in spans_of(text, self.starts[first] if first else 0, self.aliases):
            if span.start >= new_stop:
                old = span.start - new_stop + stop
                number = bisect_left(self.starts, old)
                if number < len(self.starts) and self.starts[number] == old and self.words[number] == span.word:
                    return spans, number
            spans.append(span)
        return spans, len(self.starts)

    def _cut_whole(self, text: str, aliases: Aliases) -> None:
        spans = list(spans_of(text, 0, aliases))
        self.aliases = aliases
        self.starts = [span.start for span in spans]
        self.lengths = [span.stop - span.start for span in spans]
        self.words = [span.word for span in spans]
