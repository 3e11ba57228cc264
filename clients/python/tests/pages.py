"""Pages read by Python's parser of HTML, with a check of nesting, and of what links need."""

from __future__ import annotations

from collections import Counter
from html.parser import HTMLParser
from pathlib import Path
from typing import Dict, List, Optional, Tuple
from urllib.parse import unquote

VOID = frozenset(("meta", "link", "br", "img", "hr", "input"))
NOT_OF_THE_TEXT = frozenset(("note", "fault"))


class Page(HTMLParser):
    """A page: its ids, its links, the theory's text in it; `faults` is what is wrong with its form."""

    def __init__(self, text: str) -> None:
        super().__init__(convert_charrefs=True)
        self.ids: List[str] = []
        self.links: List[str] = []
        self.tags: List[str] = []
        self.faults: List[str] = []
        self.text = ""
        self._open: List[Tuple[str, bool, bool]] = []
        self.feed(text)
        self.close()
        self.faults += [f"<{tag}> isn't closed" for tag, _, _ in self._open]
        self.faults += [f"the id {name} stands twice" for name, count in Counter(self.ids).items() if count > 1]

    def handle_starttag(self, tag: str, attrs: List[Tuple[str, Optional[str]]]) -> None:
        self._begin(tag, attrs)
        if tag not in VOID:
            given = dict(attrs)
            is_left_out = bool(NOT_OF_THE_TEXT & set((given.get("class") or "").split()))
            _, within, left_out = self._open[-1] if self._open else ("", False, False)
            self._open.append((tag, within or given.get("id") == "text", left_out or is_left_out))

    def handle_startendtag(self, tag: str, attrs: List[Tuple[str, Optional[str]]]) -> None:
        self._begin(tag, attrs)

    def _begin(self, tag: str, attrs: List[Tuple[str, Optional[str]]]) -> None:
        self.tags.append(tag)
        given = dict(attrs)
        if len(given) < len(attrs):
            self.faults.append(f"<{tag}> has an attribute twice")
        self.ids += [given["id"] or ""] if "id" in given else []
        self.links += [given[key] or "" for key in ("href", "src") if key in given]
        self.links += [f"#{name}" for name in (given.get("aria-describedby") or "").split()]
        self.links += [f"#{name}" for name in (given.get("aria-labelledby") or "").split()]

    def handle_endtag(self, tag: str) -> None:
        if not self._open or self._open[-1][0] != tag:
            self.faults.append(f"</{tag}> closes {self._open[-1][0] if self._open else 'nothing'}")
        else:
            self._open.pop()

    def handle_data(self, data: str) -> None:
        if self._open and self._open[-1][1] and not self._open[-1][2]:
            self.text += data


def read_page(path: Path) -> Page:
    return Page(path.read_bytes().decode())


def read_pages(folder: Path) -> Dict[str, Page]:
    """All pages of a folder and the folders in it, by their paths below it."""
    return {path.relative_to(folder).as_posix(): read_page(path) for path in sorted(folder.rglob("*.html"))}


def faults_of(folder: Path, pages: Dict[str, Page]) -> List[str]:
    """What is wrong with the pages' forms, and each link that leads nowhere."""
    faults = [f"{name}: {fault}" for name, page in pages.items() for fault in page.faults]
    ids = {name: set(page.ids) for name, page in pages.items()}
    for name, page in pages.items():
        for link in page.links:
            file, _, fragment = link.partition("#")
            target = (folder / name).parent / file if file else folder / name
            known = ids.get(target.resolve().relative_to(folder.resolve()).as_posix(), set())
            if not target.is_file() or (fragment and unquote(fragment) not in known):
                faults.append(f"{name}: the link {link} leads nowhere")
    return faults
