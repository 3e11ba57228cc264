"""The frame of every page: head, header with links to the other pages, main part, aside, footer."""

from __future__ import annotations

from dataclasses import dataclass
from pathlib import Path
from typing import Iterable, Iterator, Tuple

from .escaping import attribute_html, text_html
from .facts import Fact

STYLE_FILE = "pide.css"
SCRIPT_FILE = "pide.js"
INDEX, FACTS, IMPORTS = "index.html", "facts.html", "imports.html"
_PAGES: Tuple[Tuple[str, str], ...] = (("Theories", INDEX), ("Facts", FACTS), ("Imports", IMPORTS))


@dataclass(frozen=True)
class Frame:
    """What a page has around its main part: its title, the way to the folder's top, which of the three pages it is,
    and where the skip link leads. A page that needs no other file has its style and its script in itself."""

    title: str
    top: str = ""
    current: str = ""
    skip_to: str = "main"
    skip_label: str = "Skip to the main part"
    style: str = ""
    script: str = ""


def page(frame: Frame, header: Iterable[str], main: Iterable[str], aside: Iterable[str] = ()) -> Iterator[str]:
    """The page, piece by piece."""
    yield from _head(frame)
    pages = "" if frame.style else f"{_pages(frame)}\n"
    yield f"<header>\n{pages}<h1>{text_html(frame.title)}</h1>\n"
    yield from header
    yield '</header>\n<main id="main" tabindex="-1">\n'
    yield from main
    yield "</main>\n"
    yield from aside
    yield "</body>\n</html>\n"


def _head(frame: Frame) -> Iterator[str]:
    yield (
        '<!DOCTYPE html>\n<html lang="en">\n<head>\n<meta charset="utf-8">\n'
        '<meta name="viewport" content="width=device-width, initial-scale=1">\n'
        '<meta name="color-scheme" content="light dark">\n'
        f"<title>{attribute_html(frame.title)}</title>\n"
        f"{_style_and_script(frame)}"
        f'</head>\n<body>\n<a class="skip" href="#{frame.skip_to}">{frame.skip_label}</a>\n'
    )


def _style_and_script(frame: Frame) -> str:
    if frame.style:
        script = f"document.addEventListener('DOMContentLoaded', () => {{{frame.script}}});"
        return f"<style>{frame.style}</style>\n<script>{script}</script>\n"
    return (
        f'<link rel="stylesheet" href="{frame.top}{STYLE_FILE}">\n'
        f'<script src="{frame.top}{SCRIPT_FILE}" defer></script>\n'
    )


def _pages(frame: Frame) -> str:
    links = []
    for label, target in _PAGES:
        here = ' aria-current="page"' if target == frame.current else ""
        links.append(f'<a href="{frame.top}{target}"{here}>{label}</a>')
    return f'<nav aria-label="Pages">{" ".join(links)}</nav>'


def write_page(path: Path, pieces: Iterable[str]) -> None:
    """Writes a page as UTF-8, line ends as they are. What can't be told in UTF-8 is written as `?`."""
    with open(path, "w", encoding="utf-8", errors="replace", newline="") as stream:
        stream.writelines(pieces)


def link(target: str, label: str, css: str = "") -> str:
    """A link; the target is a safe one, the label any text."""
    named = f' class="{css}"' if css else ""
    return f'<a href="{attribute_html(target)}"{named}>{text_html(label)}</a>'


def counted(number: int, noun: str, plural: str = "") -> str:
    """A number with its noun: `1 theory`, `1,000 theories`, `no error`."""
    shown = f"{number:,}" if number else "no"
    return f"{shown} {noun if number == 1 else plural or noun + 's'}"


def verdict(errors: int, is_right: str) -> str:
    """A line with a sign: that nothing is wrong, or how many errors there are."""
    if errors:
        return f'<p class="verdict wrong"><span aria-hidden="true">✗</span> {counted(errors, "error")}</p>\n'
    return f'<p class="verdict right"><span aria-hidden="true">✓</span> {is_right}</p>\n'


def proof_sign(fact: Fact) -> str:
    """A mark behind a fact whose proof isn't right, or isn't there."""
    return "" if fact.is_right else ' <span class="unproved">✗ not proved</span>'
