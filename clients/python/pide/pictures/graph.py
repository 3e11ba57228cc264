"""The graph of imports as SVG, and its page."""

from __future__ import annotations

from typing import Collection, Iterator, List, Mapping

from .escaping import attribute_html
from .frame import IMPORTS, Frame, counted, link, page
from .imports import Imports
from .layout import HEIGHT, Layout, Point, box_width, layout_of
from .names import FOLDER

_MARGIN = 8.0


def graph(imports: Imports, files: Mapping[str, str], wrong: Collection[str]) -> Iterator[str]:
    """The graph as an element `svg` for a page at the folder's top: each box leads to its theory's page."""
    layout = layout_of(imports)
    width, height = layout.width + 2 * _MARGIN, layout.height + 2 * _MARGIN
    yield (
        f'<div class="graph" tabindex="0" role="region" aria-label="Graph of imports">\n'
        f'<svg width="{width:.0f}" height="{height:.0f}" viewBox="{-_MARGIN:.0f} {-_MARGIN:.0f} {width:.0f} '
        f'{height:.0f}" role="group" aria-label="Each theory stands below what it imports">\n'
    )
    yield from (f'<path class="import" d="{_path(curve)}"/>\n' for curve in layout.curves)
    for name, (x, y) in layout.boxes.items():
        yield _box(name, x, y, f"{FOLDER}/{files[name]}", name in wrong)
    yield "</svg>\n</div>\n"
    yield f"<p class=\"remark\">{_remark(layout)}</p>\n"


def _remark(layout: Layout) -> str:
    how = "Graphviz" if layout.by_graphviz else "layers of import order"
    return f"Each theory stands below what it imports, laid out by {how}. ✗ marks those with errors."


def _path(points: List[Point]) -> str:
    (x, y), *others = points
    return f"M{x:.1f},{y:.1f}C" + " ".join(f"{x:.1f},{y:.1f}" for x, y in others)


def _box(name: str, x: float, y: float, target: str, is_wrong: bool) -> str:
    width = box_width(name)
    label = ("✗ " if is_wrong else "") + name
    css = ' class="wrong"' if is_wrong else ""
    return (
        f'<a href="{attribute_html(target)}"{css}><rect x="{x - width / 2:.1f}" y="{y - HEIGHT / 2:.1f}" '
        f'width="{width:.1f}" height="{HEIGHT:.0f}" rx="6"/>'
        f'<text x="{x:.1f}" y="{y + 4.5:.1f}" text-anchor="middle">{attribute_html(label)}</text></a>\n'
    )


def imports_page(imports: Imports, files: Mapping[str, str], wrong: Collection[str]) -> Iterator[str]:
    """The page of the graph, with the same as a list."""
    header = [f"<p>{counted(len(imports), 'theory', 'theories')}, and what each imports.</p>\n"]
    yield from page(Frame("Imports", current=IMPORTS), header, _main(imports, files, wrong))


def _main(imports: Imports, files: Mapping[str, str], wrong: Collection[str]) -> Iterator[str]:
    yield from graph(imports, files, wrong)
    yield '<h2>As a list</h2>\n<dl class="imports">\n'
    for name, imported in imports.items():
        others = ", ".join(link(f"{FOLDER}/{files[other]}", other) for other in imported) or "nothing of these"
        yield f"<dt>{link(f'{FOLDER}/{files[name]}', name)}</dt><dd>imports {others}</dd>\n"
    yield "</dl>\n"


