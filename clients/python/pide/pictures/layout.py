"""Where the theories stand in the graph of imports: laid out by Graphviz, or by layers of import order."""

from __future__ import annotations

import shutil
import subprocess
from dataclasses import dataclass
from typing import Dict, List, Optional, Sequence, Tuple

from .imports import Imports, depths, importers_of

PATIENCE = 20.0
MOST_FOR_GRAPHVIZ = 400
CHARACTER, HEIGHT = 8.0, 28.0
_GAP, _ROW, _LINE_GAP = 18.0, 74.0, 40.0
_WIDEST = 1500.0
_INCH = 72.0

Point = Tuple[float, float]


@dataclass(frozen=True)
class Layout:
    """Centres of boxes by theory, and of each import the points of its curve: one, then three for each Bezier part.

    Units are SVG's; y grows downwards.
    """

    width: float
    height: float
    boxes: Dict[str, Point]
    curves: List[List[Point]]
    by_graphviz: bool


def box_width(name: str) -> float:
    return len(name) * CHARACTER + 34.0


def layout_of(imports: Imports) -> Layout:
    """The layout by Graphviz's `dot`, or by layers where that isn't there, fails, takes too long, or there are many."""
    by_graphviz = _by_graphviz(imports) if len(imports) <= MOST_FOR_GRAPHVIZ else None
    return by_graphviz or by_layers(imports)


def _by_graphviz(imports: Imports) -> Optional[Layout]:
    dot = shutil.which("dot")
    if dot is None or not imports:
        return None
    numbers = {name: number for number, name in enumerate(imports)}
    try:
        ran = subprocess.run([dot, "-Tplain"], input=_question(imports, numbers), capture_output=True, text=True,
                             timeout=PATIENCE, check=True)
        return _plain_layout(ran.stdout, list(imports))
    except (OSError, subprocess.SubprocessError, ValueError, IndexError):
        return None


def _question(imports: Imports, numbers: Dict[str, int]) -> str:
    """The graph in Graphviz's language. Theories are named by numbers, so that no name has to be spelled in it."""
    lines = ["digraph {", f"node [shape=box fixedsize=true height={HEIGHT / _INCH:.3f}] ranksep=0.55 nodesep=0.25"]
    lines += [f"n{number} [width={box_width(name) / _INCH:.3f}]" for name, number in numbers.items()]
    for name, imported in imports.items():
        lines += [f"n{numbers[other]} -> n{numbers[name]} [arrowhead=none]" for other in imported]
    return "\n".join([*lines, "}", ""])


def _plain_layout(answer: str, names: List[str]) -> Layout:
    """Reads Graphviz's plain format: lengths in inches, y growing upwards."""
    width = height = 0.0
    boxes: Dict[str, Point] = {}
    curves: List[List[Point]] = []
    for line in answer.splitlines():
        words = line.split(" ")
        if words[0] == "graph":
            width, height = float(words[2]), float(words[3])
        elif words[0] == "node":
            boxes[names[int(words[1][1:])]] = _point(words[2], words[3], height)
        elif words[0] == "edge":
            count = int(words[3])
            curves.append([_point(words[4 + 2 * at], words[5 + 2 * at], height) for at in range(count)])
    return Layout(width * _INCH, height * _INCH, boxes, curves, True)


def _point(x: str, y: str, height: float) -> Point:
    return float(x) * _INCH, (height - float(y)) * _INCH


def by_layers(imports: Imports) -> Layout:
    """What imports nothing stands on top, each other theory below all that it imports."""
    boxes: Dict[str, Point] = {}
    top, width = HEIGHT / 2, 0.0
    for layer in _layers(imports):
        ordered = sorted(layer, key=lambda name: _mean(imports[name], boxes))
        for row in _rows(ordered):
            length = sum(box_width(name) + _GAP for name in row) - _GAP
            _place(row, top, -length / 2, boxes)
            width = max(width, length)
            top += _LINE_GAP
        top += _ROW - _LINE_GAP
    centred = {name: (x + width / 2, y) for name, (x, y) in boxes.items()}
    height = max((y for _, y in centred.values()), default=0.0) + HEIGHT / 2
    return Layout(width, height, centred, _curves(imports, centred), False)


def _layers(imports: Imports) -> List[List[str]]:
    layers: Dict[int, List[str]] = {}
    for name, depth in depths(imports).items():
        layers.setdefault(depth, []).append(name)
    return [layers[depth] for depth in sorted(layers)]


def _mean(imported: Sequence[str], boxes: Dict[str, Point]) -> float:
    """Where the imports stand in the mean, so that lines cross less."""
    places = [boxes[name][0] for name in imported if name in boxes]
    return sum(places) / len(places) if places else 0.0


def _rows(names: List[str]) -> List[List[str]]:
    """A layer cut into rows that aren't too wide."""
    rows: List[List[str]] = []
    room = 0.0
    for name in names:
        width = box_width(name) + _GAP
        if not rows or width > room:
            rows.append([])
            room = _WIDEST
        rows[-1].append(name)
        room -= width
    return rows


def _place(row: List[str], y: float, left: float, boxes: Dict[str, Point]) -> None:
    for name in row:
        width = box_width(name)
        boxes[name] = (left + width / 2, y)
        left += width + _GAP


def _curves(imports: Imports, boxes: Dict[str, Point]) -> List[List[Point]]:
    curves = []
    for imported, names in importers_of(imports).items():
        x, y = boxes[imported]
        for name in names:
            end_x, end_y = boxes[name]
            start, stop = y + HEIGHT / 2, end_y - HEIGHT / 2
            middle = (start + stop) / 2
            curves.append([(x, start), (x, middle), (end_x, middle), (end_x, stop)])
    return curves
