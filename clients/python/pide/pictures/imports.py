"""The order of theories: what is imported stands before what imports it."""

from __future__ import annotations

from collections import deque
from typing import Dict, List, Mapping, Sequence

from ..theories import Theory

Imports = Mapping[str, Sequence[str]]


def imports_of(nodes: Mapping[str, Theory]) -> Dict[str, List[str]]:
    """What each theory imports of these theories, each once, in the header's order."""
    imports = {}
    for name, theory in nodes.items():
        named = (imported for imported, _ in theory.header.imports) if theory.header else ()
        imports[name] = [imported for imported in dict.fromkeys(named) if imported in nodes]
    return imports


def importers_of(imports: Imports) -> Dict[str, List[str]]:
    """Which theories import each."""
    importers: Dict[str, List[str]] = {name: [] for name in imports}
    for name, imported in imports.items():
        for other in imported:
            importers[other].append(name)
    return importers


def in_order(imports: Imports) -> List[str]:
    """The theories so that each stands behind what it imports; those in a circle, or behind one, stand last."""
    importers = importers_of(imports)
    missing = {name: len(imported) for name, imported in imports.items()}
    ready = deque(name for name, count in missing.items() if count == 0)
    order: List[str] = []
    while ready:
        name = ready.popleft()
        order.append(name)
        for importer in importers[name]:
            missing[importer] -= 1
            if missing[importer] == 0:
                ready.append(importer)
    done = set(order)
    return order + [name for name in imports if name not in done]


def depths(imports: Imports) -> Dict[str, int]:
    """The layer of each theory: 0 where it imports none of these, else one below the deepest that it imports."""
    layers: Dict[str, int] = {}
    for name in in_order(imports):
        layers[name] = 1 + max((layers.get(imported, -1) for imported in imports[name]), default=-1)
    return layers
