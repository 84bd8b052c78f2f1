"""Graphs that are too large to be drawn whole: their recipes alone, or their folders."""

from __future__ import annotations

import posixpath
from collections.abc import Iterable

from mkcheck_tools.report.escaping import counted
from mkcheck_tools.report.pictures import EDGES_AT_MOST, WHOLE_AT_MOST, Drawing

KEPT = ("recipe", "phony")
# How many edges Graphviz lays out in seconds.
LAID_OUT_AT_MOST = EDGES_AT_MOST // 3
TOP = "."


def fitting(drawing: Drawing) -> tuple[Drawing, str]:
    """A drawing that can be looked at, and what it shows in place of the whole one, in a sentence;
    empty where it is the whole one. Recipes alone are shown where these are few, else folders, as
    deep as there is room for; recipes again where all lie in one folder."""
    number = len(drawing.nodes)
    if number <= WHOLE_AT_MOST:
        return drawing, ""
    front = f"The graph has {counted(number, 'name')}, so this is a smaller one:"
    kept = with_recipes(drawing)
    recipes = among(drawing, kept)
    about_recipes = f"{front} its {counted(len(kept), 'name')} with recipes or findings."
    if len(kept) <= WHOLE_AT_MOST and recipes.size <= LAID_OUT_AT_MOST:
        return recipes, about_recipes
    for depth in range(max(name.count("/") for name in drawing.nodes), 0, -1):
        folders = by_folder(drawing, depth)
        if len(folders.nodes) <= WHOLE_AT_MOST and folders.size <= LAID_OUT_AT_MOST:
            said = "each arrow says for how many prerequisites it stands"
            return folders, f"{front} its {counted(len(folders.nodes), 'folder')}; {said}."
    return recipes, about_recipes


def with_recipes(drawing: Drawing) -> dict[str, str]:
    """The names with recipes, and those that findings are about, each with its look."""
    ends = {name for one, other, _ in drawing.missing for name in (one, other)}
    return {name: look for name, look in drawing.nodes.items() if look in KEPT or name in ends}


def among(drawing: Drawing, kept: dict[str, str]) -> Drawing:
    """Some names of a drawing. Edges over others lead from one of them to another."""
    needs: dict[str, list[tuple[str, str]]] = {}
    for one, other, label in drawing.edges:
        needs.setdefault(one, []).append((other, label))
    # Of each name that isn't kept, those that it leads to; names stand behind their prerequisites.
    reached: dict[str, dict[str, None]] = {}
    edges: dict[tuple[str, str, str], None] = {}
    for name in drawing.nodes:
        found: dict[str, None] = {}
        for other, label in needs.get(name, ()):
            if name not in kept:
                found.update({other: None} if other in kept else reached.get(other, {}))
            elif other in kept:
                edges[name, other, label] = None
            else:
                edges.update(((name, one, ""), None) for one in reached.get(other, ()))
        if found:
            reached[name] = found
    return Drawing(kept, list(edges), drawing.missing, drawing.short)


def folder_of(name: str, depth: int) -> str:
    """The folder of a name, at most so deep; `.` is the project's own."""
    parts = posixpath.dirname(name).split("/")
    return "/".join(parts[: depth + name.startswith("/")]) or TOP


def by_folder(drawing: Drawing, depth: int) -> Drawing:
    """Folders in place of names, at most so deep; a label says for how many edges one stands."""
    folders = {name: folder_of(name, depth) for name in drawing.nodes}
    nodes = {folder: "folder" for folder in folders.values()}
    apart = ((one, other) for one, other, _ in drawing.edges if folders[one] != folders[other])
    return Drawing(
        nodes,
        bundled((folders[one], folders[other]) for one, other in apart),
        bundled((folders[one], folders[other]) for one, other, _ in drawing.missing),
        drawing.short,
    )


def bundled(edges: Iterable[tuple[str, str]]) -> list[tuple[str, str, str]]:
    """Edges, each once, with the number of times that it occurs where there are several."""
    numbers: dict[tuple[str, str], int] = {}
    for edge in edges:
        numbers[edge] = numbers.get(edge, 0) + 1
    return [
        (one, other, f"{number:,}" if number > 1 else "")
        for (one, other), number in numbers.items()
    ]
