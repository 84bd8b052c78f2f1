"""Draws graphs: as text for Graphviz, by Graphviz as SVG, and as an indented list."""

from __future__ import annotations

import re
import shutil
import subprocess
import xml.etree.ElementTree as Tree
from collections.abc import Collection
from dataclasses import dataclass, field

from mkcheck_tools.answers.findings import Answer
from mkcheck_tools.answers.graphs import Graph
from mkcheck_tools.report.books import Reached
from mkcheck_tools.report.escaping import counted, dot_string, markup, shortened, visible

SVG = "http://www.w3.org/2000/svg"
XLINK = "http://www.w3.org/1999/xlink"
SECONDS = 20
# Findings of a read whose file is no prerequisite.
LACKING = ("race", "stale", "unknown")
AROUND_AT_MOST, BESIDE_AT_MOST = 14, 5
WHOLE_AT_MOST, EDGES_AT_MOST = 300, 3000
LABEL_AT_MOST = 28
TOLD_AT_MOST = 3
PAGE_INCHES, NODE_INCHES, APART = 14.5, 1.2, 0.35
LOOKS = {
    "recipe": 'shape=box, style="rounded,filled", fillcolor="#e3ecf7"',
    "phony": 'shape=box, style="rounded,dashed"',
    "plain": "shape=box, color=gray60",
    "file": 'shape=note, color="#c03030", fontcolor="#c03030"',
    "read": "shape=note, color=gray40",
    "more": "shape=plaintext",
    "folder": "shape=folder",
}
MISSING = 'style=dashed, color=red, class="missing"'
UNLISTED = 'style=dashed, color=gray40, class="unlisted"'
# What the colours and lines of a graph mean, each with the class of what is drawn so.
KEY = (
    ("edge", "a prerequisite"),
    ("unlisted", "read, and no prerequisite of its own: a change reaches it another way"),
    ("missing", "a finding: read, and missing"),
)


@dataclass
class Drawing:
    """A part of a graph: its nodes with their looks, its edges, those that are missing, and those
    that nobody misses: of files that a recipe reads and that aren't its own prerequisites."""

    nodes: dict[str, str] = field(default_factory=dict)
    edges: list[tuple[str, str, str]] = field(default_factory=list)
    missing: list[tuple[str, str, str]] = field(default_factory=list)
    short: bool = True
    unlisted: list[tuple[str, str]] = field(default_factory=list)

    def add(self, name: str, graph: Graph, other: str = "file") -> None:
        """A name of the graph, or a file that is none, which has the other look."""
        node = graph.nodes.get(name)
        if node is None:
            look = other
            if look == "file" and self.nodes.get(name) == "read":
                self.nodes[name] = look
        elif node.phony:
            look = "phony"
        else:
            look = "recipe" if node.recipe else "plain"
        self.nodes.setdefault(name, look)

    @property
    def size(self) -> int:
        """How many edges it has."""
        return len(self.edges) + len(self.missing) + len(self.unlisted)

    @property
    def told(self) -> str:
        """What it shows in words, for those who don't see it."""
        front = f"A graph of {counted(len(self.nodes), 'name')}"
        some = [f"{shortened(one)} lacks {shortened(other)}" for one, other, _ in self.missing]
        more = ["and more"] if len(some) > TOLD_AT_MOST else []
        return visible(f"{front}: {', '.join([*some[:TOLD_AT_MOST], *more])}" if some else front)

    def of_prerequisites(self) -> Drawing:
        """The drawing with its edges alone, and without the names that only others reach."""
        nodes = {name: look for name, look in self.nodes.items() if look not in ("file", "read")}
        return Drawing(nodes, self.edges, [], self.short)

    def apart(self) -> float:
        """How far the columns are apart, in inches: the more edges there are, the more room they
        need, as far as the page has it."""
        needs: dict[str, list[str]] = {}
        for one, other, _ in self.edges:
            needs.setdefault(one, []).append(other)
        columns: dict[str, int] = {}
        for name in self.nodes:
            columns[name] = 1 + max((columns.get(one, 1) for one in needs.get(name, [])), default=0)
        last = max(columns.values(), default=1)
        room = (PAGE_INCHES - NODE_INCHES * last) / max(1, last - 1)
        return max(APART, min(len(self.edges) / 250, room, 1.6))

    def dot(self, said: str = "") -> str:
        """The drawing as text for Graphviz, with a sentence above it."""
        numbers = {name: f"n{number}" for number, name in enumerate(self.nodes)}
        lines = ["digraph build {", "  rankdir=LR;"]
        lines += [f"  labelloc=t; label={dot_string(said)};"] if said else []
        if self.short:
            lines += ["  nodesep=0.12;", f"  ranksep={self.apart():.2f};"]
            lines += ['  node [fontname="DejaVu Sans Mono", fontsize=12, height=0.3];']
            lines += ['  edge [fontname="DejaVu Sans Mono", fontsize=11, arrowsize=0.7];']
        for name, look in self.nodes.items():
            label = shortened(name, LABEL_AT_MOST) if self.short else name
            lines.append(
                f'  {numbers[name]} [label={dot_string(label)}, class="{look}", {LOOKS[look]}];'
            )
        for one, other, label in self.edges:
            said = f" [label={dot_string(label)}]" if label else ""
            lines.append(f"  {numbers[one]} -> {numbers[other]}{said};")
        for one, other, label in self.missing:
            said = f", label={dot_string(shortened(label, LABEL_AT_MOST))}" if label else ""
            lines.append(f"  {numbers[one]} -> {numbers[other]} [{MISSING}{said}];")
        for one, other in self.unlisted:
            lines.append(f"  {numbers[one]} -> {numbers[other]} [{UNLISTED}];")
        return "\n".join([*lines, "}", ""])


def reads_found(answer: Answer) -> set[tuple[str, str]]:
    """The reads that findings are about whose file is no prerequisite, also findings that others
    hide: recipe and file."""
    found = {(one.reader, one.file) for one in answer.findings if one.kind in LACKING}
    for group in answer.later:
        found.update((target, file) for target in group.targets for file in group.files)
    return found


def whole(
    graph: Graph, book: Reached, short: bool, found: Collection[tuple[str, str]] | None = None
) -> Drawing:
    """The whole graph, and the files that a recipe reads, that it doesn't list, and that can
    change: all as missing, or those alone that were found, where this is known."""
    drawing = Drawing(short=short)
    for name in graph.nodes:
        drawing.add(name, graph)
    for node in graph.nodes.values():
        labels = len(node.groups) > 1
        for number, group in enumerate(node.groups, 1):
            for name in dict.fromkeys(group):
                drawing.edges.append((node.name, name, str(number) if labels else ""))
        listed = set(node.prerequisites)
        record = book.records.get(node.name)
        for file in record.reads if record else ():
            if file in listed or file == node.name or not book.can_change(file):
                continue
            if found is None or (node.name, file) in found:
                drawing.add(file, graph)
                drawing.missing.append((node.name, file, ""))
            else:
                drawing.add(file, graph, "read")
                drawing.unlisted.append((node.name, file))
    return drawing


def around(graph: Graph, reader: str, other: str, file: str) -> Drawing:
    """The graph around a missing edge from `reader` to `other`, with the names that lead there from
    the goals; `file` is the file that is read."""
    drawing = Drawing()
    names = graph.above(reader) | (graph.above(other) if other in graph.nodes else set())
    if len(names) > AROUND_AT_MOST:
        names = {reader, other, *graph.path_to(reader), *graph.path_to(other)}
        if len(names) > AROUND_AT_MOST:
            ends = [*graph.path_to(reader)[-4:], *graph.path_to(other)[-4:]]
            names = {reader, other, *ends}
    order = [name for name in reversed(list(graph.nodes)) if name in names]
    for name in order:
        drawing.add(name, graph)
    drawing.add(other, graph)
    for name in order:
        beside = [one for one in graph.needs(name) if one not in names]
        drawing.edges += [(name, one, "") for one in graph.needs(name) if one in names]
        if name not in (reader, other):
            continue
        for one in beside[:BESIDE_AT_MOST]:
            drawing.add(one, graph)
            drawing.edges.append((name, one, ""))
        if len(beside) > BESIDE_AT_MOST:
            more = f"{len(beside) - BESIDE_AT_MOST} more of {shortened(name, 12)}"
            drawing.nodes[more] = "more"
            drawing.edges.append((name, more, ""))
    drawing.missing.append((reader, other, "" if file == other else file))
    return drawing


def as_list(drawing: Drawing) -> str:
    """A drawing as an indented list; each name stands with its prerequisites once."""
    needs: dict[str, list[tuple[str, str]]] = {}
    below = set()
    for one, other, _ in drawing.edges:
        needs.setdefault(one, []).append((other, ""))
        below.add(other)
    for one, other, _ in drawing.missing:
        needs.setdefault(one, []).append((other, "missing"))
    for one, other in drawing.unlisted:
        needs.setdefault(one, []).append((other, "unlisted"))
    seen: set[str] = set()
    tops = [name for name in drawing.nodes if name not in below and drawing.nodes[name] != "more"]
    lonely = {name for name, look in drawing.nodes.items() if look in ("file", "read")}
    parts = ["<ul>"]
    # What is left to write, the next one last: an item, or the end of a list.
    left: list[tuple[str, str] | None] = [
        (name, "") for name in reversed(tops) if name not in lonely
    ]
    while left:
        item = left.pop()
        if item is None:
            parts.append("</ul></li>")
            continue
        name, look = item
        said = f' class="{look}"' if look else "", " (not listed)" if look else ""
        parts.append(f"<li{said[0]}><span>{markup(shortened(name))}</span>{said[1]}")
        inner = [] if look or name in seen else needs.get(name, [])
        if not look:
            seen.add(name)
        if inner:
            parts.append("<ul>")
            left += [None, *reversed(inner)]
        else:
            parts.append("</li>")
    return "".join([*parts, "</ul>"])


def key(drawing: Drawing) -> str:
    """What the lines of a drawing mean, below it, for those lines that it has."""
    has = {"edge": drawing.edges, "unlisted": drawing.unlisted, "missing": drawing.missing}
    parts = [
        f'<span><svg class="graph key" width="24" height="12" aria-hidden="true"><g class="{look}">'
        f'<path d="M1 6h22"/></g></svg>{text}</span>'
        for look, text in KEY
        if has[look]
    ]
    return f'<p class="key">{"".join(parts)}</p>'


def drawn(drawings: list[Drawing]) -> list[str]:
    """The drawings as SVG, all laid out by one run of Graphviz; empty texts where it isn't there,
    fails, or takes too long."""
    nothing = ["" for _ in drawings]
    program = shutil.which("dot")
    if program is None or not drawings:
        return nothing
    text = "".join(drawing.dot() for drawing in drawings)
    try:
        done = subprocess.run(
            [program, "-Tsvg"],
            input=text.encode("utf-8"),
            capture_output=True,
            timeout=SECONDS,
            check=False,
        )
    except (OSError, subprocess.TimeoutExpired):
        return nothing
    parts = re.split(r"(?=<\?xml)", done.stdout.decode("utf-8", "replace"))[1:]
    if done.returncode != 0 or len(parts) != len(drawings):
        return nothing
    try:
        return [cleaned(part, drawing) for part, drawing in zip(parts, drawings)]
    except Tree.ParseError:
        return nothing


def cleaned(text: str, drawing: Drawing) -> str:
    """An SVG of Graphviz for a page: its colours are the page's, and nodes have whole names as
    titles."""
    Tree.register_namespace("", SVG)
    Tree.register_namespace("xlink", XLINK)
    root = Tree.fromstring(text[text.index("<svg") :])
    names = {f"n{number}": name for number, name in enumerate(drawing.nodes)}
    box = root.get("viewBox", "0 0 100 100").split(" ")
    for one in ("width", "height"):
        root.set(one, box[2] if one == "width" else box[3])
    root.set("class", "graph")
    root.set("role", "img")
    root.set("aria-label", drawing.told)
    for element in root.iter():
        for key in ("id", "fill", "stroke", "font-family", "font-size", "stroke-dasharray"):
            element.attrib.pop(key, None)
    for group in root.iter(f"{{{SVG}}}g"):
        title = group.find(f"{{{SVG}}}title")
        if title is None:
            continue
        name = names.get(title.text or "")
        if name is None or len(name) <= LABEL_AT_MOST:
            group.remove(title)
        else:
            title.text = visible(shortened(name, 400))
        if group.get("class") == "graph":
            for polygon in group.findall(f"{{{SVG}}}polygon"):
                group.remove(polygon)
    return Tree.tostring(root, encoding="unicode")


def width_of(svg: str) -> float:
    """How wide an SVG of Graphviz is."""
    found = re.search(r'width="([0-9.]+)"', svg)
    return float(found[1]) if found else 0.0
