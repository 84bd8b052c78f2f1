"""Files that one recipe may have left before an edit, and that another one uses."""

from __future__ import annotations

import os
import re
from collections.abc import Sequence

from mkcheck_tools.answers.graphs import Graph, Recipe
from mkcheck_tools.judge.footprints import Footprint
from mkcheck_tools.judge.notes import Kind, Note, Warn
from mkcheck_tools.judge.refusals import listed
from mkcheck_tools.run.paths import Name

# What lets a command pass over a part of itself.
DECIDES = re.compile(r"\b(?:if|case|while|until|for|test|find|xargs)\b|\[|\|\||&&")
# What goes first to another folder.
GOES = re.compile(r"\s*(?:cd|mkdir)\s[^&|;]*&&")


def warn_of_remains(footprints: Sequence[Footprint], graph: Graph, warn: Warn) -> None:
    """Warns of each recipe that uses files which another one may have left before an edit by which
    that now writes fewer."""
    by_target = {footprint.recipe.target: footprint for footprint in footprints}
    for footprint in footprints:
        for maker in sorted(footprint.stale & by_target.keys()):
            names = remains_of(by_target[maker], footprint, graph)
            if names:
                warn(note_of_remains(footprint.recipe.target, maker, names))


def remains_of(maker: Footprint, user: Footprint, graph: Graph) -> list[Name]:
    """The files of one recipe that another one reads, of which more may be there after an edit: not
    those that the graph names, or that are always written, or before which the recipe takes away
    what is like them. What no make makes again leaves nothing."""
    if maker.recipe.target in graph.once:
        return []
    read = {*user.reads, *user.seen, *user.met}
    return [
        name
        for name in maker.writes
        if name in read
        and name not in graph.nodes
        and name not in maker.clears
        and not is_always_written(name, maker.recipe)
    ]


def is_always_written(name: Name, recipe: Recipe) -> bool:
    """Whether a command names a file, so that the makefile decides that it is written: where no
    part of that command decides whether another one runs."""
    word = re.compile(rf"(?<![\w.-]){re.escape(os.path.basename(name))}(?![\w-]|\.\w)")
    texts = (GOES.sub("", one.text) for one in recipe.commands if not one.ignored)
    return any(word.search(text) and not DECIDES.search(text) for text in texts)


def note_of_remains(target: str, maker: str, names: Sequence[Name]) -> Note:
    """The note of a recipe that uses such files of another one."""
    pattern = pattern_of(names)
    cure = f" (rm -f {pattern})" if pattern else ""
    text = (
        f"the recipe of {target} uses files like {listed(names)}, of which that of {maker} may have"
        " left more before an edit, and old ones would count: let the recipe of"
        f" {maker} first remove them all by a pattern{cure}"
    )
    return Note(target, Kind.EARLIER, text)


def pattern_of(names: Sequence[Name]) -> str:
    """A pattern that matches all of some names in one folder; empty where that tells nothing."""
    folders = {os.path.dirname(name) for name in names}
    bases = [os.path.basename(name) for name in names]
    front = os.path.commonprefix(bases)
    end = os.path.commonprefix([base[len(front) :][::-1] for base in bases])[::-1]
    if len(bases) < 2 or len(folders) > 1 or not front + end:
        return ""
    return os.path.join(*folders, f"{front}*{end}")
