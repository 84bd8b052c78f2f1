"""Files that recipes of the recording before left, and that nothing makes any more. A clean build
begins without them, so an update records without them, as it does without targets."""

from __future__ import annotations

import os
from collections.abc import Iterable, Iterator
from dataclasses import replace

from mkcheck_tools.answers.graphs import Graph, Recipe
from mkcheck_tools.answers.refusals import Refused
from mkcheck_tools.answers.unrecorded import Unrecorded
from mkcheck_tools.book import states
from mkcheck_tools.book.paths import path_of_state
from mkcheck_tools.book.states import State, Unusable
from mkcheck_tools.faults import Fault
from mkcheck_tools.gnu.macros import Prober
from mkcheck_tools.judge.leftovers import tracked_in
from mkcheck_tools.judge.refusals import listed
from mkcheck_tools.record.answering import tell
from mkcheck_tools.record.request import Request
from mkcheck_tools.replay.versions import version_of
from mkcheck_tools.run.paths import Name, real_in


def left_over(request: Request, build: Unrecorded, graph: Graph) -> frozenset[str]:
    """The files that stand as a recipe of the recording before left them, that nothing makes now,
    and that git doesn't track. None where git doesn't track the makefile, which then isn't what a
    clean build begins from, or it is no update."""
    tracked = tracked_in(request.folder) if request.update else None
    if tracked is None or build.checker.makefile not in tracked or request.book is None:
        return frozenset()
    try:
        state = states.read(path_of_state(request.book))
    except Unusable:
        return frozenset()
    found = [name for name in unmade(request, state, graph) if name not in tracked]
    return frozenset(found).difference(Prober(build).made(found))


def unmade(request: Request, state: State, graph: Graph) -> Iterator[Name]:
    """The files that stand as a recipe left them which is another one now, or is gone, and that no
    other one writes and the graph has no rule for."""
    same = {key_of(recipe) for recipe in graph.recipes}
    stays = [key_of(entry.footprint.recipe) in same for entry in state.entries.values()]
    entries = list(zip(state.entries.values(), stays))
    kept = {name for entry, stay in entries if stay for name in entry.after}
    for entry, stay in entries:
        for name, version in entry.after.items():
            if stay or version is None or name in kept or is_made(graph, name):
                continue
            if version_of(real_in(request.folder, name)) == version:
                yield name


def is_made(graph: Graph, name: str) -> bool:
    """Whether a name has a recipe, or a rule that says what it is made from."""
    return name in graph.targets or bool(graph.needs(name))


def key_of(recipe: Recipe) -> tuple[str, tuple[str, ...]]:
    """What tells whether a recipe is the same: its target and its commands."""
    return recipe.target, tuple(recipe.lines)


def without(left: frozenset[str], build: Unrecorded) -> tuple[Unrecorded, Graph]:
    """The build without files that are left over, and its graph."""
    build = replace(build, files=[name for name in build.files if name not in left])
    try:
        graph = build.graph()
    except Refused as refused:
        name = refused.missing
        if name not in left:
            raise build.explained(refused) from None
        raise Fault(
            f"nothing makes {name} any more, and git doesn't track it, so a clean build lacks it: a"
            " recipe of the recording before made the file that is there; mend the makefile, or add"
            f" {name} to git if it is a source now"
        ) from None
    whose = "a recipe" if len(left) == 1 else "recipes"
    tell(
        f"recorded without {listed(sorted(left))}, as a clean build begins: left by {whose} of the"
        " recording before, other or gone now, and not tracked by git"
    )
    for name in sorted(with_folders(left) & graph.targets):
        tell(f"a recipe makes the file {name} now, and a folder is there: remove it before a make")
    return build, graph


def with_folders(names: Iterable[str]) -> frozenset[str]:
    """Names, and those of the folders in which they lie."""
    found = set(names)
    for name in names:
        while name := os.path.dirname(name):
            found.add(name)
    return frozenset(found)
