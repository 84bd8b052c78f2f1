"""Files that a recipe makes beside its target, and whose own rule has no recipe.

mkcheck compares the stamps that files have when what needs them comes up. GNU make looks at a
target without recipe once, before it makes what that needs, and goes by the old stamp later in the
same make. An empty recipe, `file: target ;`, makes it look again.
"""

from __future__ import annotations

from collections.abc import Mapping, Sequence

from mkcheck_tools.answers.graphs import Graph
from mkcheck_tools.gnu.macros import Prober
from mkcheck_tools.judge.notes import Kind, Note, Warn
from mkcheck_tools.judge.refusals import listed
from mkcheck_tools.run.paths import Name


def warn_of_unlooked(
    graph: Graph, prober: Prober, writers: Mapping[Name, Sequence[str]], warn: Warn
) -> None:
    """Warns of each such file, where a recipe needs it that doesn't need the target itself.

    `writers` has the targets whose recipes write a file.
    """
    needing: dict[str, list[str]] = {}
    for recipe in graph.recipes:
        for name in graph.prerequisites[recipe.target]:
            needing.setdefault(name, []).append(recipe.target)
    users = {
        (name, writer): [one for one in needing[name] if writer not in graph.prerequisites[one]]
        for name in needing
        if name not in graph.targets and name not in graph.phony and graph.prerequisites[name]
        for writer in writers.get(Name(name), ())
    }
    found = {pair: targets for pair, targets in users.items() if targets}
    bare = frozenset(without_commands(prober, list(dict.fromkeys(name for name, _ in found))))
    for (name, writer), targets in found.items():
        if name in bare:
            text = (
                f"GNU make looks at {name} only before the recipe of {writer} makes it, so"
                f" {listed(targets)} may stay old in that make: write `{name}: {writer} ;`, whose"
                " empty recipe makes it look again"
            )
            warn(Note(name, Kind.UNLOOKED, text))


def without_commands(prober: Prober, names: list[str]) -> list[str]:
    """Those of some names whose rules have no commands, not even an empty one, found by halves:
    mkcheck refuses a second rule with commands."""
    if not names:
        return []
    rules = "".join(f"{name}:;\n" for name in names)
    if prober.ask("", rules, prober.checker.words) is not None:
        return names
    if len(names) == 1:
        return []
    middle = len(names) // 2
    return [*without_commands(prober, names[:middle]), *without_commands(prober, names[middle:])]
