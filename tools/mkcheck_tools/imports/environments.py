"""Recipes that find another environment when a file says something else: whether that matters.

A makefile may export a macro that comes from a file, as `export V := $(shell cat VERSION)`. All
recipes below get it, and most don't look at it. So such a recipe is tried with other values: where
what it writes stays the same, it doesn't depend on the file.
"""

from __future__ import annotations

import os
import shutil
from collections.abc import Iterable, Mapping
from dataclasses import replace

from mkcheck_tools.imports.builds import Build, Kind, Node
from mkcheck_tools.imports.copies import run_here
from mkcheck_tools.imports.gnumake import Make, content, own_environment
from mkcheck_tools.imports.leaving import times_in
from mkcheck_tools.imports.plain import shell_text
from mkcheck_tools.imports.rereading import paired
from mkcheck_tools.run.places import Place

# A value that no macro has by itself, for those that aren't tried.
OTHER = "mkcheck-import"
# How many recipes of one line are tried, for all of it.
OF_ONE_LINE = 2


def other_values(used: Iterable[Make], asked: list[Make]) -> dict[int, dict[str, str]]:
    """The values in the environment of makes that were asked again that are others than those of
    the makes for which they stand, by the numbers of these."""
    found: dict[int, dict[str, str]] = {}
    for make, old in paired(list(used), asked):
        before, now = own_environment(old.environment), own_environment(make.environment)
        names = [name for name in {*before, *now} if before.get(name) != now.get(name)]
        if names:
            found.setdefault(old.number, {}).update((name, now.get(name, "")) for name in names)
    return found


class Trier:
    """Runs recipes in a copy of the project that is built, with other values of variables."""

    def __init__(self, build: Build, place: Place, environment: dict[str, str]) -> None:
        self.build, self.place, self.environment = build, place, environment
        self.known: dict[tuple[object, ...], list[bool]] = {}

    def is_alike(self, name: str, values: Mapping[str, str]) -> bool:
        """Whether the recipe of a target writes the same whatever these variables hold. A few stand
        for all of a line."""
        node = self.build.nodes.get(name)
        if node is None or not node.commands or node.kind is not Kind.FILE:
            return False
        tried = self.known.setdefault((str(node.origin), *sorted(values)), [])
        if len(tried) < OF_ONE_LINE and all(tried):
            others = [dict(values), dict.fromkeys(values, OTHER), dict.fromkeys(values, "")]
            tried.append(self.tried(node, others))
        return all(tried)

    def tried(self, node: Node, others: Iterable[Mapping[str, str]]) -> bool:
        """Whether a recipe writes the same files with the same contents as in the build each
        time."""
        path = os.path.join(self.place.folder, node.name)
        if os.path.isdir(path) and not os.path.islink(path):
            return self.tried_without(path, node, others)
        before = self.written(node, {})
        if before is None or node.name not in before:
            return False
        is_alike = all(self.written(node, values) == before for values in others)
        self.written(node, {})
        return is_alike

    def tried_without(
        self, path: str, node: Node, others: Iterable[Mapping[str, str]]
    ) -> bool:
        """The same of a recipe that makes a folder, which isn't there each time when it runs."""
        aside = f"{self.place.folder}.aside"
        os.rename(path, aside)
        try:
            found = []
            for values in [dict[str, str](), *others]:
                found.append(self.written(node, values))
                shutil.rmtree(path, ignore_errors=True)
        finally:
            os.rename(aside, path)
        first = found[0]
        return first is not None and node.name in first and all(one == first for one in found)

    def written(self, node: Node, values: Mapping[str, str]) -> dict[str, bytes] | None:
        """What a recipe writes with these values, folders as empty ones; None where it fails."""
        times, folders = times_in(self.place.folder), folders_in(self.place.folder)
        exports = tuple(sorted({**dict(node.setting.exports), **values}.items()))
        setting = replace(node.setting, exports=exports)
        for command in node.commands:
            words = ["/bin/sh", "-e", "-c", shell_text(command, setting)]
            status, _, _ = run_here(self.place, words, self.environment)
            if status != 0 and not command.ignored:
                return None
        after = times_in(self.place.folder)
        names = [name for name, stamp in after.items() if times.get(name) != stamp]
        found = {name: content(os.path.join(self.place.folder, name)) for name in names}
        return found | dict.fromkeys(folders_in(self.place.folder) - folders, b"")


def folders_in(folder: str) -> set[str]:
    """The names of the folders in a folder, from it."""
    return {
        os.path.relpath(os.path.join(above, name), folder)
        for above, names, _ in os.walk(folder)
        for name in names
    }
