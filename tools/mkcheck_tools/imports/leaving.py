"""Recipes that ran in the build and left their target as it was before it.

Automake's `config.h: stamp-h1` is one: it makes the file only if that is missing. Such a target is
taken as it is, as if make had nothing to do for it.
"""

from __future__ import annotations

import os

from mkcheck_tools.imports.builds import path_name
from mkcheck_tools.imports.gnumake import Make


def times_in(folder: str) -> dict[str, int]:
    """The times of the files in a folder, by their names from it."""
    found: dict[str, int] = {}
    for above, _, names in os.walk(folder):
        front = "" if above == folder else above[len(folder) + 1 :] + "/"
        for name in names:
            found[front + name] = os.lstat(os.path.join(above, name)).st_mtime_ns
    return found


def leave_alone(
    root: str, makes: list[Make], before: dict[str, int], after: dict[str, int]
) -> None:
    """Marks recipes that left their target as it was as not run.

    `before` and `after` have the times of all files before and after a build of these makes.
    """
    for make in makes:
        for rules in make.base.rules.values():
            for rule in rules:
                name = path_name(root, make.folder, rule.name)
                is_same = name in before and before[name] == after.get(name)
                if rule.ran and rule.recipe and is_same and not rule.is_phony:
                    rule.ran, rule.is_done = False, True
                    rule.commands = []
