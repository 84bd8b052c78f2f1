"""Modules that Python keeps compiled: where one is there, Python only looks at its text."""

from __future__ import annotations

import os
from collections.abc import Iterable, Sequence

from mkcheck_tools.judge.footprints import Footprint
from mkcheck_tools.judge.notes import Kind, Note, Warn
from mkcheck_tools.judge.refusals import listed
from mkcheck_tools.run.folders import is_own

KEPT_IN = "__pycache__"
CURE = "remove that folder, and write python3 -B in the recipes"


def folder_of_modules(names: Iterable[str]) -> str | None:
    """The first folder with compiled modules in which one of these files lies."""
    folders = {os.path.dirname(name) for name in names}
    return min((name for name in folders if os.path.basename(name) == KEPT_IN), default=None)


def warn_of_modules(footprints: Sequence[Footprint], fixed: tuple[str, ...], warn: Warn) -> None:
    """Warns of recipes that use compiled modules of the project, which the replay needn't refuse.
    What is fixed doesn't count."""
    users: dict[str, str] = {}
    for footprint in footprints:
        names = [*footprint.reads, *footprint.writes]
        own = [name for name in names if is_own(name) and not name.startswith(fixed)]
        folder = folder_of_modules(own)
        if folder is not None:
            users[footprint.recipe.target] = folder
    if users:
        what = "recipe" if len(users) == 1 else "recipes"
        text = (
            f"the {what} of {listed(users)} use{'s' if len(users) == 1 else ''} modules that Python"
            f" keeps compiled in {next(iter(users.values()))}, and so may not read their texts:"
            f" {CURE}"
        )
        warn(Note(next(iter(users)), Kind.MODULES, text))
