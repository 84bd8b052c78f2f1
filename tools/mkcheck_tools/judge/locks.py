"""Locks that recipes share.

A lock keeps two recipes from running at the same time, but puts neither first, so it counts for
nothing. The file that is locked counts as any other.
"""

from __future__ import annotations

from collections.abc import Sequence

from mkcheck_tools.answers.graphs import Ancestors
from mkcheck_tools.judge.footprints import LOCK_CURE, Footprint, shown
from mkcheck_tools.judge.notes import Kind, Note, Warn
from mkcheck_tools.judge.refusals import listed
from mkcheck_tools.run.paths import Name


def warn_of_locks(footprints: Sequence[Footprint], ancestors: Ancestors, warn: Warn) -> None:
    """Warns of each file that several recipes lock and one of these writes, and of each lock for
    which a recipe doesn't wait and that another one may have.
    """
    users: dict[Name, list[Footprint]] = {}
    for footprint in footprints:
        for name in footprint.locked:
            users.setdefault(name, []).append(footprint)
    for name, those in sorted(users.items()):
        targets = [footprint.recipe.target for footprint in those]
        if len(those) > 1 and any(name in footprint.writes for footprint in those):
            text = (
                f"the recipes of {listed(targets)} lock {shown(name)}, which counts as a file that"
                f" they write: where it is there for the lock alone, {LOCK_CURE}; a lock puts no"
                " recipe first, so check answers as if there were none"
            )
            warn(Note(targets[0], Kind.LOCK, text))
        pairs = (
            (footprint.recipe.target, other)
            for footprint in those
            if name in footprint.tried
            for other in targets
            if other != footprint.recipe.target
        )
        pair = next((pair for pair in pairs if not ancestors.in_order(*pair)), None)
        if pair is not None:
            text = (
                f"the recipe of {pair[0]} locks {shown(name)} and doesn't wait, or not for long,"
                f" till it may (flock -n, flock -w), and that of {pair[1]} locks it too: with"
                f" several jobs {pair[0]} may fail or be made otherwise; let it wait for the lock"
            )
            warn(Note(pair[0], Kind.TRY_LOCK, text))
