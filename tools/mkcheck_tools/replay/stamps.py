"""Other time stamps for files that recipes make, since these have others in each build.

They become later, and stay older than what the replay writes; or earlier, where later ones would
have to be waited for, and no other file has a stamp among them. So each order of stamps that the
recipe found stays. Sources keep theirs, and so do files to which a recipe gave a stamp that isn't
of the time of the recording, as `cp -p` does.
"""

from __future__ import annotations

import contextlib
import os
import stat
from collections.abc import Iterator
from dataclasses import replace

from mkcheck_tools.replay.versions import FILE, Version
from mkcheck_tools.replay.worlds import GIVEN, Trial, World
from mkcheck_tools.run import stopping
from mkcheck_tools.run.clocks import file_time
from mkcheck_tools.run.folders import is_own
from mkcheck_tools.run.paths import Name, real_in

SECOND = 1_000_000_000
# Archives of zip keep stamps by two seconds.
LEAST = 2 * SECOND
# Stamps go on in steps, behind the clock.
STEP = SECOND // 50


def made_since(world: World, trial: Trial, until: int) -> dict[Name, Version]:
    """The files that a recipe reads and that got their stamps since the recording began, also where
    these were moved for a replay."""
    begun = int(world.begun * SECOND) - STEP
    return {
        name: version
        for name, version in trial.before.items()
        if name in trial.moved or (version.kind == FILE and begun <= version.stamp <= until)
    }


def with_other_stamps(world: World, trial: Trial, later_ones: bool = False) -> Trial:
    """The recipe with other stamps of what it reads and recipes made; itself where it reads none.

    They are later ones if that is asked for, or there are such by now, or earlier ones can't be.
    Where there are none yet, this waits. A file whose stamp lies between them keeps all as they
    are.
    """
    if trial.moved:
        return trial
    made = made_since(world, trial, int(trial.ended * SECOND))
    if not made:
        return trial
    stamps = [version.stamp for version in made.values()]
    first, last = min(stamps), max(stamps)
    others = [
        world.stamp(name) if version == GIVEN else version.stamp
        for name, version in trial.before.items()
        if name not in made
    ]
    if not later_ones and latest() - last < LEAST:
        around = [*others, *stamps_around(world, trial)]
        if not any(first - LEAST <= stamp <= last for stamp in around):
            return moved(trial, made, -LEAST)
    while (later := latest() - last) < LEAST:
        stopping.pause((LEAST - later) / SECOND)
    if any(first <= stamp <= last + later for stamp in others):
        return trial
    return moved(trial, made, later)


def latest() -> int:
    """The latest stamp that is older than all that is written from now on."""
    return file_time() - STEP


def moved(trial: Trial, made: dict[Name, Version], time_passed: int) -> Trial:
    """The recipe, where these files have stamps that are so much later."""
    found = {
        name: replace(version, stamp=version.stamp + time_passed) for name, version in made.items()
    }
    kept = {name: found[name] for name in found if trial.after.get(name) is trial.before[name]}
    return replace(
        trial,
        before={**trial.before, **found},
        after={**trial.after, **kept},
        moved=frozenset(found),
    )


def stamps_around(world: World, trial: Trial) -> Iterator[int]:
    """The stamps that a recipe may compare with those of made files, besides what it reads in the
    project: of the project's folders, and of what it used or looked at elsewhere. Recipes run in
    the copy of the project's folder, so the stamp of that one counts."""
    paths = [real_in(world.place, name) for name in (Name(""), *trial.known)]
    if trial.effects is not None:
        outside = (*trial.effects.reads, *trial.effects.looked, *trial.effects.listed)
        others = (real_in(world.folder, name) for name in outside if not is_own(name))
        paths += [path for path in others if path != world.folder]
    for path in paths:
        with contextlib.suppress(OSError):
            status = os.stat(path)
            # A folder that changed since then has another stamp in each run.
            if not stat.S_ISDIR(status.st_mode) or status.st_mtime < world.begun:
                yield status.st_mtime_ns
