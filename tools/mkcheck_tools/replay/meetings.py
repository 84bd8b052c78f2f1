"""What recipes share that isn't in the project's folder: names elsewhere, locks, and addresses.

Replays of recipes that never run side by side in a make would meet there, so they are run one after
another.
"""

from __future__ import annotations

import contextlib
import threading
from collections.abc import Iterable, Iterator, Mapping
from dataclasses import dataclass, field

from mkcheck_tools.judge.footprints import Footprint
from mkcheck_tools.replay.worlds import Trial
from mkcheck_tools.run.folders import is_own

Meetings = Mapping[str, tuple[str, ...]]


def meetings_of(footprints: Iterable[Footprint], trials: Iterable[Trial]) -> Meetings:
    """By target what its recipe shares with others, sorted: what one of them makes and takes away,
    locks, or serves at, and another one uses or looks at."""
    taken: dict[str, set[str]] = {}
    for footprint in footprints:
        outside = {*footprint.scratch, *footprint.missed, *footprint.locked}
        for name in {name for name in outside if not is_own(name)} | footprint.ports:
            taken.setdefault(name, set()).add(footprint.recipe.target)
    for trial in trials:
        for name in trial.effects.looked if trial.effects is not None else ():
            if name in taken:
                taken[name].add(trial.recipe.target)
    found: dict[str, list[str]] = {}
    for name in sorted(name for name, targets in taken.items() if len(targets) > 1):
        for target in taken[name]:
            found.setdefault(target, []).append(name)
    return {target: tuple(names) for target, names in found.items()}


@dataclass(frozen=True)
class Turns:
    """Lets one recipe of those that share something go on at a time."""

    meetings: Meetings
    locks: dict[str, threading.Lock] = field(default_factory=dict)

    def __post_init__(self) -> None:
        for names in self.meetings.values():
            for name in names:
                self.locks.setdefault(name, threading.Lock())

    @contextlib.contextmanager
    def turn(self, target: str) -> Iterator[None]:
        """Waits until no other recipe goes on that shares something with this one. All take the
        names in one order, so that none waits for another one that waits for it."""
        with contextlib.ExitStack() as held:
            for name in self.meetings.get(target, ()):
                held.enter_context(self.locks[name])
            yield
