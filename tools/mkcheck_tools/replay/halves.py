"""Runs recipes where writes to their target fail, and tells which leave it half-written."""

from __future__ import annotations

import threading
from collections.abc import Callable, Iterator, Mapping
from concurrent import futures
from concurrent.futures import Future, ThreadPoolExecutor
from dataclasses import dataclass, replace
from typing import Any

from mkcheck_tools.faults import FULL, mistake_of
from mkcheck_tools.replay.alike import groups_of, way_of
from mkcheck_tools.replay.differences import is_file
from mkcheck_tools.replay.meetings import Turns
from mkcheck_tools.replay.runs import BARE, Ahead, Outcome, Runner
from mkcheck_tools.replay.stamps import with_other_stamps
from mkcheck_tools.replay.worlds import Trial, World
from mkcheck_tools.run import stopping
from mkcheck_tools.run.folders import remove
from mkcheck_tools.run.memory import is_full
from mkcheck_tools.run.paths import Name
from mkcheck_tools.run.places import Place
from mkcheck_tools.run.progress import SECONDS_SHOWN, Progress


@dataclass(frozen=True)
class Halves:
    """What tries them: `places_of` gives those for a run of the recipe of this place among all, one
    after another. Where it isn't `wanted`, nothing is run, and no target counts as half-written."""

    runner: Runner
    turns: Turns
    slots: threading.Semaphore
    places_of: Callable[[Trial, int], Iterator[Place]]
    wanted: bool

    def ahead(
        self, pool: ThreadPoolExecutor, trials: list[Trial], early: Mapping[int, Future[Ahead]]
    ) -> Mapping[int, Future[bool]]:
        """Whether recipes that are alike leave their targets half-written, of those two of each
        kind that are tried first. They begin before it is known whether they pass, since they
        needn't wait for the clock, and some began `early`. By the places of the recipes."""
        sizes = [
            (number, trial, size_of_target(self.runner.layout.world, trial))
            for number, trial in enumerate(trials)
            if self.wanted and way_of(trial) is not None
        ]
        return {
            number: pool.submit(self.half_by, early.get(number), trials[number], number)
            for group in groups_of(sizes)
            for number in group[:2]
        }

    def half_by(self, early: Future[Ahead] | None, trial: Trial, number: int) -> bool:
        """The same, by a run that began early, unless an error ended that, or it took from other
        recipes what isn't so in the end."""
        if early is not None and not early.cancelled() and early.exception() is None:
            found = early.result()
            if found.half is not None and found.premises == self.runner.layout.premises(trial):
                return found.half
        return self.half(trial, number, frozenset())

    def of(
        self,
        pool: ThreadPoolExecutor,
        outcomes: list[Outcome],
        ahead: Mapping[int, Future[bool]],
    ) -> list[Outcome]:
        """The outcomes, with what recipes leave where a write fails. Of those that are alike two
        are tried, and the others where one of these leaves its target half-written. Some of that
        began `ahead`."""
        waiting = [
            (number, outcome.trial, size_of_target(self.runner.layout.world, outcome.trial))
            for number, outcome in enumerate(outcomes)
            if outcome.half is None
        ]
        groups = groups_of(waiting)
        found = dict(enumerate(outcomes))
        for numbers in ([group[:2] for group in groups], [group[2:] for group in groups]):
            tried = {
                number: pool.submit(self.with_half, found[number], number, ahead.get(number))
                for group, wanted in zip(groups, numbers)
                for number in wanted
                if wanted == group[:2] or any(found[one].half is not False for one in group[:2])
            }
            names = {number: found[number].trial.recipe.target for number in tried}
            watch(tried, names, Progress(len(tried), title="failing"))
            found.update((number, one.result()) for number, one in tried.items())
        return [replace(outcome, half=bool(outcome.half)) for outcome in found.values()]

    def with_half(self, outcome: Outcome, number: int, ahead: Future[bool] | None) -> Outcome:
        """The outcome of a recipe that passed, with whether it leaves its target half-written if a
        write fails. An error that nobody thought of costs this recipe alone."""
        try:
            if ahead is not None and not outcome.given:
                return replace(outcome, half=ahead.result())
            return replace(outcome, half=self.half(outcome.trial, number, outcome.given))
        except Exception as error:
            if isinstance(error, OSError) and error.errno in FULL:
                raise
            return replace(outcome, run=BARE, broken=mistake_of(error, "recorder"))

    def half(self, trial: Trial, number: int, folders: frozenset[Name]) -> bool:
        """Whether a recipe leaves its target half-written if a write fails."""
        world = self.runner.layout.world
        with self.slots, self.turns.turn(trial.recipe.target):
            for place in self.places_of(trial, number):
                # Where the program ends, no more folders are laid.
                stopping.go_on()
                found = self.leaves_half(with_other_stamps(world, trial), place, folders)
                if found is not None:
                    return found
        return False

    def leaves_half(self, trial: Trial, place: Place, folders: frozenset[Name]) -> bool | None:
        """Whether a recipe that makes its target anew leaves it half-written if a write fails; None
        where a place in memory has no room, or not all that it needs."""
        target = Name(trial.recipe.target)
        if not self.wanted or target in trial.before or not is_file(trial.after.get(target)):
            return False
        try:
            self.runner.layout.furnish(trial, place.folder, folders)
            return self.runner.leaves_half(trial, place)
        except OSError as error:
            if place.inner and is_full(error):
                return None
            raise
        finally:
            remove(place.folder)


def watch(
    tried: Mapping[int, Future[Any]], names: Mapping[int, str], progress: Progress
) -> None:
    """Waits for runs, and tells those that have ended, or after a while which one goes on, at once
    where all together take longer. One that raises an error ends this."""
    left = dict(tried)
    if futures.wait(left.values(), SECONDS_SHOWN).not_done:
        progress.at_once()
    while left:
        done, _ = futures.wait(left.values(), SECONDS_SHOWN, futures.FIRST_COMPLETED)
        for number in [number for number, one in left.items() if one in done]:
            left.pop(number).result()
            progress.ended(names[number])
        if left and not done:
            progress.goes_on(names[next(iter(left))])
    if tried:
        progress.clear()


def size_of_target(world: World, trial: Trial) -> int:
    """How many bytes a recipe left in its target, a file."""
    target = Name(trial.recipe.target)
    version = trial.after.get(target)
    return world.size(target, version) if version is not None else 0
