"""Recipes that go by what a file system tells of folders, such as their sizes: these are others in
memory than on a disk, and in a folder that had more files once."""

from __future__ import annotations

from collections.abc import Mapping
from dataclasses import dataclass

from mkcheck_tools.replay.runs import BARE, Outcome, Runner
from mkcheck_tools.replay.surroundings import AS_RECORDED, Surroundings
from mkcheck_tools.replay.versions import Version, version_of
from mkcheck_tools.replay.worlds import Trial, stamps_of
from mkcheck_tools.run.folders import remove
from mkcheck_tools.run.paths import Name, real_in
from mkcheck_tools.run.places import Place

# What a run left: why it failed, if it did, and what stands at each name that the recipe writes.
Left = tuple[str, Mapping[Name, Version | None]]


def may_go_by_disk(outcome: Outcome) -> bool:
    """Whether a recipe that wrote something else in a bare run asked a file system for a folder."""
    trial = outcome.trial
    asked = trial.listed or any(name in trial.known for name in trial.looked)
    return outcome.run == BARE and bool(outcome.differences) and bool(asked)


@dataclass(frozen=True)
class Bare:
    """Runs recipes in a place, with these further folders, and tells what they leave."""

    runner: Runner
    place: Place
    folders: frozenset[Name]

    def once(
        self, trial: Trial, amid: Surroundings = AS_RECORDED, kept: bool = False
    ) -> tuple[Outcome, Left]:
        """One bare run; if `kept`, where folders list their names as in the recording."""
        place = self.place
        self.runner.layout.furnish(trial, place.folder, self.folders, kept=kept)
        laid = stamps_of(trial, place.folder)
        outcome = self.runner.one(trial, place, BARE, laid, amid)
        left = {name: version_of(real_in(place.folder, name)) for name in trial.writes}
        remove(place.folder)
        return outcome, (outcome.failed, left)

    def goes_by_order(self, trial: Trial) -> bool:
        """Whether a recipe that differs passes where folders list their names as in the
        recording."""
        return self.once(trial, kept=True)[0].passed
