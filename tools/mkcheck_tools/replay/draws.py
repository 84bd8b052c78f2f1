"""Recipes whose programs draw something anew in each run, as Python and Perl draw the order of
their sets and hashes. Two orders are often the same by chance, so these recipes run a few times
more.
"""

from __future__ import annotations

import os
import re
from dataclasses import dataclass, replace

from mkcheck_tools.replay.disks import Bare, Left
from mkcheck_tools.replay.runs import BARE, DRAWN, Outcome
from mkcheck_tools.replay.surroundings import SEEDS, Surroundings
from mkcheck_tools.replay.worlds import Trial

PROGRAM = re.compile(r"(?:python|pypy|perl|ruby|lua|luajit|texlua|guile)[0-9.]*(?:-[0-9.]+)?")
# How many runs there are of a recipe that takes at most this many seconds, and of others.
RUNS = ((1.0, 6), (5.0, 4))
FEWEST = 3


def is_drawing(trial: Trial) -> bool:
    """Whether a recipe started a program that draws orders."""
    reads = trial.effects.reads if trial.effects is not None else ()
    return any(PROGRAM.fullmatch(os.path.basename(name)) for name in reads)


@dataclass(frozen=True)
class Draws:
    """Runs a recipe with several orders of hashes."""

    bare: Bare

    def shown(self, trial: Trial) -> Outcome | None:
        """What its runs show: one that passed, where they all left the same; one that differs,
        where they didn't, as it does by `DRAWN` where it goes by the order of hashes. None where it
        fails here."""
        first, left = self.once(trial, 1)
        if first.failed:
            return None
        for seed in range(2, self.count(trial) + 1):
            other, found = self.once(trial, seed)
            if found != left:
                # With the same order it leaves the same, if that is all.
                runs = ((1, left), (seed, found), (1, left), (seed, found))
                is_order = bool(self.seeds(trial)) and all(
                    self.once(trial, one)[1] == same for one, same in runs
                )
                shown = other if first.passed else first
                return replace(shown, run=DRAWN if is_order else BARE)
        return Outcome(trial)

    def once(self, trial: Trial, seed: int) -> tuple[Outcome, Left]:
        """One run with this order of hashes, and what it left."""
        return self.bare.once(trial, Surroundings(seed=seed))

    def seeds(self, trial: Trial) -> list[str]:
        """The variables that choose an order, and that its user doesn't set."""
        return [name for name in SEEDS if name not in self.bare.runner.environment]

    def count(self, trial: Trial) -> int:
        """How many runs it has."""
        return next((count for most, count in RUNS if trial.seconds <= most), FEWEST)
