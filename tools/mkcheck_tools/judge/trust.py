"""Which recipes are trusted, and how far."""

from __future__ import annotations

from collections.abc import Iterable
from dataclasses import dataclass

# What other programs of this package put before a target that they trust. No target has a colon in
# its name. A recipe that may leave its outputs as they were is run again without these alone, and
# is kept whatever that shows. One that is only kept has all replays when it is recorded.
ALIKE, KEPT = "alike:", "kept:"


@dataclass(frozen=True)
class Trust:
    """The targets whose recipes are taken as they are, whatever their replay shows."""

    targets: frozenset[str]
    alike: frozenset[str]
    """Those that are run again without their outputs alone."""

    kept: frozenset[str]
    """Those that an update keeps also where their replay showed something."""

    @classmethod
    def of(cls, words: Iterable[str]) -> Trust:
        """The targets of words that were given to `--trust`."""
        found = [(word.removeprefix(ALIKE).removeprefix(KEPT), word) for word in words]
        return cls(
            frozenset(target for target, _ in found),
            frozenset(target for target, word in found if word.startswith(ALIKE)),
            frozenset(target for target, word in found if word.startswith((ALIKE, KEPT))),
        )
