"""How many questions make is asked after a build, and how long that takes."""

from __future__ import annotations

import resource
from collections.abc import Iterator, Sequence
from dataclasses import dataclass
from typing import TypeVar

from mkcheck_tools.imports.telling import ASKED

Item = TypeVar("Item")
# Why some weren't asked.
TOO_LONG = ", since that took as long as some builds"
# All of them together may take this many times the processor time of the build, and these seconds
# in any case.
BUILDS_AT_MOST = 3
SECONDS_IN_ANY_CASE = 60.0


@dataclass
class Questions:
    """The questions that make is asked after a build."""

    asked: int = 0
    known: int = 0
    """How many are to be asked, as far as that is known by now."""

    limit: float | None = None
    """The processor time of all commands that have ended by then when the last one may begin."""

    def text(self) -> str:
        """How many were asked, as a count for who tells how far a step is."""
        return f"[{ASKED} {self.asked}/{self.known if self.asked <= self.known else 0}]"

    def begin(self, seconds: float) -> None:
        """From now on questions are asked, after a build that took these seconds of the
        processor."""
        self.limit = processor_time() + max(SECONDS_IN_ANY_CASE, BUILDS_AT_MOST * seconds)

    def each(self, items: Sequence[Item]) -> Iterator[Item]:
        """Gives the first one of these, and the others while there is time to ask for them."""
        for number, item in enumerate(items):
            if number and self.is_enough:
                break
            yield item

    @property
    def is_enough(self) -> bool:
        """Whether they have taken so long that no further one is to be asked."""
        return self.limit is not None and processor_time() > self.limit


def processor_time() -> float:
    """The processor time of all commands that have ended, in seconds."""
    used = resource.getrusage(resource.RUSAGE_CHILDREN)
    return used.ru_utime + used.ru_stime
