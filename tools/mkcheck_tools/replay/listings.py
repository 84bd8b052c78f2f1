"""In which order folders list their names, and how to lay files so that they are listed in an order
that is wanted. Many file systems list a folder as its files were made, or the other way round.
"""

from __future__ import annotations

import functools
import heapq
import os
import tempfile
from collections.abc import Iterable, Mapping, Sequence
from dataclasses import dataclass, field
from enum import Enum

from mkcheck_tools.answers.graphs import Ancestors
from mkcheck_tools.replay.orders import bounds
from mkcheck_tools.run.paths import Name, RealPath

# The names of a probe, in no order that a digest would give by chance.
PROBES = ("m", "c", "z", "a", "k", "x", "b")
# At most this many files that recipes made in one folder are laid in another order.
MOST = 2000


class Age(Enum):
    """How a file system lists a folder: as its files were made, the other way round, or neither."""

    OLDEST_FIRST = "oldest first"
    NEWEST_FIRST = "newest first"
    NEITHER = "neither"


def age_of(above: RealPath) -> Age:
    """How the file system of a folder lists, found by trying."""
    return tried(above, os.stat(above).st_dev)


@functools.lru_cache(maxsize=64)
def tried(above: RealPath, _: int) -> Age:
    """The same, kept for each folder and file system."""
    with tempfile.TemporaryDirectory(dir=above) as folder:
        for name in PROBES:
            with open(os.path.join(folder, name), "xb"):
                pass
        found = tuple(os.listdir(folder))
    if found == PROBES:
        return Age.OLDEST_FIRST
    return Age.NEWEST_FIRST if found == PROBES[::-1] else Age.NEITHER


@dataclass
class Listings:
    """Orders of names. `place` is where recipes ran, and `makers` has the targets whose recipes
    write a file or make a folder."""

    place: RealPath
    makers: Mapping[Name, Sequence[str]]
    ancestors: Ancestors
    ranks: dict[str, dict[str, int]] = field(default_factory=dict)
    """By folder the places of its names, as they are listed where recipes ran."""

    def rank(self, name: Name) -> tuple[int, Name]:
        """The place of a name in its folder; names that aren't there now come last."""
        folder, base = os.path.split(name)
        if folder not in self.ranks:
            try:
                names = os.listdir(os.path.join(self.place, folder))
            except OSError:
                names = []
            self.ranks[folder] = {one: number for number, one in enumerate(names)}
        known = self.ranks[folder]
        return (known.get(base, len(known)), name)

    def arranged(self, names: Iterable[Name], made: frozenset[Name], back: bool) -> list[Name]:
        """Names in the order in which they are to be listed, folders before what is in them: that
        of the recording, but with those that recipes made in another order; or all the other way
        round, if `back`.
        """
        groups: dict[str, list[Name]] = {}
        for name in sorted(names, key=self.rank):
            groups.setdefault(os.path.dirname(name), []).append(name)
        found: list[Name] = []
        for folder in sorted(groups, key=lambda one: (one.count("/") + (one != ""), one)):
            own = groups[folder]
            if back:
                found += reversed(own)
                continue
            moved = iter(self.otherwise([name for name in own if name in made]))
            found += [next(moved) if name in made else name for name in own]
        return found

    def otherwise(self, names: Sequence[Name]) -> list[Name]:
        """Names in an order that is as far from theirs as one may be. What is always made before
        another one keeps its place beside that, and so does what the same recipes made."""
        if len(names) < 2 or len(names) > MOST:
            return list(names)
        ranks = {name: number for number, name in enumerate(names)}
        after: dict[Name, set[Name]] = {name: set() for name in names}
        for name, others in bounds(ranks, self.made_by(names), self.ancestors).items():
            for other in others:
                first, second = sorted((name, other), key=ranks.__getitem__)
                after[first].add(second)
        last: dict[tuple[str, ...], Name] = {}
        for name in names:
            makers = tuple(self.makers.get(name, ()))
            if makers in last:
                after[last[makers]].add(name)
            last[makers] = name
        counts = dict.fromkeys(names, 0)
        for others in after.values():
            for other in others:
                counts[other] += 1
        ready = [(-ranks[name], name) for name, count in counts.items() if not count]
        heapq.heapify(ready)
        found: list[Name] = []
        while ready:
            _, name = heapq.heappop(ready)
            found.append(name)
            for other in after[name]:
                counts[other] -= 1
                if not counts[other]:
                    heapq.heappush(ready, (-ranks[other], other))
        return found

    def made_by(self, names: Sequence[Name]) -> dict[Name, Sequence[str]]:
        """The makers of names, each of which has some."""
        return {name: self.makers.get(name, (name,)) for name in names}


def as_laid(names: Sequence[Name], age: Age) -> list[Name]:
    """The order in which names are to be laid, so that their folders list them in this one. A
    folder still comes before what is in it."""
    if age != Age.NEWEST_FIRST:
        return list(names)
    groups: dict[str, list[Name]] = {}
    for name in names:
        groups.setdefault(os.path.dirname(name), []).append(name)
    return [name for own in groups.values() for name in reversed(own)]


def is_listed(names: Iterable[Name], listed: Iterable[Name]) -> bool:
    """Whether two of some names lie in one folder that is listed; `.` is the project's."""
    folders = {"" if folder == "." else folder for folder in listed}
    seen: set[str] = set()
    for name in names:
        folder = os.path.dirname(name)
        if folder in folders:
            if folder in seen:
                return True
            seen.add(folder)
    return False
