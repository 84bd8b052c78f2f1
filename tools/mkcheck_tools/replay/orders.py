"""Other orders of the stamps that files have which a recipe reads.

A file that a recipe makes is newer than what its target needs. All else may be older or newer than
it: another recipe made it sooner or later, or an edit came behind. Sources keep the order that they
have among themselves, since a clean build finds the same one; but amid other surroundings they have
another one, as a copy of the project may have. Files to which recipes gave stamps keep these, and
then sources do, too.
"""

from __future__ import annotations

import heapq
from collections.abc import Mapping, Sequence

from mkcheck_tools.answers.graphs import Ancestors
from mkcheck_tools.run.paths import Name

# Which stamps a recipe finds: those of the recording; the same ones in another order, of all files
# or of made ones alone; or of sources earlier ones, in the same order.
OLD, OTHER, OTHER_OF_MADE, EARLIER = "old", "other", "other of made", "earlier"
# How sources lie among themselves: as in the recording; the other way round, and older than most
# files elsewhere; or as in the recording, where no two have nearly the same stamp, and as late as
# may be.
KEPT, BACK, APART = "kept", "back", "apart"
DAY = 86_400_000_000_000
# Programs may compare whole seconds, and archives of zip have every other one.
LEAST_APART = 2_000_000_000
YEARS = 20 * 365 * DAY


def with_order(
    order: str,
    stamps: Mapping[Name, int],
    made: Mapping[Name, Sequence[str]],
    sources: Sequence[Name],
    ancestors: Ancestors,
) -> dict[Name, int]:
    """The new stamps of those files that get some. `made` has for each file that recipes made, and
    whose stamp they didn't choose, their targets."""
    moved = sources if len(sources) + len(made) == len(stamps) else ()
    if order == EARLIER:
        return {name: stamps[name] - DAY for name in moved}
    if order == OLD or not made:
        return {}
    names = [*made, *(moved if order == OTHER else ())]
    found = in_other_order({name: stamps[name] for name in names}, made, ancestors)
    return {name: stamp for name, stamp in found.items() if stamp != stamps[name]}


def among_themselves(stamps: Mapping[Name, int], way: str, latest: int) -> dict[Name, int]:
    """The stamps of sources, where these lie so among themselves. None gets a later one than the
    `latest`, which is no earlier than theirs."""
    names = sorted(stamps, key=lambda name: (stamps[name], name))
    found = [stamps[name] for name in names]
    if way == KEPT or not names:
        return dict(stamps)
    for place in reversed(range(len(found) - 1)):
        found[place] = min(found[place], found[place + 1] - LEAST_APART)
    if way == APART:
        moved = max(0, latest - LEAST_APART - found[-1])
        return dict(zip(names, (stamp + moved for stamp in found)))
    moved = YEARS if found[0] > YEARS + DAY else 0
    return dict(zip(reversed(names), (stamp - moved for stamp in found)))


def in_other_order(
    stamps: Mapping[Name, int], makers: Mapping[Name, Sequence[str]], ancestors: Ancestors
) -> dict[Name, int]:
    """The same stamps, in an order that is as far from theirs as one may be. `makers` has for each
    file that is no source the targets whose recipes made it."""
    before = bounds(stamps, makers, ancestors)
    after: dict[Name, list[Name]] = {}
    for name, others in before.items():
        for other in others:
            after.setdefault(other, []).append(name)
    counts = {name: len(others) for name, others in before.items()}
    ready = [rank(name, stamps, makers) for name, count in counts.items() if not count]
    heapq.heapify(ready)
    order: list[Name] = []
    while ready:
        name = heapq.heappop(ready)[-1]
        order.append(name)
        for other in after.get(name, ()):
            counts[other] -= 1
            if not counts[other]:
                heapq.heappush(ready, rank(other, stamps, makers))
    return dict(zip(order, sorted(stamps[name] for name in order)))


def rank(
    name: Name, stamps: Mapping[Name, int], makers: Mapping[Name, Sequence[str]]
) -> tuple[bool, int, Name]:
    """Where a file comes if nothing binds it: first those that recipes made, the newest first."""
    source = name not in makers
    return (source, stamps[name] if source else -stamps[name], name)


def bounds(
    stamps: Mapping[Name, int], makers: Mapping[Name, Sequence[str]], ancestors: Ancestors
) -> dict[Name, set[Name]]:
    """For each file those that are always older: all of their makers come before one of its own.

    So no two files are ever older than each other, also where a recipe writes what others made.
    """
    masks: dict[Name, int] = {}
    names: dict[int, list[Name]] = {}
    for name in stamps:
        bits = {ancestors.bits.get(target, 0) for target in makers.get(name, (name,))}
        masks[name] = sum(bits)
        for bit in filter(None, bits):
            names.setdefault(bit, []).append(name)
    known = sum(names)
    found: dict[Name, set[Name]] = {}
    for name in stamps:
        over = ancestors.union(makers.get(name, ()))
        above = over & known
        found[name] = set()
        while above:
            lowest = above & -above
            found[name].update(other for other in names[lowest] if not masks[other] & ~over)
            above ^= lowest
        found[name].discard(name)
    sources = sorted((name for name in stamps if name not in makers), key=lambda one: stamps[one])
    for older, newer in zip(sources, sources[1:]):
        found[newer].add(older)
    return found
