"""Removals of files that aren't there, by recipes that are always done before these are made.

A footprint has what a recipe takes away as written, also where nothing was there, since another
recipe may make it. Where that one always comes later, and is always run again then, as where a
first build begins with `rm -f`, the removal disturbs nobody.
"""

from __future__ import annotations

from collections.abc import Iterable, Mapping

from mkcheck_tools.book.footprint_files import Footprints
from mkcheck_tools.book.states import Entry
from mkcheck_tools.imports.builds import Build, Kind
from mkcheck_tools.imports.ordering import Order
from mkcheck_tools.judge.sharing import matches


def drop_removals(build: Build, footprints: Footprints, recordings: Mapping[str, Entry]) -> None:
    """Takes such removals out of the footprints; `recordings` has what the recorder knows of
    recipes, by the names of their nodes."""
    removed = {
        record.target: found
        for record in footprints.records.values()
        if (found := removed_by(record.writes, recordings.get(record.target)))
    }
    if not removed:
        return
    first = First(build)
    writers = footprints.writers
    for target, names in removed.items():
        gone = set()
        for name in names:
            others = [one for one in writers.get(name, []) if name not in removed.get(one, ())]
            if others and all(first.is_begun_anew(target, one, name) for one in others):
                gone.add(name)
        record = footprints.records[target]
        record.writes = [name for name in record.writes if name not in gone]


def removed_by(writes: list[str], entry: Entry | None) -> set[str]:
    """What a recipe would have removed, of the files that its footprint has as written: it wasn't
    there, and may be one of a pattern of the shell."""
    if entry is None:
        return set()
    own = entry.footprint
    names = {*writes} - {*own.writes} - own.scratch - own.lost - own.made
    return {name for name in names if any(matches(one, name) for one in own.missed)}


def cleared_by(build: Build, recordings: Mapping[str, Entry], target: str) -> frozenset[str]:
    """The names and patterns of files that phony recipes take away, or look for to do so, which are
    always done before the recipe of a phony target: they run in each build in which that one does.
    """
    order, found = Order(build), set[str]()
    for name, entry in recordings.items():
        node = build.nodes.get(name)
        if node is not None and node.kind is Kind.PHONY and order.is_before(name, target):
            found |= entry.footprint.missed | entry.footprint.lost
    return frozenset(found)


def is_begun_without(recordings: Mapping[str, Entry], target: str, cleared: Iterable[str]) -> bool:
    """Whether none of the files is there that a recipe writes when it begins: all are taken away
    before, and no other recipe writes them."""
    entry = recordings.get(target)
    others = [one for name, one in recordings.items() if name != target]
    written = {name for one in others for name in one.footprint.writes}
    return entry is not None and all(
        name not in written and any(matches(pattern, name) for pattern in cleared)
        for name in entry.footprint.writes
    )


class First:
    """The first build: what comes before what there, and what is made again after what."""

    def __init__(self, build: Build) -> None:
        self.build, self.order = build, Order(build)
        self.known: dict[str, set[str]] = {}

    def is_begun_anew(self, earlier: str, later: str, name: str) -> bool:
        """Whether a recipe that takes a file away is always done when another one begins, and
        whether that one is always run then: the file is its target, at which make doesn't look
        before, or it is phony, or it needs the former."""
        bit, node = self.order.bit.get(earlier, 0), self.build.nodes.get(later)
        if node is not None and self.order.before.get(later, 0) & bit:
            if node.kind is Kind.PHONY or later.partition("@make")[0] == name:
                return True
        return self.order.is_before(earlier, later) and earlier in self.followed(later)

    def followed(self, name: str) -> set[str]:
        """All after which a target is made again in the first build."""
        if name not in self.known:
            found: set[str] = set()
            waiting = [name]
            while waiting:
                node = self.build.nodes.get(waiting.pop())
                if node is None or node.kind is Kind.ORDER:
                    continue
                words = {word for group in node.groups for word in group} - found
                found |= words
                waiting += words
            self.known[name] = found
        return self.known[name]
