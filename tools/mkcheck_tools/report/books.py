"""The footprints that count for a graph: what each reached recipe reads and writes."""

from __future__ import annotations

from collections.abc import Collection
from dataclasses import dataclass

from mkcheck_tools.answers.graphs import Graph
from mkcheck_tools.book.footprint_files import Record, read_footprints


@dataclass(frozen=True)
class Reached:
    """The footprints that count for a graph: the fixed prefixes, the sources, the records of
    reached recipes by target, and for each file the targets whose recipes write it."""

    fixed: tuple[str, ...]
    sources: frozenset[str]
    records: dict[str, Record]
    writers: dict[str, list[str]]

    @property
    def reads(self) -> int:
        """How many reads the records have."""
        return sum(len(record.reads) for record in self.records.values())

    def reads_of(self, files: Collection[str]) -> int:
        """How many of these are of some files."""
        return sum(file in files for record in self.records.values() for file in record.reads)

    def can_change(self, name: str) -> bool:
        """Whether a file is a source, or a recipe writes it."""
        return not name.startswith(self.fixed) and (name in self.sources or name in self.writers)

    def provider(self, name: str, graph: Graph) -> str:
        """What has to be a prerequisite for a file: it, or the target whose recipe writes it."""
        if name in self.sources or name in graph.nodes:
            return name
        return next(iter(self.writers.get(name, [])), name)


def book_of(path: str, graph: Graph) -> Reached:
    """The footprints that count for a graph."""
    found = read_footprints(path, graph.goals)
    recipes = [node.name for node in graph.nodes.values() if node.recipe]
    found.records = {name: found.records[name] for name in recipes if name in found.records}
    return Reached(tuple(found.fixed), frozenset(found.sources), found.records, found.writers)
