"""What a footprint file holds for one set of goals, and how it is read; `formats` writes it."""

from __future__ import annotations

import json
from dataclasses import dataclass, field
from pathlib import Path

from mkcheck_tools.faults import Fault


@dataclass
class Record:
    """What one recipe reads and writes."""

    target: str
    commands: list[str]
    reads: list[str]
    writes: list[str]


@dataclass
class Footprints:
    """Records by their targets, with what they presume: the fixed prefixes and the sources."""

    fixed: list[str] = field(default_factory=list)
    sources: list[str] = field(default_factory=list)
    records: dict[str, Record] = field(default_factory=dict)
    goals: list[str] = field(default_factory=list)
    """The goals, where they are known: format 1 serves any."""

    def is_fixed(self, name: str) -> bool:
        """Whether a file never changes."""
        return name.startswith(tuple(self.fixed))

    @property
    def writers(self) -> dict[str, list[str]]:
        """For each file that recipes write their targets."""
        found: dict[str, list[str]] = {}
        for record in self.records.values():
            for name in record.writes:
                found.setdefault(name, []).append(record.target)
        return found


def read_footprints(path: str, goals: list[str] | None = None) -> Footprints:
    """The footprints in a file of format 1 or 2; of the latter the first group, or that of these
    goals."""
    try:
        values = json.loads(Path(path).read_text(encoding="utf-8"))
        lists = values.get("lists", {})
        groups = [values] if values["format"] == 1 else values["groups"]
        if goals is not None and values["format"] != 1:
            groups = [group for group in groups if group["goals"] == goals]
        records = groups[0]["records"]
        found = Footprints(values["fixed"], values["sources"], goals=groups[0].get("goals", []))
        for value in records:
            shared = [name for word in value.get("shared", []) for name in lists[word]]
            reads = list(dict.fromkeys([*value["reads"], *shared]))
            record = Record(value["target"], value["commands"], reads, value["writes"])
            found.records[record.target] = record
    except (OSError, ValueError, LookupError, TypeError, AttributeError) as error:
        raise Fault(f"{path} can't be read as footprints: {error}") from None
    return found
