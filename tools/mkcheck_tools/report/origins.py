"""Where the names of a translated makefile stand in the original ones, as an import left it."""

from __future__ import annotations

import json
import os
import posixpath
from collections.abc import Iterable, Iterator
from dataclasses import dataclass, field, replace
from pathlib import Path
from typing import Any

from mkcheck_tools.answers.findings import Group
from mkcheck_tools.gnu.rule_lines import rule_line
from mkcheck_tools.report.makefiles import Makefiles

MAP = "map.json"


@dataclass(frozen=True)
class Origins:
    """The names of a translated makefile, each with its makefile, line, folder and name there."""

    nodes: dict[str, dict[str, Any]]
    makefiles: Makefiles = field(default_factory=lambda: Makefiles({}))

    @classmethod
    def beside(cls, makefile: str) -> Origins | None:
        """The origins that lie beside a translated makefile; None where there are none."""
        path = Path(os.path.dirname(makefile), MAP)
        try:
            nodes = json.loads(path.read_text(encoding="utf-8", errors="surrogateescape"))["nodes"]
            is_map = all("stands_for" in node and "folder" in node for node in nodes.values())
        except (OSError, ValueError, KeyError, TypeError, AttributeError):
            return None
        return cls(nodes) if is_map else None

    def place(self, names: Iterable[str]) -> tuple[str, int | None] | None:
        """The makefile and the line of the rule of the first of some names whose place is known."""
        known = (self.nodes.get(name, {}) for name in names)
        node = next((one for one in known if one.get("makefile")), None)
        if node is None:
            return None
        lines = self.makefiles.lines(node["makefile"])
        return node["makefile"], rule_line(lines, node["line"])

    def at_origins(self, groups: Iterable[Group]) -> Iterator[Group]:
        """Groups, each at the rule of the first of its targets whose place is known."""
        for group in groups:
            place = self.place(group.targets)
            yield group if place is None else replace(group, file=place[0], line=place[1])

    def lines(self, adds: Iterable[str]) -> dict[str, list[str]]:
        """Lines to add as the original makefiles have their names, by makefile: those of targets
        whose makefile isn't known are under an empty name."""
        found: dict[str, dict[str, None]] = {}
        for line in adds:
            targets, _, words = line.partition(": ")
            together: dict[tuple[str, str], list[str]] = {}
            for target in targets.split(" "):
                node = self.nodes.get(target, {})
                key = node.get("makefile") or "", node.get("folder") or "."
                together.setdefault(key, []).append(node.get("name") or target)
            for (makefile, folder), names in together.items():
                needed = (self.word(word, folder) for word in words.split(" "))
                text = f"{' '.join(names)}: {' '.join(needed)}"
                found.setdefault(makefile, {})[text] = None
        return {makefile: list(lines) for makefile, lines in found.items()}

    def word(self, name: str, folder: str) -> str:
        """A name as a makefile that is read in a folder has it."""
        node = self.nodes.get(name, {})
        if node and (node.get("folder") or ".") == folder:
            return str(node.get("name") or name)
        if name.startswith("/") or folder == ".":
            return name
        return posixpath.relpath(name, folder)

    @property
    def original(self) -> str:
        """The makefile that has the most names; nothing where none is known."""
        named = [node["makefile"] for node in self.nodes.values() if node.get("makefile")]
        return max(dict.fromkeys(named), key=named.count, default="")
