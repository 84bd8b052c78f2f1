"""The lines of makefiles, and where a word stands in one."""

from __future__ import annotations

import os
import re
from dataclasses import dataclass, field

from mkcheck_tools.audit.verdicts import Spot


@dataclass
class Sources:
    """The texts of files below a project's folder, each read once."""

    root: str
    texts: dict[str, str] = field(default_factory=dict)

    def line(self, spot: Spot) -> str | None:
        """The line of a place; None where there is none."""
        if spot.line is None:
            return None
        lines = self.lines(spot.file)
        return lines[spot.line - 1] if 1 <= spot.line <= len(lines) else None

    def lines(self, name: str) -> list[str]:
        """The lines of a file, without their ends; none where it can't be read."""
        return [line.removesuffix("\r") for line in self.text(name).split("\n")]

    def text(self, name: str) -> str:
        """The text of a file, with surrogates for bytes that aren't UTF-8; nothing where it can't
        be read."""
        if name not in self.texts:
            try:
                with open(os.path.join(self.root, name), "rb") as file:
                    self.texts[name] = file.read().decode("utf-8", "surrogateescape")
            except OSError:
                self.texts[name] = ""
        return self.texts[name]


def mark_of(line: str, targets: tuple[str, ...]) -> tuple[int, int]:
    """Where the mark belongs under a line, and how long it is: under a target, as the line has it,
    else under all that stands before the colon."""
    for target in targets:
        names = dict.fromkeys([target, os.path.basename(target)])
        for name in filter(None, names):
            found = re.search(rf"(?<![\w./%-]){re.escape(name)}(?![\w./%-])", line)
            if found is not None:
                return found.start(), len(name)
    start = len(line) - len(line.lstrip())
    front = line[start:].partition(":")[0].rstrip()
    return start, max(len(front), 1)
