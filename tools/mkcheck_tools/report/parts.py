"""Parts of a page that several sections have."""

from __future__ import annotations

from collections.abc import Sequence
from dataclasses import dataclass

from mkcheck_tools.answers.findings import Group
from mkcheck_tools.report.escaping import clipped, counted, markup
from mkcheck_tools.report.pictures import width_of

# Up to this width a graph is shown on a narrow screen, too.
NARROW = 330
LINES_BYTES = 40_000


@dataclass
class Budget:
    """How many bytes of a kind a page may still take."""

    left: int

    def takes(self, text: str) -> bool:
        """Whether a text still fits; from the first one on that doesn't, none does."""
        size = len(text.encode("utf-8", "surrogateescape"))
        self.left = self.left - size if size <= self.left else 0
        return self.left > 0


def place_of(group: Group) -> str:
    """The place of a group, if it has one."""
    place = f"{group.file}:{group.line}" if group.line else group.file
    return f'<span class="place">{markup(clipped(place))}:</span> ' if place else ""


def look_of(svg: str) -> str:
    """How a graph is shown on a narrow screen: as it is, or as a list in its place."""
    return "plain" if not svg else "wide" if width_of(svg) > NARROW else "fits"


def clipped_lines(lines: Sequence[str]) -> str:
    """Lines as markup, as many as there is room for."""
    budget, shown = Budget(LINES_BYTES), []
    for line in lines:
        if not budget.takes(line):
            break
        shown.append(markup(line))
    more = len(lines) - len(shown)
    said = f"# {counted(more, 'more line')}: mkcheck check -w prints all" if more else ""
    return "\n".join([*shown, *filter(None, [said])])
