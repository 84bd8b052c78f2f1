"""What the recorder says of a translated build, beside the footprints."""

from __future__ import annotations

from collections.abc import Mapping
from dataclasses import dataclass, field

from mkcheck_tools.book.note_files import Noted
from mkcheck_tools.judge.notes import QUIET


@dataclass(frozen=True)
class Recorded:
    """What the recorder says."""

    unrecorded: Mapping[str, str] = field(default_factory=dict)
    """Recipes that it could not record, each with what it says of it."""

    noted: Noted = Noted()

    waited: Mapping[str, list[str]] = field(default_factory=dict)
    """Recipes that fail where they don't wait for what other recipes make later, and that were
    recorded behind these: for each what was said of it, and these targets."""

    looked: Mapping[str, list[str]] = field(default_factory=dict)
    """For each recipe the folders at which it looked, of those that the build makes; with a `/`
    behind it one whose names it read."""

    @property
    def warnings(self) -> list[str]:
        """The lines by which its notes are told."""
        return [note.told for note in self.noted.notes if note.kind not in QUIET]

    @property
    def doubts(self) -> int:
        """How many notes say why a yes may be wrong."""
        return len(self.noted.doubts)
