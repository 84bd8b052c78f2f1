"""Outputs that hold today's date, which a replay on the same day can't find."""

from __future__ import annotations

import time
from collections.abc import Iterator, Sequence

from mkcheck_tools.judge.notes import Kind, Note
from mkcheck_tools.replay.versions import FILE, LINK, Version
from mkcheck_tools.replay.worlds import Trial, World
from mkcheck_tools.run.paths import Name

# As C's __DATE__ and `date +%F` have it, and other usual ways, down to the month of a manual page.
FORMATS = (
    *("%b %e %Y", "%Y-%m-%d", "%Y%m%d", "%Y/%m/%d", "%d.%m.%Y", "%d/%m/%Y", "%m/%d/%Y", "%m/%d/%y"),
    *("%-d.%-m.%Y", "%d %b %Y", "%-d %b %Y", "%d-%b-%Y", "%b %d, %Y", "%b %-d, %Y"),
    *("%d %B %Y", "%-d %B %Y", "%B %d, %Y", "%B %-d, %Y", "%B %Y"),
)
BYTES_AT_MOST = 1 << 26


def dated(world: World, trial: Trial) -> Iterator[Note]:
    """A note for each output with the date of the recording, which nothing has that was read."""
    moments = (time.localtime(trial.begun), time.gmtime(trial.begun))
    texts = dict.fromkeys(time.strftime(form, moment) for moment in moments for form in FORMATS)
    target = trial.recipe.target
    for name in trial.writes:
        found = date_in(world, name, trial.after.get(name), texts)
        if found and not any(date_in(world, *read, {found: None}) for read in trial.before.items()):
            text = (
                f"the recipe of {target} writes today's date ({found}) into {name}: on another day"
                " it writes another one, and no make notices"
            )
            yield Note(target, Kind.DATE, text)


def without_told(notes: Sequence[Note], dates: Sequence[Note]) -> Iterator[Note]:
    """Notes without those on recipes that write other contents on another day, where these dates
    say so already."""
    told = {note.target for note in dates}
    for note in notes:
        if note.kind != Kind.CLOCK or note.target not in told:
            yield note


def date_in(world: World, name: Name, version: Version | None, texts: dict[str, None]) -> str:
    """The first of these texts that a file holds, or nothing. Very long files aren't searched."""
    if version is None or version.kind == LINK:
        return ""
    path, full = world.material(name, version)
    if full.kind != FILE:
        return ""
    with open(path, "rb") as file:
        content = file.read(BYTES_AT_MOST)
    return next((text for text in texts if text.encode() in content), "")
