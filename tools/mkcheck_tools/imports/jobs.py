"""How many jobs a make has: by its words, or by what its makefiles say in the macro MAKEFLAGS."""

from __future__ import annotations

import re
from collections.abc import Mapping, Sequence
from pathlib import Path

from mkcheck_tools.imports.database import OWN
from mkcheck_tools.run.places import Place, run

# An option that tells how many jobs a make has, perhaps behind others without a value.
JOBS = re.compile(r"(?:-[^-CfIoWEl=]*?j|--jobs=?)(\d*)")
# A line of a makefile that may say it.
SAYING = re.compile(rb"MAKEFLAGS\b.*j")
# What make hands down to the makes below, in front of macros.
HANDED_DOWN = re.compile(r"(?<!\S)(?:-j\d*|--jobserver-\S+)(?!\S)")
VALUE = re.compile(r"(?m)^MAKEFLAGS :?= ?(.*)$")
# A goal that does nothing, so that make only reads its makefiles.
NOTHING = f"{OWN}nothing"


def jobs_of(words: Sequence[str]) -> int | None:
    """How many jobs a make has by its words: 0 where these are as many as there can be, and None
    where no word tells that."""
    found = None
    waiting = False
    for word in words:
        if waiting and word.isdigit():
            found = int(word)
        match = JOBS.fullmatch(word)
        waiting = match is not None and not match.group(1)
        if match is not None:
            found = int(match.group(1) or 0)
    return found


def may_say_jobs(paths: Sequence[str]) -> bool:
    """Whether one of these makefiles may say how many jobs its make has."""
    for path in paths:
        try:
            text = Path(path).read_bytes()
        except OSError:
            continue
        if SAYING.search(text):
            return True
    return False


def jobs_by_makefiles(
    command: Sequence[str], goals: str, place: Place, environment: Mapping[str, str]
) -> int | None:
    """How many jobs the makefiles of a make say that it has, as `jobs_of` tells it. The command
    starts that make without its goals and without an option for jobs: then GNU make takes what a
    makefile adds to MAKEFLAGS, and shows it in its data base."""
    flags, dashes, macros = environment.get("MAKEFLAGS", "").partition(" -- ")
    more = {
        "MAKEFLAGS": HANDED_DOWN.sub("", flags) + dashes + macros,
        **{f"MKIMPORT_{name}": "/dev/null" for name in ("OUT", "ERR", "ENV")},
    }
    words = [*command, "-npq", f"--eval={NOTHING}: ;", f"MAKECMDGOALS={goals}", NOTHING]
    ended = run(words, place, {**environment, **more})
    value = VALUE.search(ended.output)
    return None if value is None else jobs_of(value.group(1).partition(" -- ")[0].split())
