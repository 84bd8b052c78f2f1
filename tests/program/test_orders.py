"""Certificates whose entries stand in other orders, are repeated, or are wrong behind others that
are right.

`verify` looks for each entry first behind the one that it found last, and takes the likely recipe
on a path, so what it answers has to be the same however entries stand.
"""

from __future__ import annotations

import json
from collections.abc import Iterator
from pathlib import Path

import pytest
from program.runs import Run, assert_answers, footprints

Way = dict[str, object]

MAKEFILE = "p: a.o b.o\n\tlink\na.o: a.c\n\tcc a\nb.o: gen.h b.c\n\tcc b\ngen.h: gen.in\n\tgen\n"
RECORDS = (
    "p: a.o b.o gen.in gen.h a.c > p = link; a.o: a.c > a.o = cc a; "
    "b.o: b.c gen.h > b.o = cc b; gen.h: gen.in > gen.h = gen"
)


def way(file: str, end: str, *path: str) -> Way:
    """The entry of the first recipe of a path for a file."""
    return {"recipe": path[0], "file": file, "end": end, "path": list(path)}


# By the serial order of the recipes, and the place of the file in its record. The paths of `p` lead
# over its second prerequisite too, where the first one is the likely one.
RIGHT = [
    way("a.c", "source", "a.o"),
    way("gen.in", "source", "gen.h"),
    way("b.c", "source", "b.o"),
    way("gen.h", "written", "b.o", "gen.h"),
    way("a.o", "written", "p", "a.o"),
    way("b.o", "written", "p", "b.o"),
    way("gen.in", "source", "p", "b.o", "gen.h"),
    way("gen.h", "written", "p", "b.o", "gen.h"),
    way("a.c", "source", "p", "a.o"),
]
# Entries that are never good: over a recipe that isn't carried, or that carries nothing; of a file
# that another recipe reads, that none reads, that no recipe has; from a name without a recipe; by
# another end.
WRONG = [
    way("gen.in", "source", "p", "a.o", "gen.h"),
    way("gen.in", "source", "p", "gen.h"),
    way("gen.h", "written", "p", "b.o", "a.o"),
    way("b.c", "source", "a.o"),
    way("a.o", "written", "b.o", "a.o"),
    way("z", "source", "a.o"),
    way("a.c", "source", "a.c"),
    way("gen.h", "source", "b.o", "gen.h"),
    way("gen.h", "written", "b.o"),
    way("a.c", "always", "a.o"),
]


def swapped(place: int) -> list[Way]:
    """The entries, with the one at a place behind the next one."""
    return [*RIGHT[:place], RIGHT[place + 1], RIGHT[place], *RIGHT[place + 2 :]]


def bad(ways: list[Way], one: Way) -> tuple[list[Way], str]:
    """These entries, and that this one is bad."""
    return ways, f"refused 75 {one['recipe']} {one['file']}\n"


def rows() -> Iterator[tuple[list[Way], str]]:
    """Entries, and what is printed of them."""
    yes = "yes 4 recipes 9 reads\n"
    yield RIGHT, yes
    yield RIGHT[::-1], yes
    for place in range(len(RIGHT) - 1):
        yield swapped(place), yes
        yield [*RIGHT[place + 1 :], *RIGHT[: place + 1]], yes
    for place, one in enumerate(RIGHT):
        yield bad([*RIGHT[: place + 1], one, *RIGHT[place + 1 :]], one)
        yield bad([*RIGHT, one], one)
        yield [*RIGHT[:place], *RIGHT[place + 1 :]], f"refused 74 {one['recipe']} {one['file']}\n"
    for one in WRONG:
        for place in range(len(RIGHT) + 1):
            ways = [
                other
                for other in RIGHT[:place]
                if (other["recipe"], other["file"]) != (one["recipe"], one["file"])
            ]
            yield bad([*ways, one, *RIGHT[place:]], one)


@pytest.mark.parametrize("ways, printed", rows())
def test_entries_may_stand_in_any_order(ways: list[Way], printed: str, tmp_path: Path) -> None:
    """Right entries in any order are accepted, and a wrong one is told wherever it stands."""
    book = footprints("a.c b.c gen.in", RECORDS)
    certificate = json.dumps({"format": 1, "goals": ["p"], "ways": ways})
    files = {"makefile": MAKEFILE, "B": book, "C": certificate}
    status = 0 if printed.startswith("yes") else 2
    assert_answers(Run(["verify", "-b", "B", "-k", "C"], status, printed, files=files), tmp_path)
