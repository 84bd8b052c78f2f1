"""The second program by itself: which recipes of an old build it doubts."""

from __future__ import annotations

import random
from collections.abc import Iterator
from pathlib import Path

from cases import case_of
from compare import written
from judge import Finding, Subject
from lines import Refused
from reading import Files
from request import Disk, Request, Usage
from second import answered
from since import DOUBTS, Below, doubted, old_subject
from versions import Recipe, Version

SEED = 20261201
PAIRS = 600


def recipe(target: str, reads: str, prerequisites: str) -> Recipe:
    """A recipe that writes its target alone."""
    made = Recipe(f"make {target}", reads.split(), [target])
    made.prerequisites = prerequisites.split()
    return made


def version(*recipes: tuple[str, str, str], goals: str) -> Version:
    """A build with a source `s`: of each recipe the target, its reads, and its prerequisites."""
    made = Version()
    made.sources = ["s"]
    made.recipes = {target: recipe(target, reads, needs) for target, reads, needs in recipes}
    made.goals = goals.split()
    return made


def since(old: Version, new: Version, folder: Path) -> tuple[bytes, int]:
    """What `since` answers, and its status."""
    files = {
        b"old/makefile": old.makefile(),
        b"old/footprint.json": old.book(),
        b"makefile": new.makefile(),
        b"B": new.book(),
    }
    written(str(folder), files)
    return answered(["since", "old", "-b", "B"], Disk(str(folder)))


def test_a_reader_in_a_race_is_doubted_and_the_writer_is_not(tmp_path: Path) -> None:
    writer = ("w", "s", "s")
    old = version(writer, ("r", "w", ""), goals="w r")
    new = version(writer, ("r", "w", "w"), goals="w r")
    assert since(old, new, tmp_path) == (b"r\n", 0)


def test_doubts_go_on_to_all_that_is_made_from_a_doubted_file(tmp_path: Path) -> None:
    """`q` needs `b` too, but doesn't read it."""
    later = [("b", "a", "a"), ("c", "b", "b"), ("q", "s", "s b")]
    old = version(("a", "s", ""), *later, goals="c q")
    new = version(("a", "s", "s"), *later, goals="c q")
    assert since(old, new, tmp_path) == (b"a\nb\nc\n", 0)


def test_a_recipe_that_every_make_runs_races_without_a_stale_read(tmp_path: Path) -> None:
    writer = ("w", "s", "s")
    old = version(writer, ("r", "w", "force"), goals="r w")
    new = version(writer, ("r", "w", "w"), goals="r w")
    assert since(old, new, tmp_path) == (b"r\n", 0)
    again = version(writer, ("r", "w", "w force"), goals="r w")
    assert since(old, again, tmp_path) == (b"", 0)


def test_other_findings_are_told_as_before(tmp_path: Path) -> None:
    """Races and stale reads aren't told beside `own`."""
    old = version(("a", "s", ""), ("b", "b", ""), goals="a b")
    new = version(("a", "s", "s"), goals="a")
    told = b"no own b b\nthis is the old build, in old: begin with a clean build\n"
    assert since(old, new, tmp_path) == (told, 1)


def old_builds(folder: Path) -> Iterator[tuple[Files, list[str], Subject, list[Finding]]]:
    """The random pairs that are compared whose old build is read: the files, the words, the old
    build, and its findings."""
    for number in range(PAIRS):
        case = case_of(random.Random(f"{SEED} since {number}"), "since")
        written(str(folder), case.files)
        disk = Disk(str(folder))
        try:
            request = Request(list(case.words))
            old = old_subject(Below(disk, request.folder), request)
        except (Refused, Usage):
            continue
        yield disk, case.words, old, old.findings()


def reached(old: Subject, readers: list[bytes]) -> set[bytes]:
    """These recipes, and each that reads what one of them writes, from recipe to recipe."""
    met: set[bytes] = set()
    waiting = list(readers)
    while waiting:
        one = waiting.pop()
        if one not in met:
            met.add(one)
            files = set(old.writes(one))
            waiting += [other for other in old.recipes if files & set(old.reads(other))]
    return met


def test_random_doubts_are_those_that_are_reached_from_recipe_to_recipe(tmp_path: Path) -> None:
    for _, _, old, found in old_builds(tmp_path):
        if all(finding[0] in DOUBTS for finding in found):
            assert doubted(old, found) == reached(old, [finding[1] for finding in found])


def test_random_old_builds_are_often_doubted(tmp_path: Path) -> None:
    """Of the pairs a tenth is named over doubts at least. Other findings are there too."""
    named = others = races = 0
    for files, words, _, found in old_builds(tmp_path):
        kinds = {finding[0] for finding in found}
        others += not kinds <= set(DOUBTS)
        if found and kinds <= set(DOUBTS):
            races += b"race" in kinds
            named += answered(words, files)[1] == 0
    assert named >= PAIRS / 10 and others >= PAIRS / 20 and races >= PAIRS / 20
