"""Sentences on findings that builds of GNU make seldom have: a unit test."""

from __future__ import annotations

import unittest

from mkcheck_tools.book.footprint_files import Footprints, Record
from mkcheck_tools.imports.builds import Build, Command, Node, Origin
from mkcheck_tools.imports.judging import BuildFinding
from mkcheck_tools.imports.sentences import Sentences


def said(finding: BuildFinding, writes: dict[str, list[str]]) -> list[str]:
    """What is said of a finding in a build whose makefile names these targets in this order, each
    with what its recipe writes."""
    nodes = {
        name: Node(name, known_as=name, commands=[Command("mk")], origin=Origin("Makefile", line))
        for line, name in enumerate(writes, 1)
    }
    records = {name: Record(name, ["mk"], [], files) for name, files in writes.items()}
    build = Build("/project", tool="GNU Make 4.3", goals=list(writes)[:1], nodes=nodes)
    sentences = Sentences(build, Footprints(records=records), has_first=False)
    return sentences.texts([finding])


class SentencesTest(unittest.TestCase):
    """Findings that a line mends, and findings for which there is none."""

    def test_an_unknown_file_of_a_recipe_that_the_build_does_not_run(self) -> None:
        finding = BuildFinding("unknown", ("main.o", "version.h"), True, True, "version.h")
        writes = {"main.o": ["main.o"], "version.h": ["version.h"]}
        self.assertEqual(
            said(finding, writes)[:4],
            [
                "Makefile:1: the recipe of main.o reads version.h, which the recipe of version.h"
                " makes, and this build doesn't run that; let main.o need version.h",
                "",
                "Add to Makefile:",
                "    main.o: version.h",
            ],
        )

    def test_an_unknown_file_that_two_such_recipes_write(self) -> None:
        finding = BuildFinding("unknown", ("main.o", "y.tab.h"), True, True)
        writes = {"main.o": ["main.o"], "a": ["a", "y.tab.h"], "b": ["b", "y.tab.h"]}
        (sentence,) = said(finding, writes)[:1]
        self.assertEqual(
            sentence,
            "Makefile:1: the recipe of main.o reads y.tab.h, which the recipes of a and b write,"
            " and this build runs neither; let main.o need the one that is meant",
        )

    def test_an_unknown_file_that_nothing_makes(self) -> None:
        finding = BuildFinding("unknown", ("main.o", "x.h"), True, True)
        lines = said(finding, {"main.o": ["main.o"]})
        self.assertIn("reads x.h, which isn't a file of the project", lines[0])
        self.assertNotIn("Add to Makefile:", lines)

    def test_a_target_without_recipe_that_its_writer_needs(self) -> None:
        """A line would close a cycle, so none is advised."""
        finding = BuildFinding("loose", ("v", "prog"), True, True)
        lines = said(finding, {"prog": ["prog", "v"], "v": []})
        self.assertEqual(
            lines[0],
            "Makefile:2: v has no recipe, and the one of prog (Makefile:1) writes it, though it is"
            " a prerequisite of prog; give v a recipe of its own, or take it out of these"
            " prerequisites",
        )
        self.assertNotIn("Add to Makefile:", lines)

    def test_a_target_without_recipe_that_nothing_orders(self) -> None:
        finding = BuildFinding("loose", ("v", "prog"), True, True, "prog")
        lines = said(finding, {"prog": ["prog", "v"], "v": []})
        self.assertIn("v has no recipe, the one of prog (Makefile:1) writes it, and no", lines[0])
        self.assertIn("    v: prog", lines)
