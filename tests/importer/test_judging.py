"""What `mkcheck` says of a translated makefile before there are footprints."""

from __future__ import annotations

import os
import tempfile
import unittest

from importer.make_folder import MKCHECK, can_judge

from mkcheck_tools.faults import Fault
from mkcheck_tools.imports.builds import Build, Command, Node
from mkcheck_tools.imports.judging import Judge
from mkcheck_tools.run.paths import RealPath
from mkcheck_tools.run.places import Place


@can_judge
class GraphTest(unittest.TestCase):
    """The graph of a build, or why there is none."""

    def graph(self, **needs: str) -> str:
        """A word on the graph of a build in which each name has a recipe, and needs these."""
        folder = tempfile.TemporaryDirectory()
        self.addCleanup(folder.cleanup)
        nodes = {
            name: Node(name, groups=[words.split()], commands=[Command(f"touch {name}")])
            for name, words in needs.items()
        }
        build = Build(folder.name, goals=list(needs)[:1], nodes=nodes)
        place = Place.of(RealPath(folder.name))
        judge = Judge(build, place, folder.name, MKCHECK, {**os.environ})
        judge.write_makefiles()
        return judge.graph(False)

    def test_counts_names_and_recipes(self) -> None:
        self.assertEqual(self.graph(a="b c", b="c"), "3 nodes, 2 recipes")

    def test_a_cycle_is_named(self) -> None:
        """Sources that the rules need beside it are none of the reason."""
        with self.assertRaises(Fault) as raised:
            self.graph(a="b", b="c x", c="b y")
        said = str(raised.exception)
        self.assertEqual(said, "the prerequisites of the build form a cycle: b c b")
