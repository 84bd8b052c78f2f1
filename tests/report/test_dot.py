"""The graph as text for Graphviz."""

from __future__ import annotations

import re
import resource
import shutil
import subprocess
import unittest
from typing import Any

from report.project import ReportTest

MAKEFILE = """\
.PHONY: all
all: gen .WAIT x y
gen: ; mk
x: a
\tcp a x
y: a
\tcat a b > y
"""
RECORDS = [
    ("gen", ["mk"], ["/usr/bin/mk"], ["gen"]),
    ("x", ["cp a x"], ["a"], ["x"]),
    ("y", ["cat a b > y"], ["a", "b", "gen"], ["y"]),
]


class DotTest(ReportTest):
    """What `--dot` writes."""

    def graph(self, *words: str) -> tuple[dict[str, str], set[Any], set[Any]]:
        """The classes of the nodes by their labels, the edges with labels, and the red ones."""
        outcome = self.report("--dot", *words)
        self.assertEqual((outcome.status, outcome.errors), (0, ""))
        self.text = outcome.output
        nodes = {
            number: (label, look)
            for number, label, look in re.findall(
                r'^  (n\d+) \[label="(.*?)", class="(\w+)"', self.text, re.MULTILINE
            )
        }
        names = {number: label for number, (label, _) in nodes.items()}
        edges, red = set(), set()
        for one, other, said in re.findall(r"^  (n\d+) -> (n\d+)(.*);$", self.text, re.MULTILINE):
            if "color=red" in said and "style=dashed" in said:
                red.add((names[one], names[other]))
            else:
                label = re.search(r'label="(\d+)"', said)
                edges.add((names[one], names[other], label[1] if label else ""))
        return dict(nodes.values()), edges, red

    def test_all(self) -> None:
        """Recipes, a phony node, groups of .WAIT, and reads that aren't listed. A file that never
        changes is none of these."""
        self.build(MAKEFILE, RECORDS, ["a", "b"])
        nodes, edges, red = self.graph()
        self.assertEqual(
            nodes,
            {
                "all": "phony",
                "gen": "recipe",
                "x": "recipe",
                "y": "recipe",
                "a": "plain",
                "b": "file",
            },
        )
        self.assertEqual(
            edges,
            {
                ("all", "gen", "1"),
                ("all", "x", "2"),
                ("all", "y", "2"),
                ("x", "a", ""),
                ("y", "a", ""),
            },
        )
        self.assertEqual(red, {("y", "b"), ("y", "gen")})

    def test_goal(self) -> None:
        """A goal takes its part alone; gen is then written by nothing that is reached."""
        self.build(MAKEFILE, RECORDS, ["a", "b"])
        nodes, edges, red = self.graph("y")
        self.assertEqual(set(nodes), {"y", "a", "b"})
        self.assertEqual((edges, red), ({("y", "a", "")}, {("y", "b")}))

    def test_a_change_that_arrives_another_way_is_grey(self) -> None:
        """c reads a, which reaches it over b: a yes has no red arrow."""
        records = [("b", ["cp a b"], ["a"], ["b"]), ("c", ["cat a b > c"], ["a", "b"], ["c"])]
        self.build("c: b\n\tcat a b > c\nb: a\n\tcp a b\n", records, ["a"])
        _, edges, red = self.graph()
        self.assertEqual(red, set())
        self.assertEqual(edges, {("c", "b", ""), ("b", "a", ""), ("c", "a", "")})
        self.assertIn('[style=dashed, color=gray40, class="unlisted"]', self.text)

    def chain(self, recipes: int, folders: int = 1) -> None:
        """Writes a program of objects, each of one source, and with a header of the first one that
        nobody lists."""
        objects = [f"d{one % folders}/o{one}.o" for one in range(recipes)]
        sources = [name.replace(".o", ".c") for name in objects]
        rules = [f"{one}: {other}\n\tcc {other}\n" for one, other in zip(objects, sources)]
        records = [
            (one, [f"cc {other}"], [other, *(["d0/h.h"] if one == objects[0] else [])], [one])
            for one, other in zip(objects, sources)
        ]
        records.append(("prog", ["ld"], objects, ["prog"]))
        rules.insert(0, f"prog: {' '.join(objects)}\n\tld\n")
        self.build("".join(rules), records, [*sources, "d0/h.h"])

    def test_over_300_names_recipes_alone(self) -> None:
        """And the header that a finding is about; --whole has all."""
        self.chain(200)
        outcome = self.report("--dot")
        said = (
            "The graph has 402 names, so this is a smaller one: its 202 names with recipes or"
            " findings."
        )
        self.assertEqual(outcome.errors, f"mkcheck-report: {said} --whole writes the whole one.\n")
        self.assertIn(f'label="{said}"', outcome.output)
        self.assertEqual(outcome.output.count(" -> "), 201)
        self.assertIn('label="d0/h.h", class="file"', outcome.output)
        self.assertNotIn("o1.c", outcome.output)
        whole = self.report("--dot", "--whole")
        self.assertEqual((whole.errors, whole.output.count(" -> ")), ("", 401))

    def test_over_300_recipes_folders(self) -> None:
        """An arrow says how many prerequisites it stands for; a finding is red here too."""
        self.chain(400, folders=4)
        outcome = self.report("--dot")
        self.assertIn(" its 5 folders; each arrow says for how many ", outcome.output)
        self.assertEqual(outcome.output.count('class="folder"'), 5)
        self.assertEqual(outcome.output.count('[label="100"]'), 4)
        self.assertEqual(outcome.output.count("color=red"), 1)

    @unittest.skipUnless(shutil.which("dot"), "no Graphviz (dot)")
    def test_graphviz_draws_a_large_graph_in_time(self) -> None:
        """Of 3,000 rules, in ten seconds of a processor."""
        self.chain(3000, folders=150)
        text = self.report("--dot").output
        before = resource.getrusage(resource.RUSAGE_CHILDREN).ru_utime
        subprocess.run(["dot", "-Tsvg"], input=text.encode(), capture_output=True, check=True)
        self.assertLess(resource.getrusage(resource.RUSAGE_CHILDREN).ru_utime - before, 10)

    def test_a_page_has_a_smaller_graph_too(self) -> None:
        """With the sentence that says so."""
        self.chain(400, folders=4)
        page = self.page(1)
        self.assertIn("so this is a smaller one: its 5 folders;", page.text)

    def test_refused(self) -> None:
        """What is refused has no graph."""
        self.build("a: b\nb: a\n", [], [])
        self.assertIn("refused 42 a b a", self.fault("--dot"))

    @unittest.skipUnless(shutil.which("dot"), "no Graphviz (dot)")
    def test_graphviz_reads_it(self) -> None:
        """Graphviz gives each node the name that it has."""
        odd = "x<i>&amp;\\N\"'.h"
        self.build("y: a\n\tcp a y\n", [("y", ["cp a y"], ["a", odd], ["y"])], ["a", odd])
        self.graph()
        done = subprocess.run(
            ["dot", "-Tplain"], input=self.text, capture_output=True, text=True, check=False
        )
        self.assertEqual((done.returncode, done.stderr), (0, ""))
        svg = subprocess.run(
            ["dot", "-Tsvg"], input=self.text, capture_output=True, text=True, check=False
        ).stdout
        self.assertIn("x&lt;i&gt;&amp;amp;\\N&quot;&#39;.h", svg)
