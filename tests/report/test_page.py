"""The page of a yes, a no and a refusal."""

from __future__ import annotations

import math
import re
import shutil
import unittest

from mkcheck_tools.report.style import STYLE
from report.project import HIDING, RACE, RACE_BOOK, RACE_SOURCES, ROOT, ReportTest

drawn = unittest.skipUnless(shutil.which("dot"), "no Graphviz (dot)")


class RaceTest(ReportTest):
    """The build of the README: a race and a stale read, by its rules."""

    def setUp(self) -> None:
        super().setUp()
        self.race()

    def test_says_no_and_where(self) -> None:
        """Both findings stand at line 5 in one panel, whose rule gets the missing word."""
        page = self.page(1)
        self.assertIn("2 findings in 1 group", page.text)
        self.assertEqual(page.text.count("makefile:5"), 1)
        self.assertEqual(page.inserted, ["version.h"])
        self.assertEqual(self.raw.count('class="panel"'), 1)
        self.assertIn("but doesn't depend on it: with several jobs it may be missing", page.text)
        self.assertIn("stand with that race, above", page.text)
        self.assertLess(self.raw.index('<h2 id="race">'), self.raw.index('<h2 id="stale">'))

    def test_shows_bare_findings(self) -> None:
        """The lines of `check`, with their numbers."""
        text = self.page(1).text
        self.assertIn("1: no race main.o version.h version.h", text)
        self.assertIn("2: no stale main.o version.h", text)

    def test_timelines(self) -> None:
        """In the race version.h isn't done; in the second build main.o is passed."""
        page = self.page(1)
        self.assertIn("A schedule that shows finding 1", page.text)
        self.assertIn("A schedule that shows finding 2", page.text)
        self.assertIn("reads version.h\n", page.text)
        self.assertIn("not done", page.text)
        self.assertIn("passed: make sees no reason to run it", page.text)
        self.assertIn("main.o is still of the old version.h", page.text)
        self.assertEqual(self.raw.count('class="time" role="img"'), 2)

    def test_repair(self) -> None:
        """One line mends both: it stands on top."""
        text = self.page(1).text
        top = text[: text.index("race: ")]
        self.assertIn("What to do", top)
        self.assertIn("with them the answer is yes", top)
        self.assertIn("\nmain.o: version.h\n", top)

    def test_list_in_place_of_graph(self) -> None:
        """Without Graphviz there is a list."""
        page = self.page(1, PATH=str(self.folder))
        self.assertNotIn('class="graph"', self.raw)
        self.assertIn('class="around plain"', self.raw)
        self.assertIn("version.h\n (not listed)", page.text)
        self.assertIn("The whole graph", page.text)

    @drawn
    def test_graph(self) -> None:
        """With Graphviz there are two: around what is missing, and the whole. What the lines of
        the whole mean stands below it."""
        page = self.page(1)
        self.assertEqual(self.raw.count('class="graph" role="img"'), 2, "graphs")
        self.assertIn("The whole graph", page.text)
        self.assertIn("5 names", page.text)
        self.assertEqual(self.raw.count('class="edge missing"'), 2)
        self.assertIn('aria-label="A graph of 5 names: main.o lacks version.h"', self.raw)
        self.assertIn("What main.o lacks is dashed and red.", page.text)
        below = page.text[page.text.index("The whole graph") :]
        self.assertIn("a prerequisite\na finding: read, and missing\n", below)

    def test_explains(self) -> None:
        """What `explain` prints stands folded in the page."""
        page = self.page(1)
        self.assertIn("details", page.tags)
        self.assertRegex(page.text, r"What \nrace\n means")
        self.assertRegex(page.text, r"What \nstale\n means")

    def test_goal_and_macro(self) -> None:
        """Goals and macros are those of the command line."""
        text = self.page(1, "main.o", "CC=gcc").text
        self.assertIn("Goals\nmain.o\n", text)
        self.assertIn("CC=gcc", text)


class YesTest(ReportTest):
    """A build that is right."""

    def setUp(self) -> None:
        super().setUp()
        self.race()
        makefile = self.folder / "makefile"
        text = makefile.read_text(encoding="utf-8")
        makefile.write_text(text.replace("main.o: main.c", "main.o: main.c version.h"))

    def test_promises(self) -> None:
        """The promise has the words of the README, and each way has a row."""
        page = self.page(0)
        readme = re.sub(r"\s+", " ", (ROOT / "README.md").read_text(encoding="utf-8"))
        readme = readme.replace("**", "").replace("`", "")
        promise = re.search(r"(For|then for) every number of jobs.*?sources gives\.", readme)
        assert promise is not None
        said = "For" + promise[0].partition("or")[2]
        if promise[0].startswith("then"):
            said = "F" + promise[0][len("then f") :]
        self.assertIn(said, page.text)
        # Of 4 reads that can change each has a way: version.txt, main.c, version.h, main.o.
        self.assertIn("4 ways", page.text)
        self.assertEqual(self.raw.count("<tr><td"), 4)
        self.assertIn("yes 3 recipes 7 reads", page.text)

    def test_readable_without_script(self) -> None:
        """The field of the filter is made by the script alone."""
        self.assertNotIn("input", self.page(0).tags)

    @drawn
    def test_graph(self) -> None:
        """The whole graph, without missing edges."""
        self.page(0)
        self.assertEqual(self.raw.count('class="graph" role="img"'), 1)
        self.assertNotIn('class="edge missing"', self.raw)
        self.assertNotIn('class="edge unlisted"', self.raw)

    @drawn
    def test_graph_with_an_unlisted_read(self) -> None:
        """prog reads version.h, which is no prerequisite of its own: a change reaches it over
        main.o. That is no finding, so it isn't shown as one, also where there is no Graphviz."""
        reads = ["/usr/bin/cc", "main.o", "version.h"]
        records = [*RACE_BOOK[:2], ("prog", ["cc -o prog main.o"], reads, ["prog"])]
        makefile = (self.folder / "makefile").read_text().replace("prog: version.h", "prog:")
        self.build(makefile, records, RACE_SOURCES)
        page = self.page(0)
        self.assertEqual(self.raw.count('class="edge unlisted"'), 1)
        self.assertNotIn('class="edge missing"', self.raw)
        self.assertIn("a change reaches it another way", page.text)
        self.assertNotIn("a finding", page.text)
        bare = self.page(0, PATH=str(self.folder))
        self.assertIn("version.h\n (not listed)", bare.text)
        self.assertNotIn('class="missing"', self.raw)


class RefusalTest(ReportTest):
    """What is refused has a page too."""

    def test_line(self) -> None:
        """A pattern rule in line 3."""
        self.race()
        self.write("makefile", "all: a.o\n\n%.o: %.c\n\tcc -c $<\n")
        page = self.page(2)
        self.assertIn("refused 27 makefile:3", page.text)
        said = "a word is no file name; look for %, *, ./, |, &, quotes or CR LF"
        self.assertIn(f"makefile:3: BadName (27): %.o: {said}\n", page.text)
        self.assertIn("What BadName means", page.text)
        self.assertIn("Pattern rules (`%`), wildcards", page.text)
        self.assertIn("%.o: %.c", page.text)

    def test_no_line(self) -> None:
        """A cycle has names and no line."""
        self.race()
        self.write("makefile", "a: b\nb: a\n")
        text = self.page(2).text
        self.assertIn("refused 42 a b a", text)
        self.assertIn("Cycle (42): a b a", text)

    def test_operand(self) -> None:
        """A word of the command line."""
        self.race()
        page = self.page(2, "prog", "A:=<b>")
        self.assertIn("refused 11 operand:1", page.text)
        self.assertIn("operand:1: BadMacroName (11): ", page.text)
        self.assertIn("A:=<b>", page.text)

    def test_shared_number(self) -> None:
        """Of the faults with a number that several have, the page tells of the one that it is."""
        self.race()
        text = self.page(2, "50%").text
        self.assertIn("goal:1: BadGoal (27): a goal is no name, or is", text)

    def test_line_of_another_project(self) -> None:
        """The line of a file that lies elsewhere, and that a makefile includes, isn't shown."""
        self.race()
        other = self.folder.parent / f"{self.folder.name}.mk"
        other.write_text("KEY=0\nsecret of nobody here\n")
        self.addCleanup(other.unlink)
        self.write("makefile", f"include {other}\n{RACE}")
        text = self.page(2).text
        self.assertIn("NotALine (25)", text)
        self.assertNotIn("secret", text)
        outcome = self.report("--sarif")
        self.assertNotIn("secret", outcome.output)

    def test_words_like_a_place(self) -> None:
        """A file whose name ends as a line's number would has no place."""
        self.race()
        text = self.page(2, book="d:5").text
        self.assertIn("\nNoFile (38): d:5: ", text)

    def test_name_with_a_newline(self) -> None:
        """Words may hold a newline."""
        self.race()
        self.assertIn("BadMakefileName (27): a\nb", self.page(2, "-f", "a\nb").text)

    def test_reason_on_standard_error(self) -> None:
        """A log says why there is no answer, in one line."""
        self.race()
        no_path = "a b: the name for `-f` is `-` or no plain path; mend it"
        no_goal = "a goal is no name, or is `.WAIT` or `-`; give another one"
        no_rule = "x: no rule makes it and it is no source; mend it, or record again"
        for word, said in (
            ("-fa\nb", f"BadMakefileName (27): {no_path}"),
            ("50%", f"goal:1: BadGoal (27): {no_goal}"),
            ("x", f"NoRule (41): {no_rule}"),
        ):
            for form, path in ((), "report.html"), (("--sarif", "-o", "s"), "s"):
                errors = self.report(*form, word).errors
                self.assertEqual(errors, f"mkcheck-report: {path}: refused, {said}\n")

    def test_no_makefile(self) -> None:
        """Nothing is there to be shown."""
        self.write("B", '{"format":1,"fixed":[],"sources":[],"records":[]}')
        self.assertIn("refused 37", self.page(2).text)


class KindsTest(ReportTest):
    """Findings of other kinds."""

    def test_static(self) -> None:
        """Two recipes that write one file come before one without record."""
        makefile = "all: p.c p.h q\n.PHONY: all\np.c p.h: p.y\n\tbison -d p.y\nq: p.y\n\tcp p.y q\n"
        record = (["bison -d p.y"], ["p.y"], ["p.c", "p.h"])
        self.build(makefile, [("p.c", *record), ("p.h", *record)], ["p.y"])
        text = self.page(1).text
        self.assertLess(self.raw.index('<h2 id="writers">'), self.raw.index('<h2 id="record">'))
        self.assertIn("no writers p.c p.h p.h", text)
        self.assertIn("What to do", text)
        self.assertIn("<code>p.h: p.c ;</code>", self.raw)
        self.assertIn("Once these are mended, check again: races and stale reads may show.", text)
        self.assertNotIn("can be seen", text)
        self.assertIn("no record q", text)
        self.assertNotIn("A schedule that shows", text)

    def test_hidden(self) -> None:
        """Behind a recipe without record stand the race and the stale read that can be seen: at
        their line, with the missing word, and without schedule."""
        self.build(*HIDING)
        page = self.page(1)
        self.assertIn("1 finding in 1 group", page.text)
        self.assertIn("Behind these, \n1 group\n of races and stale reads can be seen", page.text)
        first, behind = page.text.split("Once these are mended, as far as can be seen now")
        self.assertIn("q has no record", first)
        self.assertNotIn("version.h", first)
        for said in ("What \nrace\n means", "What \nstale\n means", "with several jobs it may be"):
            self.assertIn(said, behind)
        self.assertEqual(behind.count("makefile:5:\n main.o reads version.h"), 1)
        self.assertIn("but doesn't depend on it", behind)
        self.assertEqual(behind.count("main.o: version.h"), 1)
        self.assertEqual(page.inserted, ["version.h"])
        self.assertNotIn("A schedule that shows", page.text)
        self.assertNotIn("Once these are mended, check again", page.text)

    def test_many_hidden(self) -> None:
        """Of 100 stale reads behind a finding those are in brief that are behind 60 groups."""
        number = range(100)
        makefile = "all: q" + "".join(f" o{one}" for one in number) + "\nq:\n\tmk\n"
        makefile += "".join(f"o{one}:\n\tmk\n" for one in number)
        records = [(f"o{one}", ["mk"], [f"h{one}"], [f"o{one}"]) for one in number]
        self.build(makefile, records, [f"h{one}" for one in number])
        text = self.page(1).text
        self.assertIn("100 groups", text)
        self.assertEqual(self.raw.count('class="panel"'), 60)
        self.assertEqual(self.raw.count('class="panel brief"'), 41)

    def test_left_out(self) -> None:
        """All files of which the sentence leaves one out."""
        reads = ["x.h", "y.h", "z.h"]
        self.build("a.o:\n\tcc -c a.c\n", [("a.o", ["cc -c a.c"], reads, ["a.o"])], [])
        self.assertIn("files: x.h y.h z.h", self.page(1).text)

    def test_continued_rule(self) -> None:
        """The missing word goes to the last of the lines that are joined, before the comment."""
        makefile = "a.o: a.c \\\n  b.h # all\n\tcc -c a.c\n"
        self.build(
            makefile,
            [("a.o", ["cc -c a.c"], ["a.c", "b.h", "c.h"], ["a.o"])],
            ["a.c", "b.h", "c.h"],
        )
        self.page(1)
        self.assertIn("  b.h <ins>c.h</ins> # all", self.raw)

    def test_edit(self) -> None:
        """A source that isn't listed: a build, an edit, and a build that passes the reader."""
        self.build("b: a\n\tcat a c > b\n", [("b", ["cat a c > b"], ["a", "c"], ["b"])], ["a", "c"])
        text = self.page(1).text
        places = [text.index(said) for said in ("reads c\n", "edit\n", "c changes\n", "passed: ")]
        self.assertEqual(places, sorted(places))
        self.assertIn("b is still of the old c", text)

    def test_two_races(self) -> None:
        """Each race has a schedule."""
        makefile = "all: g h a b\n.PHONY: all\ng: ; mk g\nh: ; mk h\na: ; mk a\nb: ; mk b\n"
        records = [
            (name, [f"mk {name}"], reads, [name])
            for name, reads in (("g", []), ("h", []), ("a", ["g"]), ("b", ["h"]))
        ]
        self.build(makefile, records, [])
        page = self.page(1)
        self.assertIn("no race a g g", page.text)
        self.assertIn("no race b h h", page.text)
        self.assertIn("A schedule that shows finding 1", page.text)
        self.assertIn("A schedule that shows finding 2", page.text)

    def test_file_that_is_no_target(self) -> None:
        """Both files come of the recipe of p.c, and p.h is no target: the line to add names p.c.
        The reads of p.c and of p.h are panels of their own, each of a race and of a stale read."""
        makefile = "all: p.c m.o\n.PHONY: all\np.c: p.y\n\tbison p.y\nm.o: m.c\n\tcc -c m.c\n"
        records = [
            ("p.c", ["bison p.y"], ["p.y"], ["p.c", "p.h"]),
            ("m.o", ["cc -c m.c"], ["m.c", "p.c", "p.h"], ["m.o"]),
        ]
        self.build(makefile, records, ["p.y", "m.c"])
        text = self.page(1).text
        self.assertIn("4 findings in 2 groups", text)
        self.assertIn("2 problems, the worst first", text)
        for race, stale, file in ((1, 3, "p.c"), (2, 4, "p.h")):
            lines = f"{race}: no race m.o p.c {file}\n{stale}: no stale m.o {file}\n"
            self.assertIn(f"2 findings, as mkcheck check prints them\n{lines}", text)
        self.assertNotIn("m.o: p.h", text)


class MakersTest(ReportTest):
    """Findings whose recipes the goals don't reach, or that no line mends."""

    def test_unknown_file_with_a_maker(self) -> None:
        """main.o alone reads version.h, whose recipe the goals don't reach: the line to add has its
        rule's target, and the rule of main.o gets the word."""
        self.race()
        page = self.page(1, "main.o")
        self.assertIn("\n1: no unknown main.o version.h\n", page.text + "\n")
        self.assertIn("which the recipe of version.h makes", page.text)
        self.assertIn("main.o: version.h", page.text)
        self.assertEqual(page.inserted, ["version.h"])
        self.assertIn("The missing prerequisite", page.text)

    def test_loose_name_that_its_writer_needs(self) -> None:
        """No line is to be added, so no word is marked and no prerequisite drawn as missing."""
        self.build("prog: v\n\tmk\nv:\n", [("prog", ["mk"], [], ["v", "prog"])], [])
        page = self.page(1)
        self.assertIn("1 finding, as mkcheck check prints it\n1: no loose v prog", page.text)
        self.assertIn("Give v a rule of its own, or take it out of the prerequisites", page.text)
        self.assertEqual(page.inserted, [])
        self.assertNotIn("The missing prerequisite", page.text)


class OverviewTest(ReportTest):
    """The top of a page of a no."""

    MAKEFILE = "all: a.o b.o\n.PHONY: all\na.o: a.c\n\tcc -c a.c\nb.o: b.c\n\tcc -c b.c\n"

    def top(self) -> str:
        """What stands above the first kind of findings."""
        text = self.page(1).text
        return text[text.index("What to do") : text.index("means", text.index("What to do"))]

    def test_lines_of_some(self) -> None:
        """Of a stale read there is a line, of a header of unknown origin there is advice: nothing
        mends both. Each has a link to its panel."""
        records = [
            ("a.o", ["cc -c a.c"], ["a.c", "h.h", "v.h"], ["a.o"]),
            ("b.o", ["cc -c b.c"], ["b.c", "w.h"], ["b.o"]),
            ("v.h", ["mk"], [], ["v.h"]),
        ]
        makefile = self.MAKEFILE + "v.h:\n\tmk\n"
        self.build(makefile, records, ["a.c", "b.c", "h.h"])
        top = self.top()
        self.assertIn("They are for 1 problem below; check again then.", top)
        self.assertIn("\na.o: v.h\n", top)
        self.assertIn("For these no line helps:", top)
        self.assertIn("Take it into the project and record again", top)
        self.assertIn("2 problems, the worst first", top)
        for link in ("group-1", "group-2"):
            self.assertIn(f'href="#{link}"', self.raw)
            self.assertEqual(self.raw.count(f'id="{link}"'), 1)

    def test_no_lines(self) -> None:
        """Recipes without a record, which no line mends."""
        self.build(self.MAKEFILE, [], ["a.c", "b.c"])
        top = self.top()
        self.assertIn("No line that could be added helps:", top)
        self.assertIn("Record again, with the goals and macros that are checked.", top)
        self.assertNotIn('class="add', self.raw)

    def test_buttons_are_made_by_the_script_alone(self) -> None:
        self.race()
        self.assertNotIn("button", self.page(1).tags)


class StyleTest(unittest.TestCase):
    """Colours."""

    def test_borders_can_be_seen(self) -> None:
        """Borders of panels, fields and buttons have a contrast of at least 3 with what is beside
        them, light, dark and printed."""
        palettes = re.findall(r":root \{(.*?)\}", STYLE, re.DOTALL)
        self.assertEqual(len(palettes), 3)
        for palette in palettes:
            colours = dict(re.findall(r"--(\w+): (#[0-9a-f]+)", palette))
            for behind in ("bg", "panel"):
                self.assertGreaterEqual(contrast(colours["edge"], colours[behind]), 3, palette)
                for word in ("fg", "soft", "red", "green", "blue"):
                    self.assertGreaterEqual(contrast(colours[word], colours[behind]), 4.5, word)


def contrast(one: str, other: str) -> float:
    """The contrast of two colours, as WCAG 2.1 defines it."""
    light, dark = sorted((luminance(one), luminance(other)), reverse=True)
    return (light + 0.05) / (dark + 0.05)


def luminance(colour: str) -> float:
    """The relative luminance of a colour `#rgb` or `#rrggbb`."""
    digits = colour[1:] if len(colour) == 7 else "".join(digit * 2 for digit in colour[1:])
    parts = [int(digits[at : at + 2], 16) / 255 for at in (0, 2, 4)]
    red, green, blue = (
        part / 12.92 if part <= 0.03928 else math.pow((part + 0.055) / 1.055, 2.4) for part in parts
    )
    return 0.2126 * red + 0.7152 * green + 0.0722 * blue


class LargeTest(ReportTest):
    """A no with many findings."""

    def test_is_small(self) -> None:
        """120 objects that read 120 headers, and a program that reads 96: 14,496 findings."""
        self.large()
        page = self.page(1)
        self.assertIn("14,496 findings in 2 groups", page.text)
        self.assertIn("⋮ 120 other recipes", page.text)
        self.assertIn("Left out: 14,496 reads of files that aren't listed.", page.text)
        self.assertLess(len(self.raw.encode()), 5_000_000)

    def test_many_groups_are_small(self) -> None:
        """2,000 recipes, each of which misses a file of its own with a name of 500 bytes."""
        number = range(2000)
        files = [f"{one}{'x' * 500}.h" for one in number]
        rules = [f"o{one}: c\n\tmk {one}\n" for one in number]
        makefile = f"all: {' '.join(f'o{one}' for one in number)}\n.PHONY: all\n{''.join(rules)}"
        records = [(f"o{one}", [f"mk {one}"], ["c", files[one]], [f"o{one}"]) for one in number]
        self.build(makefile, records, ["c", *files])
        page = self.page(1)
        self.assertIn("2,000 findings in 2,000 groups", page.text)
        self.assertIn("mkcheck check -w", page.text)
        self.assertLess(len(self.raw.encode()), 5_000_000)
