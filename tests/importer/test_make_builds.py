"""Builds of GNU make, one for each construct: the translation, the answer, and what make does."""

from __future__ import annotations

import shutil
import subprocess
import unittest

from importer.make_folder import MKCHECK, MakeFolderTest, can_judge
from waits import found_once


@can_judge
class PlainTest(MakeFolderTest):
    """Explicit rules, pattern rules, functions."""

    def test_yes(self) -> None:
        self.write(
            {
                "Makefile": "objects := $(patsubst %.in,%.out,$(wildcard *.in))\n"
                "all: sum\n"
                "sum: $(objects)\n\tcat $^ > $@\n"
                "%.out: %.in head\n\tcat $< head > $@\n"
                ".PHONY: all\n",
                "a.in": "a\n",
                "b.in": "b\n",
                "head": "h\n",
            }
        )
        answer = self.imported(replay=True)
        self.assertEqual(answer.status, 0, answer.output + answer.errors)
        self.assertEqual(
            answer.rules(),
            ".PHONY: all\n"
            "all: sum\n"
            "a.out: a.in head\n\tset +e; cat a.in head > a.out\n"
            "b.out: b.in head\n\tset +e; cat b.in head > b.out\n"
            "sum: a.out b.out\n\tset +e; cat a.out b.out > sum\n",
        )
        self.assertTrue(answer.output.startswith("yes: 3 recipes, "), answer.output)
        self.assertIn("as GNU Make", answer.output)
        self.assertEqual(
            [way[:3] for way in answer.ways],
            [
                ["a.out", "a.in", "source"],
                ["a.out", "head", "source"],
                ["b.out", "b.in", "source"],
                ["b.out", "head", "source"],
                ["sum", "a.out", "written"],
                ["sum", "b.out", "written"],
            ],
        )
        self.try_answer(answer)

    def test_built_in_rules_that_the_translation_needs_not(self) -> None:
        self.write(
            {
                "Makefile": "MAKEFLAGS += -r\nsum: a.out\n\tcat a.out a > sum\n",
                "a.out": "1\n",
                "a": "2\n",
            }
        )
        answer = self.imported("sum")
        self.assertNotIn("built-in", answer.output + answer.errors)
        self.assertNotIn("MAKEFLAGS", answer.output + answer.errors)
        self.assertEqual(answer.findings, ["no stale sum a"])

    def test_stale(self) -> None:
        self.write(
            {
                "Makefile": "sum: a.out\n\tcat $^ > $@\n%.out: %.in\n\tcat $< head > $@\n",
                "a.in": "a\n",
                "head": "h\n",
            }
        )
        answer = self.imported()
        self.assertEqual(answer.status, 1, answer.output + answer.errors)
        self.assertEqual(answer.findings, ["no stale a.out head"])
        self.assertIn("Makefile:4: a.out isn't made again when head changes\n", answer.output)
        self.assertIn("Add to Makefile:\n    a.out: head\n", answer.output)
        self.try_answer(answer)
        self.mend("a.out: head\n")

    def test_recipes_that_take_all_prerequisites(self) -> None:
        """With the lines that are to be added they would take more."""
        for macro in ("$^", "$(+)"):
            self.write(
                {
                    "Makefile": f"all: x y z\n.PHONY: all\nx y: a\n\tcat {macro} b > $@\n"
                    "z: a\n\tcat $< b > z\n",
                    "a": "a\n",
                    "b": "b\n",
                }
            )
            answer = self.imported()
            self.assertEqual(answer.findings, [f"no stale {name} b" for name in "xyz"])
            self.assertIn(
                "\nAdd to Makefile:\n    x y z: b\n"
                f"The recipe of x, y takes all prerequisites by {macro}: write"
                f" $(filter-out b,{macro}) there, if it isn't to take b too\n",
                answer.output,
            )
        makefile = self.folder / "Makefile"
        mended = makefile.read_text().replace("$(+)", "$(filter-out b,$(+))")
        makefile.write_text(f"{mended}x y z: b\n")
        answer = self.imported()
        self.assertEqual(answer.status, 0, answer.output + answer.errors)
        self.try_answer(answer)

    def test_makefile_that_a_tool_wrote(self) -> None:
        """A line that is added to it is lost when somebody configures again."""
        self.write(
            {
                "Makefile": "x: a\n\tcat a b > x\n",
                "config.status": 'config_files=" Makefile"\n',
                "a": "a\n",
                "b": "b\n",
            }
        )
        answer = self.imported()
        self.assertEqual(answer.findings, ["no stale x b"])
        self.assertIn(
            "Add to Makefile (config.status writes it, so say it in Makefile.am or Makefile.in):\n"
            "    x: b\n",
            answer.output,
        )
        for name in ("Makefile.in", "Makefile.am"):
            self.write({name: ""})
            said = f"Add to Makefile (config.status writes it, so say it in {name}):\n    x: b\n"
            self.assertIn(said, self.imported().output)

    def test_findings_of_one_sentence(self) -> None:
        """The first line counts findings, and says how many sentences tell of them."""
        self.write(
            {
                "Makefile": "all: x y\n.PHONY: all\nx: a\n\tcat a b c > x\ny: a\n\tcat a b > y\n",
                "a": "a\n",
                "b": "b\n",
                "c": "c\n",
            }
        )
        answer = self.imported()
        self.assertEqual(answer.findings, ["no stale x b", "no stale x c", "no stale y b"])
        self.assertTrue(
            answer.output.startswith("no: 3 findings in 2 sentences (2 recipes, "), answer.output
        )
        self.assertIn("\n\nMakefile:4: x isn't made again when b or c changes\n", answer.output)

    def test_race(self) -> None:
        self.write(
            {
                "Makefile": "all: head sum\n"
                "head: head.in\n\tcp head.in head\n"
                "sum: a.in\n\t-cat a.in head > sum\n"
                ".PHONY: all\n",
                "a.in": "a\n",
                "head.in": "h\n",
            }
        )
        answer = self.imported()
        self.assertEqual(answer.status, 1, answer.output + answer.errors)
        self.assertEqual(answer.findings, ["no race sum head head", "no stale sum head"])
        self.assertIn(
            "Makefile:5: the recipe of sum reads head, and make may begin it before the recipe of"
            " head (Makefile:3) has written that\n",
            answer.output,
        )
        self.assertIn("Add to Makefile:\n    sum: head\n", answer.output)
        self.assertIn("\t-cat a.in head > sum\n", answer.rules())
        self.try_answer(answer)

    def test_goals_and_macros(self) -> None:
        self.write(
            {
                "makefile": "all: nothing\nnothing:; false\n",
                "GNUmakefile": "MODE = plain\nall:; false\none: a\n\tcp a one-$(MODE) && cp a one\n"
                "two: one\n\tcp one two\n",
                "other.mk": "three: a\n\tcp a three\n",
                "a": "a\n",
            }
        )
        answer = self.imported("two", "one", "MODE=fast")
        self.assertEqual(answer.status, 0, answer.output + answer.errors)
        self.assertEqual(
            answer.rules(),
            ".PHONY: goals@\n"
            "goals@: two one\n"
            "two: one\n\texport MODE=fast; cp one two\n"
            "one: a\n\texport MODE=fast; set +e; cp a one-fast && cp a one\n",
        )
        self.try_answer(answer, "two", "one", "MODE=fast")
        answer = self.imported("-f", "other.mk")
        self.assertEqual(answer.rules(), "three: a\n\tcp a three\n")
        self.assertEqual(answer.status, 0, answer.output + answer.errors)

    def test_conditionals_and_recipes(self) -> None:
        self.write(
            {
                "Makefile": "define both\necho one > $@.one\n@echo two > $@\nendef\n"
                "ifdef MODE\nextra = b\nelse\nextra = a\nendif\n"
                "quiet = -@\n"
                "all: x y\n.PHONY: all\n"
                "x: $(extra)\n\t$(both)\n"
                "y: a\n\t$(quiet)false; cp a y\n\t@echo '$$PATH' \\\n\t\t> /dev/null\n",
                "a": "a\n",
            }
        )
        answer = self.imported()
        self.assertEqual(answer.status, 0, answer.output + answer.errors)
        self.assertEqual(
            answer.rules(),
            ".PHONY: all\n"
            "all: x y\n"
            "x: a\n\tset +e; echo one > x.one\n\tset +e; echo two > x\n"
            "y: a\n\t-false; cp a y\n\tset +e; echo '$$PATH' \\\n\t\t> /dev/null\n",
        )
        self.try_answer(answer)


@can_judge
class OrderTest(MakeFolderTest):
    """Order-only prerequisites, folders, and targets that are never there."""

    def test_order_only(self) -> None:
        self.write(
            {
                "Makefile": "x: a | tool\n\tcat a tool > x\ntool: b\n\tcp b tool\n",
                "a": "a\n",
                "b": "b\n",
            }
        )
        answer = self.imported()
        self.assertEqual(
            answer.rules(),
            "x: x@order a\n\tset +e; cat a tool > x\n" "x@order: tool\n" "tool: b\n\tcp b tool\n",
        )
        self.assertEqual(answer.findings, ["no stale x tool"])
        self.assertEqual(answer.status, 1)
        self.try_answer(answer)

    def test_folders(self) -> None:
        self.write(
            {
                "Makefile": "all: out/x deep/y\n.PHONY: all\n"
                "out/x: a | out\n\tcp a out/x\n"
                "deep/y: a deep\n\tcp a deep/y\n"
                "out deep:\n\tmkdir $@\n",
                "a": "a\n",
            }
        )
        answer = self.imported()
        self.assertEqual(answer.status, 0, answer.output + answer.errors)
        self.assertIn("deep/y: deep/y@order a\n\tcp a deep/y\ndeep/y@order: deep\n", answer.rules())
        self.try_answer(answer)

    def test_never_there(self) -> None:
        self.write(
            {
                "Makefile": "all: x y\n"
                "x: force\n\tcp a x\n"
                "force:\n"
                "y: step\n\tcp a y\n"
                "step:\n\t@echo step\n",
                "a": "a\n",
            }
        )
        answer = self.imported()
        self.assertEqual(answer.status, 0, answer.output + answer.errors)
        self.assertIn(".PHONY: force\n", answer.makefile)
        self.assertIn(".PHONY: step\n", answer.makefile)
        self.assertEqual(
            [way[:3] for way in answer.ways], [["x", "a", "always"], ["y", "a", "always"]]
        )
        self.assertIn("run in each build (1 target): step\n", answer.output)
        self.try_answer(answer)

    def test_failures_that_are_ignored(self) -> None:
        """A recipe that fails unseen writes nothing, and the answer says so."""
        self.write({"Makefile": "x: a\n\t--mode=fast --tag=x cp a x\n", "a": "a\n"})
        answer = self.imported()
        self.assertEqual(answer.status, 0, answer.output + answer.errors)
        self.assertIn("\t-mode=fast --tag=x cp a x\n", answer.rules())
        self.assertIn("run in each build (1 target): x\n", answer.output)

    def test_phony_order_only(self) -> None:
        self.write(
            {
                "Makefile": "x: a | say\n\tcat a b > x\nsay:\n\t@echo\n.PHONY: say\n",
                "a": "a\n",
                "b": "b\n",
            }
        )
        answer = self.imported()
        self.assertEqual(answer.findings, ["no stale x b"])
        self.try_answer(answer)

    def test_phony_and_file(self) -> None:
        """A phony name that lies in the folder too, and one that its own recipe writes."""
        self.write(
            {
                "Makefile": "all: test x\n.PHONY: all test x\n"
                "test:\n\techo ok > log\nx: a\n\tcp a x\n",
                "test": "a file\n",
                "a": "a\n",
            }
        )
        answer = self.imported()
        self.assertEqual(answer.status, 0, answer.output + answer.errors)
        self.assertIn(".PHONY: test\n", answer.makefile)
        self.assertIn(".PHONY: x@phony\n", answer.makefile)
        self.assertEqual([way[:3] for way in answer.ways], [["x@phony", "a", "source"]])
        self.try_answer(answer)


@can_judge
class NoRecipeTest(MakeFolderTest):
    """Targets with prerequisites and without a recipe."""

    def test_file_that_is_there(self) -> None:
        """GNU make compares what needs it with the file itself."""
        self.write(
            {
                "Makefile": "x: h\n\tcat h a > x\nh: a\n",
                "h": "h\n",
                "a": "a\n",
            }
        )
        answer = self.imported()
        self.assertEqual(answer.rules(), "x: h\n\tset +e; cat h a > x\nh: a\n")
        self.assertEqual(answer.findings, ["no stale x a"])
        self.try_answer(answer)

    def test_written_meanwhile(self) -> None:
        """GNU make doesn't look again at a file without a recipe that another one has written."""
        self.write(
            {
                "Makefile": "x: h\n\tcat h > x\nh: c\nc: s\n\tcp s h; cp s c\n",
                "s": "s\n",
            }
        )
        answer = self.imported()
        self.assertEqual(answer.findings, ["no stale x h"])
        self.assertIn("Add to Makefile:\n    x: c\n", answer.output)
        self.try_answer(answer)
        self.mend("x: c\n")

    def test_empty_recipe(self) -> None:
        """With an empty recipe it does look again."""
        self.write(
            {
                "Makefile": "x: h\n\tcat h > x\nh: c ;\nc: s\n\tcp s h; cp s c\n",
                "s": "s\n",
            }
        )
        answer = self.imported()
        self.assertEqual(answer.status, 0, answer.output + answer.errors)
        self.try_answer(answer)

    def test_recipe_that_does_nothing(self) -> None:
        self.write(
            {
                "Makefile": "x: h\n\tcat h > x\nh: c\n\t@:\nc: s\n\tcp s h; cp s c\n",
                "s": "s\n",
            }
        )
        answer = self.imported()
        self.assertEqual(answer.status, 0, answer.output + answer.errors)
        self.try_answer(answer)


@can_judge
class SeveralTargetsTest(MakeFolderTest):
    """Recipes that make several files, and files with several rules."""

    def test_grouped(self) -> None:
        self.write(
            {
                "Makefile": "all: x y\n.PHONY: all\n"
                "x: p.c\n\tcp p.c x\ny: p.h\n\tcp p.h y\n"
                "p.c p.h &: p.y\n\tcp p.y p.c; cp p.y p.h\n",
                "p.y": "p\n",
            }
        )
        answer = self.imported()
        self.assertEqual(answer.status, 0, answer.output + answer.errors)
        self.assertIn("p.c: p.y\n\tset +e; cp p.y p.c; cp p.y p.h\n", answer.rules())
        self.assertIn("p.h: p.c\n", answer.rules())
        self.try_answer(answer)

    @unittest.skipUnless(shutil.which("ccache"), "no ccache")
    def test_compilers_behind_ccache(self) -> None:
        """Its cache lies outside of the project, where nothing may be written."""
        self.write(
            {
                "Makefile": "CC = ccache cc\nprog: a.o\n\tcp a.o prog\na.o: a.c\n\t$(CC) -c a.c\n",
                "a.c": '#include "h.h"\n',
                "h.h": "",
            }
        )
        answer = self.imported(replay=True)
        self.assertEqual(answer.findings, ["no stale a.o h.h"])
        self.try_answer(answer)
        self.mend("a.o: h.h\n")

    def test_a_file_that_only_a_recipe_for_others_makes(self) -> None:
        """The line to add names it, and not the target by which the recipe runs."""
        self.write(
            {
                "Makefile": "all: x main\nx: p.tab.c\n\tcp p.tab.c x\nmain: main.c\n"
                "\tcat main.c p.tab.h > main\n"
                "%.tab.c %.tab.h: %.y\n\tcp $< $*.tab.c; cp $< $*.tab.h\n",
                "p.y": "y\n",
                "main.c": "c\n",
            }
        )
        answer = self.imported()
        self.assertEqual(answer.status, 1, answer.output + answer.errors)
        self.assertIn("Add to Makefile:\n    main: p.tab.h\n", answer.output)
        self.try_answer(answer)
        self.mend("main: p.tab.h\n")

    def test_pattern_with_several_targets(self) -> None:
        self.write(
            {
                "Makefile": "all: x y\n.PHONY: all\n"
                "x: p.tab.c\n\tcp p.tab.c x\ny: p.tab.h\n\tcp p.tab.h y\n"
                "%.tab.c %.tab.h: %.y\n\tcp $< $*.tab.c; cp $< $*.tab.h\n",
                "p.y": "p\n",
            }
        )
        answer = self.imported()
        self.assertEqual(answer.status, 0, answer.output + answer.errors)
        self.try_answer(answer)

    def test_two_writers(self) -> None:
        """One rule line with two targets is two rules: each makes both files."""
        self.write(
            {
                "Makefile": "all: p.c p.h\n.PHONY: all\np.c p.h: p.y\n\tcp p.y p.c; cp p.y p.h\n",
                "p.y": "p\n",
            }
        )
        answer = self.imported()
        self.assertEqual(answer.findings, ["no writers p.c p.h p.c", "no writers p.c p.h p.h"])
        self.assertEqual(answer.status, 1)
        self.assertIn(
            "Makefile:4: the recipes of p.c and p.h (Makefile:4) both write p.c and p.h; let only"
            " one of them do so, as with `p.h: p.c ;` in place of the recipe of p.h, or with"
            " `p.c p.h &: ..` (GNU make 4.3)\n",
            answer.output,
        )
        self.assertNotIn("can be seen already", answer.output)
        for rules in (
            "p.c: p.y\n\tcp p.y p.c; cp p.y p.h\np.h: p.c ;\n",
            "p.c p.h &: p.y\n\tcp p.y p.c; cp p.y p.h\n",
        ):
            self.write({"Makefile": f"all: p.c p.h\n.PHONY: all\n{rules}"})
            answer = self.imported()
            self.assertEqual((answer.status, answer.findings), (0, []), answer.output)

    def test_two_writers_of_two_rules(self) -> None:
        """Two recipes that write a third file aren't one."""
        front = "all: p.c p.h\n.PHONY: all\np.c: p.y\n\tcp p.y p.c; cp p.y"
        for more, end in (
            ("p.h\np.h: p.y\n\tcp p.y p.h; cp p.y p.c\n", " in place of the recipe of p.h\n"),
            ("log\np.h: p.y\n\tcp p.y p.h; cp p.y log\n", "; let only one of them do so\n"),
        ):
            self.write({"Makefile": f"{front} {more}", "p.y": "p\n"})
            answer = self.imported()
            self.assertEqual(answer.status, 1)
            self.assertIn(end, answer.output)
            self.assertNotIn("&:", answer.output)

    def test_findings_that_others_hide(self) -> None:
        """The command that the answer names shows the stale read of `h`."""
        self.write(
            {
                "Makefile": "all: p.c p.h x\n.PHONY: all\n"
                "p.c p.h: p.y\n\tcp p.y p.c; cp p.y p.h\nx: a\n\tcat a h > x\n",
                **{"p.y": "p\n", "a": "a\n", "h": "h\n"},
            }
        )
        answer = self.imported()
        words = "check -w -f .mkcheck/makefile -b .mkcheck/footprint.json"
        self.assertIn(
            "Races and stale reads are looked for when all of these are mended.\n"
            f"Those that can be seen already are told by `mkcheck {words}`.\n",
            answer.output,
        )
        done = subprocess.run(
            [MKCHECK, *words.split()], cwd=self.folder, capture_output=True, text=True, check=False
        )
        self.assertIn("\n  add: x: h\n", done.stdout)

    def test_double_colon(self) -> None:
        self.write(
            {
                "Makefile": "all:: one\n\t@echo done\nall:: two\n\t@echo too\n"
                "one: a\n\tcp a one\ntwo: b\n\tcat b one > two\n.PHONY: all\n",
                "a": "a\n",
                "b": "b\n",
            }
        )
        answer = self.imported()
        self.assertIn("all: all@rule1 .WAIT all@rule2\n", answer.rules())
        self.assertEqual(answer.findings, ["no stale two one"])
        self.try_answer(answer)

    def test_double_colon_with_one_recipe(self) -> None:
        self.write(
            {
                "Makefile": "x:: a\n\tcat a b > x\nx:: b\n",
                "a": "a\n",
                "b": "b\n",
            }
        )
        answer = self.imported()
        self.assertEqual(answer.rules(), "x: a b\n\tset +e; cat a b > x\n")
        self.assertEqual(answer.status, 0, answer.output + answer.errors)

    def test_double_colon_file(self) -> None:
        self.write({"Makefile": "x:: a\n\tcp a x\nx:: b\n\tcp b x\n", "a": "a\n", "b": "b\n"})
        answer = self.imported()
        self.assertEqual((answer.status, len(answer.findings)), (1, 1))
        self.assertIn("both write x", answer.output)
        self.assertIn("x: it is a file with several :: rules", answer.output)

    def test_intermediate(self) -> None:
        """GNU make removes files between two pattern rules, and makes them anew when it has to."""
        self.write(
            {
                "Makefile": "x.o: x.h\n%.o: %.c\n\tcat $< > $@\n%.c: %.y\n\tcp $< $@\n",
                "x.y": "y\n",
                "x.h": "h\n",
            }
        )
        answer = self.imported()
        self.assertEqual(answer.status, 0, answer.output + answer.errors)
        self.assertEqual(
            answer.rules(), "x.o: x.c x.h\n\tset +e; cat x.c > x.o\nx.c: x.y\n\tcp x.y x.c\n"
        )
        self.try_answer(answer)

    def test_archive_member(self) -> None:
        self.write({"Makefile": "l.a(m.o): m.o\n\tar rc l.a m.o\nm.o: m\n\tcp m m.o\n", "m": "m\n"})
        answer = self.imported()
        self.assertEqual(answer.status, 4)
        self.assertIn("a member of an archive as target isn't translated", answer.output)


@can_judge
class VaryingTest(MakeFolderTest):
    """Shells, environments and commands that differ."""

    def test_newer_prerequisites(self) -> None:
        self.write({"Makefile": "x: a b\n\tcat $? > x\n", "a": "a\n", "b": "b\n"})
        answer = self.imported()
        self.assertEqual(answer.findings, ["no varying x"])
        self.assertEqual(answer.status, 1)
        self.assertTrue(
            answer.output.split("\n\nWhat the recorder says:")[0].endswith(
                "and make the target anew\n\n"
                "Races and stale reads are looked for when all of these are mended."
            ),
            answer.output,
        )

    def test_one_shell(self) -> None:
        self.write(
            {
                "Makefile": ".ONESHELL:\n"
                'x: a\n\tname=one\n\tcat a b > $@\n\techo "$$name" >> $@\n'
                "y: x\n\tcp x y\n.DEFAULT_GOAL = y\n",
                "a": "a\n",
                "b": "b\n",
            }
        )
        answer = self.imported()
        self.assertEqual(answer.findings, ["no stale x b"], answer.output + answer.errors)
        self.assertIn(
            "\texec /bin/sh -c \"$$(printf '%s\\n' name=one 'cat a b > x'"
            ' \'echo "$$name" >> x\')"\n',
            answer.rules(),
        )
        self.try_answer(answer)

    def test_shell(self) -> None:
        self.write(
            {
                "Makefile": "SHELL = /bin/bash\n.SHELLFLAGS = -e -c\n"
                "all: x y\n.PHONY: all\n"
                "x: a\n\tcat <(cat a) > x\ny: SHELL = /bin/sh\ny: a\n\tcp a y\n",
                "a": "a\n",
            }
        )
        answer = self.imported()
        self.assertEqual(answer.status, 0, answer.output + answer.errors)
        self.assertIn("\texec /bin/bash -e -c 'cat <(cat a) > x'\n", answer.rules())
        self.assertIn("\texec /bin/sh -e -c 'cp a y'\n", answer.rules())
        self.try_answer(answer)

    def test_environment(self) -> None:
        self.write(
            {
                "Makefile": "export MODE = fast and\\$$loose\nunexport GONE\nPLAIN = no\n"
                "all: x y z\n.PHONY: all\n"
                "y: export EXTRA = of y\nz: MODE = of z\n"
                'x y z: a\n\tset > /dev/null; echo "$$MODE $$GONE $$PLAIN $$EXTRA" > $@;'
                " cat a >> $@\n",
                "a": "a\n",
            }
        )
        answer = self.imported(environment={"GONE": "here"})
        self.assertEqual(answer.status, 0, answer.output + answer.errors)
        self.assertIn(
            "x: a\n\tunset GONE; export MODE='fast and\\$$loose'; set +e; ", answer.rules()
        )
        self.assertIn("\tunset GONE; export EXTRA='of y' MODE=", answer.rules())
        self.assertIn("\tunset GONE; export MODE='of z'; set +e; ", answer.rules())
        self.assertEqual(answer.rules().count("EXTRA='of y'"), 1)

    def test_environment_of_patterns(self) -> None:
        self.write(
            {
                "Makefile": "%.o: export MODE = of objects\nall: x.o y\n.PHONY: all\n"
                'x.o y: a\n\techo "$$MODE" > $@; cat a >> $@\n',
                "a": "a\n",
            }
        )
        answer = self.imported()
        self.assertEqual(answer.status, 0, answer.output + answer.errors)
        self.assertIn("x.o: a\n\texport MODE='of objects'; set +e; echo", answer.rules())
        self.assertIn("y: a\n\tset +e; echo", answer.rules())

    def test_ignored_failures(self) -> None:
        self.write(
            {
                "Makefile": "all: x y\n.PHONY: all\n.IGNORE: x\n"
                "x: a\n\tcp a x; false\ny: x\n\tcp x y\n",
                "a": "a\n",
            }
        )
        answer = self.imported()
        self.assertEqual(answer.status, 0, answer.output + answer.errors)
        self.assertIn("x: a\n\t-cp a x; false\n", answer.rules())
        self.assertIn("y: x\n\tcp x y\n", answer.rules())

    def test_makefiles_of_the_environment(self) -> None:
        self.write(
            {
                "Makefile": "x: a\n\tcp a x; : $(MODE) $$MAKER\n",
                "first.mk": "MODE = fast\nexport MAKER = me\nall: y\n",
                "a": "a\n",
            }
        )
        answer = self.imported(environment={"MAKEFILES": "first.mk"})
        self.assertEqual(answer.status, 0, answer.output + answer.errors)
        self.assertEqual(
            answer.rules(), "x: a\n\texport MAKER=me; set +e; cp a x; : fast $$MAKER\n"
        )

    def test_default_rule_and_static_patterns(self) -> None:
        self.write(
            {
                "Makefile": "all: x.out other\n.PHONY: all\n"
                "x.out y.out: %.out: %.in\n\tcat $< b > $@\n"
                ".DEFAULT:\n\tcp a $@\n",
                "x.in": "x\n",
                "a": "a\n",
                "b": "b\n",
            }
        )
        answer = self.imported()
        self.assertEqual(answer.findings, ["no stale x.out b", "no stale other a"])
        self.try_answer(answer)

    def test_secondary_expansion(self) -> None:
        self.write(
            {
                "Makefile": ".SECONDEXPANSION:\nx_needs = a b\nx: $$($$@_needs)\n\tcat a b c > x\n",
                "a": "a\n",
                "b": "b\n",
                "c": "c\n",
            }
        )
        answer = self.imported()
        self.assertEqual(answer.rules(), "x: a b\n\tset +e; cat a b c > x\n")
        self.assertEqual(answer.findings, ["no stale x c"])
        self.try_answer(answer)

    def test_not_parallel(self) -> None:
        self.write(
            {
                "Makefile": "all: head x\n.PHONY: all\n.NOTPARALLEL:\n"
                "head: h\n\tcp h head\nx: a\n\tcat a head > x\n",
                "a": "a\n",
                "h": "h\n",
            }
        )
        answer = self.imported()
        self.assertIn("all: head .WAIT x\n", answer.rules())
        self.assertNotIn("takes .WAIT", answer.output)
        self.assertEqual(answer.findings, ["no stale x head"])
        self.try_answer(answer)

    def test_search_path(self) -> None:
        self.write(
            {
                "Makefile": "VPATH = src\nx: a b.in\n\tcat $^ src/c > x\n",
                "src/a": "a\n",
                "src/b.in": "b\n",
                "src/c": "c\n",
            }
        )
        answer = self.imported()
        self.assertEqual(
            answer.rules(), "x: src/a src/b.in\n\tset +e; cat src/a src/b.in src/c > x\n"
        )
        self.assertEqual(answer.findings, ["no stale x src/c"])
        self.try_answer(answer)

    def test_spellings(self) -> None:
        self.write(
            {
                "Makefile": "top := $(CURDIR)\nall: ./x $(top)/y\n.PHONY: all\n"
                "x: a\n\tcp a x\n$(top)/y: x sub/../b\n\tcat x b > y\n",
                "a": "a\n",
                "b": "b\n",
                "sub/c": "",
            }
        )
        answer = self.imported()
        self.assertEqual(answer.status, 0, answer.output + answer.errors)
        self.assertIn("all: x y\n", answer.rules())
        self.assertIn("y: x b\n", answer.rules())
        self.try_answer(answer)

    def test_links_to_folders(self) -> None:
        """A name that leads over a link to a folder is the file in that folder."""
        self.write(
            {
                "Makefile": "all: link/x y\n.PHONY: all\n"
                "link/x: real/a\n\tcat real/a b > link/x\n"
                "y: real/x\n\tcp link/x y\nreal/x: link/x ;\n",
                "real/a": "a\n",
                "b": "b\n",
            }
        )
        (self.folder / "link").symlink_to("real")
        answer = self.imported()
        self.assertIn("no stale real/x b", answer.findings, answer.output + answer.errors)
        self.assertNotEqual(answer.status, 0)

    def test_spelling_that_make_takes_for_another_file(self) -> None:
        """By an absolute name make knows no rule for a file, and doesn't wait for it."""
        self.write(
            {
                "Makefile": "top := $(CURDIR)\nall: x y\n.PHONY: all\n"
                "x: a\n\tsleep 0.3; cp a x\ny: $(top)/x b\n\tcat x b > y\n",
                "a": "a\n",
                "b": "b\n",
            }
        )
        answer = self.imported()
        found = ["no race y x x", "no stale y x"]
        self.assertEqual(answer.findings, found, answer.output + answer.errors)
        self.assertEqual(answer.status, 1)
        told = "No rule to make target"

        def is_told() -> bool:
            return told in self.make(self.copied("parallel"), "-j2").stderr

        self.assertTrue(found_once(is_told, True))

    def test_names_that_posix_lacks(self) -> None:
        self.write(
            {
                "Makefile": "x\\#1: a\\#b\n\tcp 'a#b' 'x#1'; cat c > /dev/null\n",
                "a#b": "a\n",
                "c": "c\n",
            }
        )
        answer = self.imported()
        self.assertEqual(
            answer.rules(),
            "x@231: a@23b\n\tset +e; cp 'a#b' 'x#1'; cat c > /dev/null\na@23b:\n",
        )
        self.assertEqual(answer.findings, ["no stale x@231 c"])
        self.assertEqual(answer.map["x@231"]["name"], "x#1")
        self.assertIn("Makefile:2: x#1 isn't made again when c changes\n", answer.output)
