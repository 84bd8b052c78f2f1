"""Builds of GNU make that are right, or whose fault is known: they have no sentence that is wrong.

Each stands beside one that differs a little, in which the sentence is right.
"""

from __future__ import annotations

import re
import subprocess
import unittest

from importer.make_folder import can_judge
from importer.test_make_unseen import UnseenTestCase
from mkcheck_tools.imports.builds import Build, Command, Kind, Node
from mkcheck_tools.imports.readings import all_need


class NeedTest(unittest.TestCase):
    """Whether all recipes run again when the file `v` changes."""

    def needed(self, **needs: str) -> bool:
        """The same for recipes with these prerequisites; those behind a bar only order."""
        build = Build("/project")
        for name, text in needs.items():
            words, _, order = text.partition("|")
            command = Command(f"echo > {name}")
            build.nodes[name] = Node(
                name, groups=[words.split()], order_only=order.split(), commands=[command]
            )
        return all_need(build, "v")

    def test_by_another_recipe(self) -> None:
        self.assertTrue(self.needed(a="b", b="v"))
        self.assertFalse(self.needed(a="b", b="v", c="s"))

    def test_a_prerequisite_that_only_orders(self) -> None:
        self.assertFalse(self.needed(a="v", b="|v"))
        self.assertFalse(self.needed(a="|b", b="v"))

    def test_recipes_that_need_each_other(self) -> None:
        self.assertFalse(self.needed(a="b", b="a"))
        self.assertTrue(self.needed(a="b v", b="a"))

    def test_what_needs_a_phony_target_always_runs(self) -> None:
        build = Build("/project")
        build.nodes["always"] = Node("always", Kind.PHONY)
        build.nodes["a"] = Node("a", groups=[["always"]], commands=[Command("echo > a")])
        self.assertTrue(all_need(build, "v"))


@can_judge
class RecipeThatAlwaysRunsTest(UnseenTestCase):
    """Lines of recipes that run under `make -n` too, by `+` or `$(MAKE)`."""

    def test_what_such_a_line_reads_is_not_read_by_make(self) -> None:
        for line in (
            "+cp notes.txt a",
            "+@cat notes.txt > a",
            "if test -f notes.txt; then cat notes.txt > a; else $(MAKE) -C no; fi",
        ):
            with self.subTest(line):
                self.write({"Makefile": f"a: notes.txt\n\t{line}\n", "notes.txt": "1\n"})
                self.accepted()
                self.assertEqual(self.left({"notes.txt": "2\n"}, "a"), ["2\n", "2\n"])

    def test_an_output_that_such_a_line_reads_is_not_read_by_make(self) -> None:
        self.write({"Makefile": "a: gen\n\t+cp gen a\ngen: list\n\tcp list gen\n", "list": "1\n"})
        self.accepted()
        self.assertEqual(self.left({"list": "2\n"}, "a"), ["2\n", "2\n"])

    def test_what_the_function_shell_reads_beside_it_is_read_by_make(self) -> None:
        self.write(
            {
                "Makefile": "text := $(shell cat VERSION)\n"
                "a: notes.txt\n\t+cat notes.txt\n\techo $(text) > a\n",
                "notes.txt": "1\n",
                "VERSION": "1\n",
            }
        )
        answer = self.imported()
        self.assertIn("a isn't made again when VERSION changes: make reads", answer.output)
        self.assertNotIn("notes.txt", answer.output)
        self.assertEqual(self.left({"VERSION": "2\n"}, "a"), ["1\n", "2\n"])


@can_judge
class OwnFolderTest(UnseenTestCase):
    """Lines that make the folder of the target where it isn't there."""

    def folder_by(self, line: str) -> None:
        self.write(
            {
                "Makefile": f"all: out/x out/y\nout/x: a\n\t{line}\n\tcp a out/x\n"
                f"out/y: b\n\t{line}\n\tcp b out/y\n.PHONY: all\n",
                "a": "1\n",
                "b": "1\n",
            }
        )

    def test_commands_that_differ_by_it_alone_are_one(self) -> None:
        for line in (
            "$(if $(wildcard $(@D)),,mkdir -p $(@D))",
            "$(if $(wildcard $(@D)),,mkdir -p $(@D) && ):",
            "$(if $(wildcard $(@D)),,@install -d $(@D)/)",
        ):
            with self.subTest(line):
                self.folder_by(line)
                answer = self.accepted()
                made = [record.commands for record in answer.records.values()]
                self.assertEqual(len(made), 2)
                for commands in made:
                    self.assertRegex(commands[0], "mkdir -p|install -d")
                self.assertEqual(self.left({"a": "2\n"}, "out/x"), ["2\n", "2\n"])

    def test_a_command_that_only_prints_makes_nothing(self) -> None:
        """As git's makefile has it, where make itself makes the folder."""
        line = "$(if $(wildcard $(@D)),,@echo '   ' MKDIR -p $(@D);$(shell mkdir -p $(@D)))"
        self.folder_by(line)
        self.accepted()
        self.assertEqual(self.left({"a": "2\n"}, "out/x"), ["2\n", "2\n"])

    def test_what_is_printed_into_a_file_counts(self) -> None:
        for line in ("echo $(@D) > $@.new", "echo a; echo b >> $@", "echo a # b; cp a out/x"):
            with self.subTest(line):
                self.folder_by(f"$(if $(wildcard $(@D)),,mkdir -p $(@D); {line})")
                self.refused("after a build make has other commands for out/x")

    def test_the_folder_of_another_target_is_not_its_own(self) -> None:
        self.folder_by("$(if $(wildcard $(@D)),: it is there,mkdir -p $(@D))")
        self.refused("after a build make has other commands for out/x")


@can_judge
class RewrittenMakefileTest(UnseenTestCase):
    """A file that make reads for commands, by a makefile that it writes anew in each make."""

    def version(self, needs: str) -> None:
        self.write(
            {
                "Makefile": f"x: a {needs}\n\techo $(v) > x; cat a >> x\n"
                "v.mk: force\n\t@echo v = `cat version` > v.new; cmp -s v.new v.mk ||"
                " cp v.new v.mk; rm v.new\nforce:\n.PHONY: force\n-include v.mk\n",
                "a": "a\n",
                "version": "1\n",
            }
        )

    def test_a_target_that_needs_the_makefile_is_made_again(self) -> None:
        self.version("v.mk")
        self.assertEqual(self.left({"version": "2\n"}, "x"), ["2\na\n", "2\na\n"])
        answer = self.accepted()
        self.assertIn("make was asked with other contents of it, and ran them again", answer.output)

    def test_a_target_that_does_not_need_it_stays_old(self) -> None:
        self.version("")
        self.assertEqual(self.left({"version": "2\n"}, "x"), ["1\na\n", "2\na\n"])
        answer = self.imported()
        self.assertIn("Makefile:2: x isn't made again when version changes", answer.output)


@can_judge
class WrittenIfChangedTest(UnseenTestCase):
    """A file that a recipe writes in each make, and only if its contents change."""

    WRITES = "@sed s/x/y/ conf > $@.new; cmp -s $@ $@.new || cp $@.new $@; rm $@.new"

    def flags(self, needs: str, recipe: str = WRITES) -> None:
        self.write(
            {
                "Makefile": f"x: a {needs}\n\tcat a h flags > x\n"
                f"flags: force\n\t{recipe}\nforce:\n.PHONY: force\n",
                "a": "1\n",
                "h": "1\n",
                "conf": "1\n",
            }
        )

    def test_what_needs_it_is_not_made_in_each_make(self) -> None:
        self.flags("flags")
        self.assertEqual(self.left({"h": "2\n"}, "x"), ["1\n1\n1\n", "1\n2\n1\n"])
        answer = self.imported(replay=True)
        self.assertEqual((answer.status, answer.findings), (1, ["no stale x h"]))
        self.assertIn("the recipe of flags left it as it was when nothing changed", answer.output)

    def test_a_change_passes_through_it_to_what_needs_it(self) -> None:
        self.flags("h flags")
        self.assertEqual(self.left({"conf": "2\n"}, "x"), ["1\n1\n2\n", "1\n1\n2\n"])
        answer = self.imported(replay=True)
        self.assertEqual(answer.status, 0, answer.output)

    def test_a_change_passes_through_it_past_what_does_not_need_it(self) -> None:
        for needs in ("h", "h | flags"):
            with self.subTest(needs):
                self.flags(needs)
                (self.folder / "Makefile").write_text(
                    "all: flags x\n" + (self.folder / "Makefile").read_text()
                )
                self.assertEqual(self.left({"conf": "2\n"}, "x"), ["1\n1\n1\n", "1\n1\n2\n"])
                answer = self.imported(replay=True)
                self.assertIn("x isn't made again when flags changes", answer.output)

    def test_a_change_passes_through_it_to_what_is_made_from_it(self) -> None:
        """Only such a change makes x anew."""
        self.flags("")
        makefile = self.folder / "Makefile"
        makefile.write_text(
            "z: b | x\n\tcat b x > z\nx: flags\n\tcp flags x\n"
            + makefile.read_text().partition("h flags > x\n")[2]
        )
        self.write({"b": "1\n"})
        self.assertEqual(self.left({"conf": "2\n"}, "z"), ["1\n1\n", "1\n2\n"])
        answer = self.imported(replay=True)
        self.assertIn("z isn't made again when x changes", answer.output)

    def test_one_that_keeps_other_contents_is_not_judged(self) -> None:
        self.flags("h flags", "test -f $@ || cp conf $@")
        self.assertEqual(self.left({"conf": "2\n"}, "x"), ["1\n1\n1\n", "1\n1\n2\n"])
        answer = self.imported(replay=True)
        self.assertEqual(answer.status, 4)
        self.assertIn("leaves flags as it is also where it holds other contents", answer.output)

    def test_one_that_compares_sizes_is_not_judged(self) -> None:
        self.flags("h flags", 'test "$$(wc -c < conf)" = "$$(cat $@ | wc -c)" || cp conf $@')
        self.assertEqual(self.left({"conf": "2\n"}, "x"), ["1\n1\n1\n", "1\n1\n2\n"])
        answer = self.imported(replay=True)
        self.assertEqual(answer.status, 4)
        self.assertIn("leaves flags as it is also where it holds other contents", answer.output)


@can_judge
class PrintedTest(UnseenTestCase):
    """What recipes print is never read as what make says."""

    def test_what_a_recipe_for_a_makefile_prints_is_no_command(self) -> None:
        """`make -n` runs such a recipe."""
        self.write(
            {
                "Makefile": "x: gen.mk a\n\tcat a gen.mk > x\n"
                "gen.mk: force\n\t@echo '  GEN gen.mk -> x'; cmp -s conf $@ || cp conf $@\n"
                "force:\n.PHONY: force\n-include gen.mk\n",
                "a": "a\n",
                "conf": "v = 1\n",
            }
        )
        answer = self.accepted()
        self.assertIn("cmp -s conf gen.mk || cp conf gen.mk", answer.rules())
        self.assertNotIn("\t  GEN", answer.rules())
        self.assertNotIn("of a real build", answer.output)

    LIKE_MAKE = (
        "  SPLIT include/autoconf.h -> include/config/*",
        "cc -c other.c -o other.o",
        "make[1]: Entering directory '/other'",
        "make: *** [Makefile:2: other] Error 1",
        "Makefile:2: target 'other' does not exist",
        "# GNU Make 4.3",
        "# Make data base, printed on a day",
        "# Finished Make data base on a day",
    )
    PRINTING = "".join(
        f"{name}: a lines\n\t@cat lines; sleep 0.02\n\tcat lines; cp a {name}\n\t@cat lines\n"
        for name in "xyz"
    )

    def test_what_looks_like_a_command_or_like_make_is_neither(self) -> None:
        self.write({"Makefile": f"all: x y z\n.PHONY: all\n{self.PRINTING}"})
        self.prints_in("")

    def test_what_is_printed_beside_other_recipes_is_neither(self) -> None:
        """The make below has four jobs."""
        self.write(
            {
                "Makefile": "all:\n\t@cat sub/lines\n\t$(MAKE) -j4 -C sub\n.PHONY: all\n",
                "sub/Makefile": f"all: x y z\n.PHONY: all\n{self.PRINTING}",
            }
        )
        self.prints_in("sub/")

    def prints_in(self, folder: str) -> None:
        """An import of recipes in a folder that print such lines before, in and after their
        commands."""
        lines = "".join(f"{line}\n" for line in self.LIKE_MAKE)
        self.write({f"{folder}a": "a\n", f"{folder}lines": lines})
        answer = self.accepted()
        for name in "xyz":
            commands = answer.records[folder + name].commands
            self.assertEqual(
                [re.sub(r"^(cd sub; )?(set \+e; )?", "", line) for line in commands],
                ["cat lines; sleep 0.02", f"cat lines; cp a {name}", "cat lines"],
            )
        for line in self.LIKE_MAKE:
            self.assertNotIn(line, answer.makefile)
        self.assertNotIn("of a real build", answer.output)


@can_judge
class LookTest(UnseenTestCase):
    """What will be judged, said before any build."""

    def test_look_makes_no_build_and_leaves_nothing(self) -> None:
        self.write({"Makefile": "x: a y\n\tcat a y > x\ny:\n\ttouch y\n", "a": "a\n"})
        answer = self.imported("--look")
        self.assertEqual(answer.status, 0, answer.errors)
        self.assertIn("2 of 2 recipes will be judged, for x, by GNU Make", answer.output)
        self.assertFalse((self.folder / ".mkcheck").exists())

    def test_a_make_that_only_a_build_can_show(self) -> None:
        self.write(
            {
                "Makefile": "all: gen\n\t$(MAKE) -f below.mk\ngen:\n\techo 1 > gen.h\n",
                "below.mk": "x: gen.h\n\tcp gen.h x\n",
            }
        )
        answer = self.imported("--look")
        self.assertEqual(answer.status, 0, answer.errors)
        front = "only a build shows what will be judged, for all, by GNU Make"
        self.assertTrue(answer.output.startswith(front), answer.output)
        self.assertIn(
            "`make -n` fails in the project's folder: No rule to make target 'gen.h', needed by"
            " 'x'; so an import after an edit builds all anew, unless `make -n` succeeds before a"
            " build\n",
            answer.output,
        )
        self.assertNotIn("Not judged", answer.output)
        self.assertNotIn("not judged", answer.errors)
        heading = "\n\nLeft open by `make -n` (a build may show it):\n"
        _, _, rest = answer.output.partition(heading)
        failed, unrun = rest.splitlines()
        front = "    make failed in the project's folder with status 2: "
        self.assertTrue(failed.startswith(front), failed)
        self.assertTrue(failed.endswith("No rule to make target 'gen.h', needed by 'x'."), failed)
        front = "    below.mk:2: make didn't run the recipe of x"
        self.assertTrue(unrun.startswith(front), unrun)

    def test_a_file_that_another_make_makes(self) -> None:
        """As in Automake's builds: `make -n` alone fails, since nothing has made it."""
        self.write(
            {
                "Makefile": "all:\n\t$(MAKE) -C lib\n\t$(MAKE) p\n"
                "p: s lib/l lib/m\n\tcat $^ > p\n",
                "s": "s\n",
                "lib/Makefile": "all: l m\nl: a\n\tcp a l\nm:\n\techo > m\n",
                "lib/a": "a\n",
            }
        )
        asked = subprocess.run(
            ["make", "-n"], cwd=self.folder, capture_output=True, text=True, check=False
        )
        self.assertIn("No rule to make target 'lib/l', needed by 'p'", asked.stderr)
        answer = self.imported("--look")
        self.assertIn("3 of 3 recipes will be judged, for all, by GNU Make", answer.output)
        answer = self.imported()
        self.assertEqual(answer.status, 0, answer.output + answer.errors)
        self.assertEqual(sorted(answer.records), ["lib/l", "lib/m", "p"])
        self.assertFalse((self.folder / "lib" / "l").exists())
        built = self.built()
        self.assertTrue(self.rebuilds(built, ["s"], ["p"]))
        self.assertTrue(self.rebuilds(built, ["lib/a"], ["p"]))

    def test_a_file_of_a_make_that_the_same_make_starts(self) -> None:
        """It stands there for the one, and not for the other, which would take it for done."""
        self.write(
            {
                "Makefile": "all: sub p\nsub:\n\t$(MAKE) -C lib\n"
                "p: s lib/m | sub\n\tcat s lib/m > p\n.PHONY: all sub\n",
                "s": "s\n",
                "lib/Makefile": "m:\n\techo > m\n",
            }
        )
        answer = self.imported("--look")
        self.assertIn("2 of 2 recipes will be judged, for all, by GNU Make", answer.output)
        answer = self.imported()
        # With several jobs make looks at lib/m before the make below has written it.
        self.assertEqual(answer.status, 1, answer.output + answer.errors)
        self.assertIn("as in 'lib/m: PREREQUISITES ;'", answer.output)
        self.assertEqual(sorted(answer.records), ["lib/m", "p"])
        self.assertTrue(self.rebuilds(self.built(), ["s"], ["p"]))

    def test_a_command_that_fails_where_nothing_is_built(self) -> None:
        """It enters a folder that a recipe makes."""
        self.write(
            {
                "Makefile": "all: gen\n\tcd gen && $(MAKE)\n"
                "gen: below.mk\n\tmkdir -p gen && cp below.mk gen/Makefile\n",
                "below.mk": "x:\n\techo > x\n",
            }
        )
        answer = self.imported("--look")
        self.assertRegex(
            answer.output,
            r"`make -n` fails in the project's folder at the command `cd gen && make` of all:"
            r" .*\bcd\b.*\bgen\b.*; so an import after an edit builds all anew, ",
        )


@can_judge
class WordsTest(UnseenTestCase):
    """One sentence for one line of a makefile, and for one cause."""

    def objects(self, headers: dict[str, str], more: str = "") -> None:
        """Objects of one pattern rule, each of which reads a header."""
        names = " ".join(f"{name}.o" for name in headers)
        self.write(
            {
                "Makefile": f"all: {names}\n.PHONY: all\n%.o: %.c\n\tcat $< `cat $<` > $@{more}\n",
                **{f"{name}.c": f"{header}\n" for name, header in headers.items()},
                **{header: "1\n" for header in headers.values()},
            }
        )

    def test_objects_of_one_rule_that_read_the_same_are_one_sentence(self) -> None:
        self.objects({"a": "h", "b": "h", "c": "g"})
        answer = self.imported()
        self.assertIn(
            "no: 3 findings in 2 sentences (3 recipes", answer.output, answer.output + answer.errors
        )
        self.assertIn("\nMakefile:4: a.o and b.o aren't made again when h changes\n", answer.output)
        self.assertIn("\nMakefile:4: c.o isn't made again when g changes\n", answer.output)
        self.try_answer(answer)

    def test_many_objects_of_one_rule_are_one_sentence(self) -> None:
        self.objects({name: f"{name}.h" for name in "abcdefgh"})
        answer = self.imported()
        self.assertIn(
            "\nMakefile:4: a.o, b.o, c.o, d.o, e.o and 3 more targets aren't made again when files"
            " change that their recipes read: a.o when a.h changes\n\nAdd to Makefile:\n",
            answer.output,
        )

    def test_objects_in_a_folder_of_the_build_have_the_rule_beside_them(self) -> None:
        rule = "$D/%.o: %.c | $D"
        self.write(
            {
                "Makefile": "D := obj/$(shell echo 1 | tr 1 2)\nall: $D/a.o $D/b.o\n.PHONY: all\n"
                f"{rule} # objects\n\tcat $< h > $@\n$D:\n\tmkdir -p $D\n",
                **{"a.c": "1\n", "b.c": "1\n", "h": "1\n"},
            }
        )
        answer = self.imported()
        self.assertIn(
            "\nMakefile:5: obj/2/a.o and obj/2/b.o aren't made again when h changes"
            f" (their rule is `{rule}`)\n",
            answer.output,
        )

    def test_a_dependency_file_that_nothing_includes_is_the_cause(self) -> None:
        self.objects({"a": "h"}, "; echo '$@: $<' `cat $<` > $*.d")
        answer = self.imported()
        self.assertIn(
            "\nMakefile:4: a.o isn't made again when h changes (its recipe writes a.d, which names"
            " it, and no makefile includes that)\n",
            answer.output,
        )
        self.add_lines("-include a.d\n")
        self.accepted()

    def test_the_target_of_a_built_in_rule_has_the_line_of_its_prerequisites(self) -> None:
        self.write(
            {
                "Makefile": "CC = ./cc\na.o: a.c cc\n",
                "cc": '#!/bin/sh\ncat "$4" h > "$3"\n',
                "a.c": "1\n",
                "h": "1\n",
            }
        )
        answer = self.imported()
        self.assertIn("\nMakefile:2: a.o isn't made again when h changes\n", answer.output)

    def test_files_that_recipes_of_one_line_share_are_one_sentence(self) -> None:
        self.write({"Makefile": "all: a b c\n.PHONY: all\na b c: s\n\ttee a b c < s\n", "s": "1\n"})
        answer = self.imported()
        self.assertEqual(answer.output.count("both write"), 1, answer.output)
        self.assertIn("; so it is with 2 more pairs of a, b and c\n", answer.output)

    def test_long_commands_that_differ_are_quoted_from_the_first_word_that_differs(self) -> None:
        words = " ".join(f"word{number}" for number in range(20))
        self.write({"Makefile": f"x: a\n\techo {words} $(wildcard x) $< > x\n", "a": "1\n"})
        answer = self.imported()
        self.assertIn("other commands for x: `.. x a > x` and not `.. a > x`", answer.output)


@can_judge
class PartTest(UnseenTestCase):
    """What can't be judged costs itself."""

    def test_a_recipe_that_the_first_build_does_not_run(self) -> None:
        self.write(
            {
                "Makefile": "x: a\n\tcat a h > x; echo 'x: extra' > x.d\n"
                "extra: b\n\tcp b extra\n-include x.d\n",
                "a": "1\n",
                "b": "1\n",
                "h": "1\n",
            }
        )
        answer = self.imported()
        self.assertEqual((answer.status, answer.findings), (1, ["no stale x h"]))
        self.assertIn("no: 1 finding (1 of 2 recipes judged)\n", answer.output)
        self.assertIn(
            "\nNot judged:\n    Makefile:4: make didn't run the recipe of extra", answer.output
        )
        self.try_answer(answer)

    def test_a_recipe_that_cannot_be_recorded(self) -> None:
        self.write(
            {
                "Makefile": "all: x y\n.PHONY: all\nx: a\n\tcat a h > x\n"
                "y: b\n\tdate +%N > y; cat b >> y\n",
                "a": "1\n",
                "b": "1\n",
                "h": "1\n",
            }
        )
        answer = self.imported(replay=True)
        self.assertEqual((answer.status, answer.findings), (1, ["no stale x h"]))
        self.assertIn("no: 1 finding (1 of 2 recipes judged)\n", answer.output)
        self.assertIn("\nNot judged:\n    Makefile:6: the recipe of y, run in", answer.output)
        self.add_lines("x: h\n")
        answer = self.imported(replay=True)
        self.assertEqual((answer.status, answer.findings), (4, []))
        self.assertIn("yes as far as judged (1 of 2 recipes judged)\n", answer.output)
