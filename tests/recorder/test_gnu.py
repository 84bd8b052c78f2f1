"""What GNU make has or does by itself, and mkcheck doesn't: macros, and what it makes first."""

from __future__ import annotations

import os
import shutil
import subprocess
import unittest

from recorder.project import MKCHECK, OF_MAKE, ProjectTest, traced


def refusal(name: str, value: str, word: str) -> str:
    """What is said of a macro that only GNU make defines."""
    return (
        f"mkcheck-record: the makefile uses {name}, which GNU make defines and mkcheck doesn't:"
        f" write `{name} = {value}` into the makefile, or give {name}={word} as a word to"
        " mkcheck-record and mkcheck\n"
    )


@traced
class PredefinedTest(ProjectTest):
    """Macros that GNU make defines."""

    def refused(self, makefile: str, *words: str) -> str:
        """Records, which has to be refused before any recipe runs; returns what was said."""
        self.write({"makefile": makefile})
        outcome = self.record(*words)
        self.assertEqual((outcome.status, outcome.book), (2, None), outcome.errors)
        return outcome.errors

    def test_a_macro_in_a_command(self) -> None:
        ran = self.scratch / "ran"
        for name, value, word in (
            ("CURDIR", "...", "..."),
            ("MAKEFILE_LIST", "...", "..."),
            ("MAKE_VERSION", "...", "..."),
            (".FEATURES", "...", "..."),
            ("AR", "ar", "ar"),
            ("CXX", "g++", "g++"),
            ("RM", "rm -f", "'rm -f'"),
            ("SHELL", "/bin/sh", "/bin/sh"),
        ):
            text = f"a: b\n\techo '$({name})' > a\nb:\n\techo > {ran}; echo > b\n"
            self.assertEqual(self.refused(text), refusal(name, value, word))
            self.assertFalse(ran.exists())

    def test_a_macro_of_a_macro(self) -> None:
        text = "DIR = $(CURDIR)/no-such-folder\na:\n\tls $(DIR) > a\n"
        self.assertEqual(self.refused(text), refusal("CURDIR", "...", "..."))
        self.write({"part.mk": "TOOLS = $(LD) $(CC)\n"})
        text = "include part.mk\na:\n\techo $(TOOLS) > a\n"
        self.assertEqual(self.refused(text), refusal("LD", "ld", "ld"))
        said = refusal("LD", "ld", "ld") + refusal("CC", "cc", "cc")
        self.assertEqual(self.refused(text, "-r"), said)

    def test_a_macro_in_a_prerequisite(self) -> None:
        text = "a: $(AS).x b\n\techo > a\n.x b:\n\techo > $@\n"
        self.assertEqual(self.refused(text), refusal("AS", "as", "as"))

    def test_a_macro_that_gets_more(self) -> None:
        text = "CXX += -g\na:\n\techo '$(CXX)' > a\n"
        self.assertEqual(self.refused(text), refusal("CXX", "g++", "g++"))

    def test_macros_that_have_a_value(self) -> None:
        text = "RM = rm\na:\n\techo '$(RM) $(CURDIR) $(CPPFLAGS) $(MAKE) $(CC)' > a\n"
        self.write({"makefile": text})
        self.assertEqual(self.recorded("CURDIR=x").warnings(), [])
        self.assertEqual(self.refused(text), refusal("CURDIR", "...", "..."))

    def test_a_macro_that_gets_a_value_where_it_has_none(self) -> None:
        for text, told in (
            (
                "CXX ?= clang++\na:\n\techo '$(CXX)' > a\n",
                [
                    "the makefile gives CXX a value by ?=, which GNU make passes over, since it has"
                    " `CXX = g++` by itself: write `CXX = clang++`"
                ],
            ),
            ("AR ?= ar\na:\n\techo '$(AR)' > a\n", []),
        ):
            self.write({"makefile": text})
            self.assertEqual(self.recorded().warnings(), told)

    def test_a_macro_that_the_goals_do_without(self) -> None:
        self.write({"makefile": "a:\n\techo > a\nb:\n\techo $(CURDIR) > b\n"})
        self.assertEqual(self.recorded("a").warnings(), [])


def built_in(name: str, origin: str, here: str) -> str:
    """What is said of a name that GNU make makes by a rule of its own."""
    return (
        f"GNU make makes {name} from {origin} by a built-in rule, which mkcheck doesn't have:"
        f" {name} {here} here; write that rule into the makefile, or give -r to make, to mkcheck"
        " and to mkcheck-record"
    )


@traced
class QuestionsTest(ProjectTest):
    """What mkcheck is asked for a recording."""

    def test_a_plain_makefile_takes_few_questions(self) -> None:
        """Each starts a process, and most builds of one file take less than twenty of these."""
        asked, script = self.scratch / "asked", self.scratch / "mkcheck"
        script.write_text(f'#!/bin/sh\necho "$1" >> {asked}\nexec {MKCHECK} "$@"\n')
        script.chmod(0o755)
        self.write({"makefile": "a: s\n\tcp s a\n", "s": "1\n"})
        outcome = self.recorded(environment={"MKCHECK": str(script)})
        self.assertEqual(outcome.own("a"), ({"s"}, {"a"}))
        self.assertLessEqual(len(asked.read_text().splitlines()), 12)


@traced
class DifferenceTest(ProjectTest):
    """What GNU make does otherwise, without a word."""

    def warnings(self, makefile: str, *words: str) -> list[str]:
        """The warnings for a makefile."""
        self.write({"makefile": makefile})
        return self.recorded(*words).warnings()

    def test_texts_of_the_makefile_that_have_a_rule(self) -> None:
        self.write({"config.in": "", "config.mk": "NAME = other\n", "plain.mk": ""})
        text = (
            "include config.mk plain.mk # and no more\n-include $(NAME).mk\nall:\n\techo > all\n"
            "config.mk: config.in\n\tcp config.in config.mk\nother.mk:\n\techo > other.mk\n"
        )
        again = "targets that use its macros aren't made again when it changes"
        end = f"before it reads the makefile: {again}"
        self.assertEqual(
            self.warnings(text, "all"),
            [f"GNU make makes {name} {end}" for name in ("config.mk", "other.mk")],
        )
        self.assertEqual(
            self.warnings("all:\n\techo > all\nmakefile: config.in\n\ttouch makefile\n"),
            [f"GNU make makes makefile first and reads it anew: {again}"],
        )
        self.assertEqual(self.warnings("include plain.mk\nall:\n\techo > all\n"), [])

    @unittest.skipUnless(shutil.which("make"), "no make")
    def test_a_file_at_which_make_looks_too_early(self) -> None:
        """Make is asked: after an edit of the source, what it leaves is old or not."""
        front = "GNU make looks at p.h only before the recipe of p.c makes it, so"
        end = (
            "may stay old in that make: write `p.h: p.c ;`, whose empty recipe makes it look again"
        )
        recipes = "m: n p.h\n\tcat n p.h > m\np.c: p.y\n\tcp p.y p.c; cp p.y p.h\n"
        for rules, told in (
            (f"{recipes}p.h: p.c\n", [f"{front} m {end}"]),
            (f"{recipes}p.h: p.c ;\n", []),
            (f"{recipes}p.h: p.c\nm: p.c\n", []),
        ):
            self.write({"makefile": rules, "p.y": "1\n", "n": ""})
            self.assertEqual(self.warnings(rules), told)
            self.assertEqual(self.made_after_an_edit(), "1\n" if told else "2\n", rules)
        users = "m o: p.h\n\tcat p.h > $@\np.h: p.c\np.c: p.y\n\tcp p.y p.c; cp p.y p.h\n"
        self.assertEqual(self.warnings(users, "m", "o"), [f"{front} m, o {end}"])
        alone = "all: p.h\np.h: p.c\np.c: p.y\n\tcp p.y p.h; cp p.y $@\n"
        self.assertEqual(self.warnings(alone), [])

    def made_after_an_edit(self) -> str:
        """What m holds when make made all, p.y got another number, and make made all again."""
        folder = self.scratch / "made"
        shutil.copytree(self.folder, folder)
        environment = {name: value for name, value in os.environ.items() if name not in OF_MAKE}
        for number in (1, 2):
            for path in folder.iterdir():
                os.utime(path, (0, 0))
            (folder / "p.y").write_text(f"{number}\n")
            subprocess.run(
                ["make", "-s"], cwd=folder, env=environment, check=True, capture_output=True
            )
        text = (folder / "m").read_text()
        shutil.rmtree(folder)
        return text

    def test_folders_in_which_make_looks_for_files(self) -> None:
        told = (
            "the makefile sets VPATH, by which GNU make takes old/a for a where that isn't there,"
            " and makes it only if it is old: name each file with its folder, and set no VPATH"
        )
        rules = "out: a\n\tcat $< > out\na: x\n\tcp x a\n"
        self.write({"makefile": f"VPATH = none:old\n{rules}", "x": "1\n", "old/a": "2\n"})
        os.utime(self.folder / "x", (1e9, 1e9))
        self.assertEqual(self.recorded().warnings(), [told])
        self.assertEqual(self.recorded("VPATH=none").warnings(), [])
        if shutil.which("make"):
            copy = self.scratch / "copy"
            shutil.copytree(self.folder, copy)
            environment = {name: value for name, value in os.environ.items() if name not in OF_MAKE}
            subprocess.run(["make", "-s"], cwd=copy, env=environment, check=True)
            self.assertEqual((copy / "out").read_text(), "2\n")
        self.write({"makefile": rules})
        self.assertEqual(self.recorded().warnings(), [])
        self.write({"makefile": "VPATH = none:old\nb: a\n\tcp $< b\n"})
        outcome = self.record()
        self.assertEqual(outcome.status, 2)
        self.assertIn("by which GNU make takes old/a for a, and mkcheck doesn't", outcome.errors)
        self.write({"makefile": rules})
        said = self.recorded(environment={"VPATH": "old"}).warnings()
        self.assertEqual(said, [told.replace("the makefile", "the environment")])

    def test_options_of_the_environment(self) -> None:
        self.write({"makefile": "out: a\n\tcp a out\n", "a": ""})
        front = "the environment sets"
        for given, told in (
            ({"MAKEFLAGS": "-j4 -s --no-print-directory"}, []),
            ({"MAKEFLAGS": "-t", "MAKELEVEL": "1"}, []),
            (
                {"MAKEFLAGS": "-t CC=gcc", "GNUMAKEFLAGS": "-B"},
                [
                    f"{front} -t in MAKEFLAGS, by which make touches targets and doesn't run their"
                    " commands; unset that when make is started",
                    f"{front} CC=gcc in MAKEFLAGS, by which make does what isn't judged here; unset"
                    " that when make is started",
                    f"{front} -B in GNUMAKEFLAGS, by which make makes all anew each time; unset"
                    " that when make is started",
                ],
            ),
            (
                {"MAKEFILES": "more.mk"},
                [
                    f"{front} MAKEFILES: GNU make reads the files that it names first, which aren't"
                    " judged here; unset it when make is started"
                ],
            ),
        ):
            self.assertEqual(self.recorded(environment=given).warnings(), told, given)

    def test_a_goal_of_a_text_that_is_made_first(self) -> None:
        rules = "all: a\na:\n\techo > a\ndeps.mk: list\n\tcp list deps.mk\n"
        again = (
            "GNU make makes deps.mk before it reads the makefile: targets that use its macros"
            " aren't made again when it changes"
        )
        goal = (
            "GNU make makes deps.mk, which isn't there yet, before it reads the makefile: if it has"
            " a target, the first one is the goal, and not all; make deps.mk first, and give all as"
            " a word, to make too"
        )
        self.write({"list": "a: list\n", "rules.mk": rules})
        name = "NAME = deps\n.PHONY: clean\n.SUFFIXES: .x\n.x.o:\n\tcp $< $@\n"
        for makefile, words, told in (
            (f"-include deps.mk\n{rules}", (), [again, goal]),
            (f"{name}-include other.mk \\\n $(NAME).mk\n{rules}", (), [again, goal]),
            (f"-include deps.mk\n{rules}", ("all",), [again]),
            (f"{rules}-include deps.mk\n", (), [again]),
            ("include rules.mk\n-include deps.mk\n", (), [again]),
            (f".DEFAULT_GOAL = all\n-include deps.mk\n{rules}", (), [again]),
            (f"-include none.mk\n{rules}", (), []),
        ):
            self.assertEqual(self.warnings(makefile, *words), told, makefile)
        self.write({"deps.mk": "", "list": ""})
        self.assertEqual(self.warnings(f"-include deps.mk\n{rules}"), [again])

    def test_prerequisites_that_an_old_make_does_not_order(self) -> None:
        """`.WAIT` is a file for GNU make before 4.4."""
        end = (
            "takes .WAIT for a file and orders nothing by it: answers are for a make that knows"
            " it, as GNU make does from 4.4 on; let one target need the other in its place"
        )
        text = "all: a .WAIT b\n.WAIT:\n.PHONY: b\na:\n\techo > a\nb:\n\tcat a\n"
        alone = "all: a b\n.NOTPARALLEL:\n.PHONY: b\na:\n\techo > a\nb:\n\tcat a\n"
        included = "order = .WAIT\n"
        through = "include order.mk\n" + text.replace("a .WAIT b", "a $(order) b")
        unused = text.replace("a .WAIT b", "a b")
        for says, makefile, told in (
            ("GNU Make 4.3", text, ["make is GNU make 4.3 here, which " + end]),
            ("GNU Make 3.81", through, ["make is GNU make 3.81 here, which " + end]),
            ("GNU Make 4.4", text, []),
            ("GNU Make 10.0", text, []),
            ("usage: make", text, []),
            ("GNU Make 4.3", alone, []),
            ("GNU Make 4.3", unused, []),
        ):
            self.write({"bin/make": f"#!/bin/sh\necho '{says}'\n", "order.mk": included})
            self.write({"makefile": makefile})
            path = f"{self.folder}/bin:{os.environ['PATH']}"
            outcome = self.record("all", environment={"PATH": path})
            self.assertEqual((outcome.status, outcome.warnings()), (0, told), (says, makefile))

    def test_variables_to_which_the_makefile_gives_a_value(self) -> None:
        text = (
            "ONE = a$(TWO)\nTWO += b\nTHREE ?= c\nPATH ::= $(PATH):/none\nPWD = /none\nNEW = d\n"
            'all:\n\techo "$$ONE $$TWO $$THREE $$FOUR $$NEW" > all; cat all; pwd\n'
            '\techo "$$PATH"; exit 3\n'
        )
        self.write({"makefile": text})
        given = {"ONE": "1", "TWO": "2 $x", "THREE": "3", "FOUR": "4", "NEW": None}
        outcome = self.record(environment=given)
        end = f"\na2 $x b 2 $x b 3 4 \n{self.folder}\n{os.environ['PATH']}:/none\n"
        self.assertTrue(outcome.errors.endswith(end), outcome.errors)
        outcome = self.record("ONE=5", environment=given)
        self.assertIn("\n5 2 $x b 3 4 \n", outcome.errors)

    def test_a_goal_that_the_makefile_names(self) -> None:
        text = "a:\n\techo > a\nb:\n\techo > b\n.DEFAULT_GOAL = "
        told = "GNU make takes b as the goal: give it as a word"
        self.assertEqual(self.warnings(f"{text}b\n"), [told])
        self.assertEqual(self.warnings(f"{text}b\n", "a"), [])
        self.assertEqual(self.warnings(f"{text}a\n"), [])

    def test_names_that_are_not_there(self) -> None:
        self.write({"gram.y": "", "gram.h": ""})
        rule = "all: gram.c\n\techo > all\ngram.c: gram.h\n"
        self.assertEqual(self.warnings(rule), [built_in("gram.c", "gram.y", "has no recipe")])
        self.assertEqual(self.warnings(rule, "-r"), [])
        self.write({"gram.c": ""})
        self.assertEqual(self.warnings(rule), [built_in("gram.c", "gram.y", "counts as a source")])
        rule = "main: main.o util.o\nmain.o util.o: gram.h\n\techo > $@\n"
        self.assertEqual(self.warnings(rule), [built_in("main", "main.o", "has no recipe")])
        self.write({"main.c": ""})
        self.assertEqual(
            self.warnings(rule, "CC=touch main;:"),
            [built_in("main", "main.o", "is made from main.c")],
        )
        self.assertEqual(self.warnings(f"{rule}main: ; touch main\n"), [])

    def test_names_that_several_rules_make(self) -> None:
        self.write({"gram.y": "", "gram.h": ""})
        self.assertEqual(
            self.warnings("all: gram.o\n\techo > all\ngram.o: gram.h\n"),
            [built_in("gram.o", "gram.y", "has no recipe")],
        )

    def test_commands_that_hold_what_is_out_of_date(self) -> None:
        text = "lib: a b\n\tcat $? > lib </dev/null\na b:\n\techo > $@\n"
        self.assertEqual(
            self.warnings(text), ["the commands of lib use $?, which is empty here: write $^"]
        )
        self.assertEqual(self.warnings(text, "a"), [])


if __name__ == "__main__":
    unittest.main()
