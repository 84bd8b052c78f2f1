"""Builds of GNU make that go wrong by what no footprint of a recipe shows: never a plain yes.

Each project is tried under GNU make: what it leaves after an edit isn't what a clean build leaves.
Beside each stands one that is right, and that is a yes.
"""

from __future__ import annotations

import re
import shutil
import subprocess
import unittest
from pathlib import Path

from importer.make_folder import Answer, MakeFolderTest, can_judge
from waits import found_once, wait_for_later_stamps

A_FUNCTION = "a function, as $(if ..) or $(shell ..), or a computed name"


class UnseenTestCase(MakeFolderTest):
    """What GNU make leaves after an edit, beside what a clean build leaves."""

    def left(
        self, edits: dict[str, str], output: str, first: str = "", goal: str = ""
    ) -> list[str]:
        """The text of an output after a build, edits and a further build, and after a clean build
        of the edited sources. `first` and `goal` are the goals of the two builds."""
        folder = self.copied("edited")
        self.run_make(folder, first)
        self.edit(folder, edits)
        self.run_make(folder, goal or first)
        clean = self.copied("clean")
        self.edit(clean, edits)
        self.run_make(clean, goal or first)
        return [(place / output).read_text() for place in (folder, clean)]

    def run_make(self, folder: Path, goal: str) -> None:
        """Makes a goal, which has to succeed."""
        done = self.make(folder, *([goal] if goal else []))
        self.assertEqual(done.returncode, 0, done.stdout + done.stderr)

    def edit(self, folder: Path, edits: dict[str, str]) -> None:
        """Writes sources anew, which get later stamps than what is built."""
        wait_for_later_stamps(folder)
        for name, text in edits.items():
            (folder / name).write_text(text)

    def refused(self, sentence: str, *words: str) -> Answer:
        """An import that isn't judged, and says why."""
        answer = self.imported(*words)
        status = 2 if answer.output.startswith("no answer: no recipe could be judged") else 4
        self.assertEqual(
            (answer.status, answer.findings), (status, []), answer.output + answer.errors
        )
        self.assertIn("\nNot judged:\n", answer.output)
        self.assertIn(sentence, answer.output)
        return answer

    def stays_old(self, target: str, file: str) -> Answer:
        """An import that finds that a target stays old when a file changes that make reads."""
        answer = self.imported()
        self.assertEqual(answer.status, 1, answer.output + answer.errors)
        text = f"{target} isn't made again when {file} changes: make reads {file} for its commands"
        self.assertIn(text, answer.output)
        return answer

    def accepted(self, *words: str) -> Answer:
        """An import whose answer is yes."""
        answer = self.imported(*words)
        self.assertEqual(answer.status, 0, answer.output + answer.errors)
        return answer


@can_judge
class WrittenMakefileTest(UnseenTestCase):
    """A makefile that a recipe writes, and a later make reads."""

    def test_rules(self) -> None:
        self.write(
            {
                "Makefile": "all: gen.mk\n\t$(MAKE) -f gen.mk x\n"
                "gen.mk: list\n\tsed 's/.*/x: &\\n\\tcat & > x/' list > gen.mk\n.PHONY: all\n",
                "list": "a\n",
                "a": "a\n",
                "b": "b\n",
            }
        )
        self.assertEqual(self.left({"list": "b\n"}, "x"), ["a\n", "b\n"])
        self.refused(
            "    gen.mk: the recipe of gen.mk writes it, and a make reads it as its makefile"
        )

    def test_prerequisites(self) -> None:
        """Dependency files are makefiles too, and hold nothing but prerequisites."""
        self.write(
            {
                "Makefile": "all:\n\t$(MAKE) -f sub.mk x\n.PHONY: all\n",
                "sub.mk": "x: a\n\tcat a h > x; { echo '# of x'; echo 'x: a \\'; echo ' h'; }"
                " > x.d\n-include x.d\n",
                "a": "a\n",
                "h": "h\n",
            }
        )
        self.assertEqual(self.left({"h": "i\n"}, "x"), ["a\ni\n", "a\ni\n"])
        self.accepted()


@can_judge
class RemadeMakefileTest(UnseenTestCase):
    """A makefile with macros that make makes anew when it reads its makefiles."""

    SENTENCE = (
        "    config.mk: make makes this makefile anew when config.in changes, commands may be"
        " others then, and make doesn't run those again; let all that is made need config.mk\n"
    )

    def macros(self, needs: str, rule: str = "config.mk: config.in\n\tcp config.in $@") -> None:
        """It is there already, as an earlier build or the project has left it."""
        self.write(
            {
                "Makefile": f"include config.mk\nx: a {needs}\n\t{{ echo $(v); cat a; }} > x\n"
                f"{rule}\nclean:\n\trm -f x\n",
                "a": "a\n",
                "config.in": "v = 1\n",
                "config.mk": "v = 1\n",
            }
        )

    def test_nothing_needs_it(self) -> None:
        self.macros("")
        self.assertEqual(self.left({"config.in": "v = 2\n"}, "x"), ["1\na\n", "2\na\n"])
        self.refused(self.SENTENCE)

    def test_made_anew_in_each_run(self) -> None:
        """As git's makefile has it: the file is written only if its contents change."""
        rule = "config.mk: config.in FORCE\n\tcmp -s config.in $@ || cp config.in $@\nFORCE:"
        self.macros("", rule)
        self.assertEqual(self.left({"config.in": "v = 2\n"}, "x"), ["1\na\n", "2\na\n"])
        answer = self.imported()
        self.assertEqual(answer.status, 1, answer.output + answer.errors)
        self.assertIn("x isn't made again when config.in changes", answer.output)
        self.assertIn(self.SENTENCE.replace("when config.in changes", "in each run"), answer.output)

    def test_all_need_it(self) -> None:
        for needs in ("config.mk", "config.in"):
            self.macros(needs)
            self.assertEqual(self.left({"config.in": "v = 2\n"}, "x"), ["2\na\n", "2\na\n"])
            self.accepted()

    def test_all_need_what_a_script_writes(self) -> None:
        """Most other contents of the script aren't one, so what it decides can't be tried."""
        self.macros("config.mk", "config.mk: configure.sh\n\tsh configure.sh > config.mk")
        self.write({"configure.sh": "echo 'v = 1'\n"})
        edits = {"configure.sh": "echo 'v = 2'\n"}
        self.assertEqual(self.left(edits, "x"), ["2\na\n", "2\na\n"])
        self.accepted()
        (self.folder / "config.mk").unlink()
        self.assertEqual(self.left(edits, "x"), ["2\na\n", "2\na\n"])
        self.accepted()

    def test_make_below_that_needs_it(self) -> None:
        """The make below has no rule for it."""
        self.write(
            {
                "Makefile": "include config.mk\nall:\n\t$(MAKE) -C sub\n.PHONY: all\n"
                "config.mk: configure.sh\n\tsh configure.sh > config.mk\n",
                "configure.sh": "echo 'v = 1'\n",
                "sub/Makefile": "include ../config.mk\nx: a\n\t{ echo $(v); cat a; } > x\n",
                "sub/a": "a\n",
            }
        )
        edits = {"configure.sh": "echo 'v = 2'\n"}
        self.assertEqual(self.left(edits, "sub/x"), ["1\na\n", "2\na\n"])
        self.refused(self.SENTENCE.replace("config.in", "configure.sh"))
        with open(self.folder / "sub/Makefile", "a", encoding="utf-8") as file:
            file.write("x: ../config.mk\n")
        self.assertEqual(self.left(edits, "sub/x"), ["2\na\n", "2\na\n"])
        self.accepted()

    def test_one_recipe_does_not(self) -> None:
        self.macros("config.mk")
        self.add_lines("x: y\ny: a\n\techo $(v) > y\n")
        self.refused(self.SENTENCE)

    def test_recipes_that_always_run(self) -> None:
        self.macros("force")
        self.add_lines("force:\n.PHONY: force\n")
        self.accepted()

    def test_it_is_made_once(self) -> None:
        """A makefile that needs nothing is made if it is missing, and never again."""
        self.macros("", "config.mk:\n\tcp config.in config.mk")
        self.accepted()

    def test_configure_step(self) -> None:
        """What config.status makes stays as it is until somebody configures again."""
        self.macros("", "config.mk: config.in\n\t./config.status")
        makefile = self.folder / "Makefile"
        makefile.write_text(makefile.read_text().replace("config.mk", "Makefile.inc"))
        (self.folder / "config.mk").rename(self.folder / "Makefile.inc")
        status = '#!/bin/sh\nconfig_files="Makefile.inc"\ncp config.in Makefile.inc\n'
        self.write({"config.status": status})
        self.assertIn("1 makefile that make makes anew", self.accepted().log)


@can_judge
class WhileReadingTest(UnseenTestCase):
    """Files that make makes when it reads its makefiles."""

    def test_once(self) -> None:
        self.write(
            {
                "Makefile": "$(shell test -f version || cp version.in version)\n"
                "x: a version\n\tcat a version > x\n",
                "a": "a\n",
                "version.in": "1\n",
            }
        )
        self.assertEqual(self.left({"version.in": "2\n"}, "x"), ["a\n1\n", "a\n2\n"])
        self.refused("    version: it is made when make reads its makefiles (by $(shell ..)")

    def test_recipe_that_make_expands(self) -> None:
        """`make -n` expands it, and so writes the file: that is no file of an earlier build, and
        counts as one that its recipe writes."""
        self.write(
            {
                "Makefile": "x: a list\n\tcat a list > x\nlist: b\n\t$(file > $@,one two)\n",
                "a": "a\n",
                "b": "b\n",
            }
        )
        answer = self.accepted()
        self.assertIn("that counts as a command of it", answer.output + answer.errors)
        self.assertNotIn("nothing tells whether", answer.output)

    def test_from_an_output(self) -> None:
        """It is made anew each time, but from what the build before left."""
        self.write(
            {
                "Makefile": "$(shell cat y > version 2> /dev/null)\nall: x y\n.PHONY: all\n"
                "x: a version\n\tcat a version > x\ny: b\n\tcp b y\n",
                "a": "a\n",
                "b": "1\n",
            }
        )
        self.assertEqual(self.left({"b": "2\n"}, "x"), ["a\n1\n", "a\n"])
        self.refused("    version: it is made when make reads its makefiles")

    def test_from_an_output_that_is_alike_once(self) -> None:
        """A build leaves it as it was, and a later one doesn't."""
        self.write(
            {
                "Makefile": "$(shell if grep -q z y 2> /dev/null; then echo 1; else echo 0; fi"
                " > version)\nall: x y\n.PHONY: all\n"
                "x: a version\n\tcat a version > x\ny: b\n\tcp b y\n",
                "a": "a\n",
                "b": "b\n",
            }
        )
        built = self.built()
        self.edit(built, {"b": "z\n"})
        for left in ("a\n0\n", "a\n1\n"):
            wait_for_later_stamps(built)
            self.run_make(built, "")
            self.assertEqual((built / "x").read_text(), left)
        self.refused("    version: it is made when make reads its makefiles")

    def test_from_a_file_that_is_there_later(self) -> None:
        """Nothing is read of it: make only looks whether it is there."""
        self.write(
            {
                "Makefile": "$(shell test -f y; echo 0 > version)\nall: x y\n.PHONY: all\n"
                "x: a version\n\tcat a version > x\ny: b\n\tcp b y\n",
                "a": "a\n",
                "b": "b\n",
            }
        )
        self.refused("    version: it is made when make reads its makefiles")

    def test_a_file_at_which_make_only_looks(self) -> None:
        makefile = "$(shell test -f flag)\nx: a\n\tcp a x\n"
        self.write({"Makefile": makefile, "a": "a\n", "flag": "1\n"})
        said = (
            "    commands that make starts when it reads its makefiles look at files without"
            " reading them, as `test -f` does (flag): import again when one of these comes or goes,"
            " or gets another size or mode"
        )
        self.assertIn(said, self.accepted().output.splitlines())

    def test_each_time(self) -> None:
        self.write(
            {
                "Makefile": "$(shell cp version.in version)\nx: a version\n\tcat a version > x\n",
                "a": "a\n",
                "version.in": "1\n",
            }
        )
        self.assertEqual(self.left({"version.in": "2\n"}, "x"), ["a\n2\n", "a\n2\n"])
        answer = self.accepted()
        self.assertIn("    version is made anew each time make reads its makefiles", answer.output)

    def test_folders(self) -> None:
        self.write({"Makefile": "$(shell mkdir -p out)\nout/x: a\n\tcp a out/x\n", "a": "a\n"})
        self.assertNotIn("makefiles", self.accepted().output)


@can_judge
class ReadingTest(UnseenTestCase):
    """Files that make reads beside its makefiles, and that have a part in commands."""

    def version(self, more: str = "", **files: str) -> None:
        self.write(
            {
                "Makefile": "v := $(shell cat version)\n"
                f"all: x y\n.PHONY: all\nx: a\n\techo $(v) > x; cat a >> x\ny: a\n\tcp a y\n{more}",
                "a": "a\n",
                "version": "1.0\n",
                **files,
            }
        )

    def test_commands(self) -> None:
        self.version()
        self.assertEqual(self.left({"version": "2.0\n"}, "x"), ["1.0\na\n", "2.0\na\n"])
        answer = self.imported()
        self.assertEqual(answer.status, 1, answer.output + answer.errors)
        self.assertIn(
            "no: 1 finding (2 recipes, 38 reads)\n\n"
            "Makefile:5: x isn't made again when version changes: make reads version for its"
            " commands, which are others then (`echo 2.1 > x; cat a >> x` and not `echo 1.0 > x;"
            " cat a >> x`)\n\nAdd to Makefile:\n    x: version\n",
            re.sub(r"\d+ reads", "38 reads", answer.output),
        )

    def test_target_that_needs_it(self) -> None:
        self.version("x: version\n")
        self.assertEqual(self.left({"version": "2.0\n"}, "x"), ["2.0\na\n", "2.0\na\n"])
        self.accepted()

    def test_order_only(self) -> None:
        self.version("x: | b\nb: version\n\tcp version b\n")
        self.assertEqual(self.left({"version": "2.0\n"}, "x"), ["1.0\na\n", "2.0\na\n"])
        answer = self.imported()
        self.assertEqual(answer.status, 1, answer.output + answer.errors)
        self.assertIn("x isn't made again when version changes: make reads", answer.output)

    def test_without_a_part(self) -> None:
        self.version("unused := $(shell cat notes)\nx: version\n", notes="1\n2\n")
        self.accepted()

    def test_without_an_effect(self) -> None:
        """Where nothing changes with other contents, these may be the wrong ones."""
        self.version(".PHONY: $(shell cat notes > /dev/null)\nx: version\n", notes="1\n2\n")
        sentence = (
            "make reads notes beside its makefiles, and whether commands depend on it isn't known,"
            " since make has the same macros and rules with all other contents that were tried;"
            " let all that is made need notes, or let a recipe read it"
        )
        self.refused(sentence)
        more = "unused := $(shell cat notes > /dev/null)\nx y: version notes\n"
        self.version(more, notes="1\n2\n")
        self.accepted()

    def mode(self, lines: str, needs: str = "") -> None:
        """A flag that `lines` set, where the file `mode` holds `debug`."""
        self.write(
            {
                "Makefile": f"{lines}x: a {needs}\n\techo $(flag) > x; cat a >> x\n",
                "a": "a\n",
                "mode": "release\n",
            }
        )
        left = "\na\n" if not needs else "-g\na\n"
        self.assertEqual(self.left({"mode": "debug\n"}, "x"), [left, "-g\na\n"])

    def test_condition(self) -> None:
        lines = "mode := $(shell cat mode)\nifeq ($(mode),debug)\nflag := -g\nendif\n"
        self.mode(lines)
        self.refused(
            "    Makefile:2: a condition depends on mode, which make reads beside its makefiles,"
            " and whether it has a part in commands was tried for a few contents alone; let all"
            " that is made need mode"
        )
        self.mode(lines, "mode")
        self.accepted()

    def test_condition_of_a_function(self) -> None:
        mode = "mode := $(shell cat mode)\n"
        self.mode(mode + "flag = $(if $(filter debug,$(mode)),-g)\n")
        self.stays_old("x", "mode")
        self.mode(mode + "flag = $(if $(filter debug,$(word 1,$(mode))),-g)\n")
        self.refused(f"    Makefile:2: {A_FUNCTION} depends on mode")
        self.mode(mode + "flag_debug := -g\nflag = $(flag_$(mode))\n")
        self.refused(f"    Makefile:3: {A_FUNCTION} depends on mode")

    def test_condition_of_a_macro_behind_it(self) -> None:
        self.mode(
            "file := $(shell cat mode)\nmode = x$(file)\n"
            "ifeq ($(mode),xdebug)\nflag := -g\nendif\n"
        )
        self.refused("    Makefile:3: a condition depends on mode")

    def test_condition_of_the_shell(self) -> None:
        """A word that the makefile names is tried; a whole file can't be guessed."""
        self.mode("flag := $(shell if grep -q debug mode; then echo -g; fi)\n")
        self.stays_old("x", "mode")
        self.mode('flag := $(shell if test "$$(cat mode)" = debug; then echo -g; fi)\n')
        sentence = "make reads mode beside its makefiles, and whether commands depend on it isn't"
        self.refused(sentence)

    def several(self, needs: str) -> None:
        """Two commands read one file, of which one prints something else with any contents."""
        self.write(
            {
                "Makefile": "v := $(shell sed -n 's/^version=//p' conf)\n"
                "f := $(shell grep -c '^special=yes' conf)\nall: x y\n.PHONY: all\n"
                f"x: a conf\n\techo $v > x\ny: a {needs}\n\techo $f > y\n",
                "conf": "version=1\nname=one\n",
                "a": "a\n",
            }
        )

    def test_several_commands(self) -> None:
        self.several("")
        edited = {"conf": "version=1\nspecial=yes\n"}
        self.assertEqual(self.left(edited, "y"), ["0\n", "1\n"])
        self.refused(
            "    make reads conf beside its makefiles by several commands, and whether what `grep"
            " -c ^special=yes conf` prints depends on it isn't known, since that is the same with"
            " all other contents that were tried; let all that is made need conf\n"
        )
        self.several("conf")
        self.assertEqual(self.left(edited, "y"), ["1\n", "1\n"])
        self.accepted()

    def test_several_commands_that_all_print_something_else(self) -> None:
        self.several("conf")
        self.add_lines("n := $(shell sed -n 's/^name=//p' conf)\nall: z\nz: a\n\tcp a z\n")
        self.add_lines("x: a conf\n\techo $v $n > x\n")
        makefile = self.folder / "Makefile"
        makefile.write_text(makefile.read_text().replace("^special=yes", "name"))
        answer = self.imported()
        self.assertNotIn("several commands", answer.output)
        makefile.write_text(makefile.read_text().replace("grep -c 'name'", "cat"))
        self.accepted()

    def test_several_commands_of_a_make_below(self) -> None:
        self.several("")
        (self.folder / "Makefile").rename(self.folder / "sub.mk")
        self.write({"Makefile": "all:\n\t$(MAKE) -f sub.mk all\n.PHONY: all\n"})
        self.refused("make reads conf beside its makefiles by several commands")

    def test_condition_that_asks_for_nothing(self) -> None:
        """An empty file is tried."""
        self.version("ifeq ($(v),)\n$(warning no version)\nendif\nx: version\n")
        self.accepted()

    def test_confined(self) -> None:
        """What make does with other contents harms nothing."""
        kept = self.scratch / "kept"
        kept.mkdir()
        (kept / "file").write_text("")
        command = f"case $(v) in (1.0) ;; (*) rm -rf '{kept}';; esac"
        self.version(f"u := $(shell {command})\nx y: version\n")
        self.imported()
        self.assertTrue((kept / "file").exists())

    def test_prerequisites_alone(self) -> None:
        """The commands read what the list doesn't name any more."""
        self.write({"Makefile": "x: $(shell cat list)\n\tcat a b > x\n", "list": "a\nb\n"})
        self.write({"a": "a\n", "b": "b\n"})
        self.assertEqual(self.left({"list": "a\n", "b": "c\n"}, "x"), ["a\nb\n", "a\nc\n"])
        sentence = (
            "    Makefile:2: what x needs depends on list, which make reads beside its makefiles"
            " (b), and its commands don't, so they may read what it doesn't need when list changes;"
        )
        self.refused(sentence)
        # It runs again when the list changes, and not when the other file does later.
        self.add_lines("x: list\n")
        self.refused(sentence)

    def test_link_to_a_folder(self) -> None:
        self.version()
        (self.folder / "version").unlink()
        self.write({"v1/file": "1\n", "v2/file": "2\n"})
        (self.folder / "version").symlink_to("v1")
        makefile = self.folder / "Makefile"
        makefile.write_text(makefile.read_text().replace("cat version", "readlink version"))
        self.refused("make reads version beside its makefiles, and whether commands depend on it")
        makefile.write_text(makefile.read_text().replace("readlink version", "cat version/file"))
        self.write({"v1/file": "1\n"})
        self.stays_old("x", "v1/file")

    def test_list_of_files(self) -> None:
        self.write({"Makefile": "x: $(shell cat list)\n\tcat $^ > x\n", "a": "a\n", "b": "b\n"})
        self.write({"list": "a\nb\n"})
        self.assertEqual(self.left({"list": "a\n"}, "x"), ["a\nb\n", "a\n"])
        self.stays_old("x", "list")

    def test_make_below(self) -> None:
        self.version()
        (self.folder / "Makefile").rename(self.folder / "sub.mk")
        self.write({"Makefile": "all:\n\t$(MAKE) -f sub.mk\n.PHONY: all\n"})
        self.assertIn("sub.mk:5: x isn't", self.stays_old("x", "version").output)

    def flags(self, stamp: str) -> None:
        """A target that needs a stamp of its flags, which is written when they change."""
        self.write(
            {
                "Makefile": "flags := -O\ndefs := $(shell cat defs)\n"
                "x: a stamp\n\t{ echo $(flags) $(defs); cat a; } > x\n"
                f"stamp: FORCE\n\t{stamp}\nFORCE:\n",
                "a": "a\n",
                "defs": "-D1\n",
            }
        )

    def test_stamp_of_other_flags(self) -> None:
        """`make -n` takes the stamp for made anew, and a real make leaves it as it is."""
        self.flags("echo '$(flags)' | cmp -s - stamp || echo '$(flags)' > stamp")
        self.assertEqual(self.left({"defs": "-D2\n"}, "x"), ["-O -D1\na\n", "-O -D2\na\n"])
        self.stays_old("x", "defs")

    def test_stamp_of_all_flags(self) -> None:
        text = "$(flags) $(defs)"
        for stamp in (
            f"echo '{text}' | cmp -s - stamp || echo '{text}' > stamp",
            "cmp -s defs stamp || cp defs stamp",
        ):
            self.flags(stamp)
            self.assertEqual(self.left({"defs": "-D2\n"}, "x"), ["-O -D2\na\n"] * 2)
            self.accepted()

    def test_macro_of_a_make_below(self) -> None:
        """The make below gets another value of a macro, and so it is started by other words."""
        self.write(
            {
                "Makefile": "v := $(shell cat version)\n"
                "all:\n\t$(MAKE) -f sub.mk v=$(v)\n.PHONY: all\n",
                "sub.mk": "x: a\n\t{ echo $(v); cat a; } > x\n",
                "a": "a\n",
                "version": "1.0\n",
            }
        )
        self.assertEqual(self.left({"version": "2.0\n"}, "x"), ["1.0\na\n", "2.0\na\n"])
        self.assertIn("sub.mk:2: x isn't", self.stays_old("x", "version").output)
        (self.folder / "sub.mk").write_text("x: a version\n\t{ echo $(v); cat a; } > x\n")
        self.accepted()

    def test_macros_of_makes_below(self) -> None:
        """Only one of two makes in a folder gets another value."""
        self.write(
            {
                "Makefile": "v := $(shell cat version)\nall:\n\t$(MAKE) -f sub.mk n=1 v=$(v)\n"
                "\t$(MAKE) -f sub.mk n=2 v=w\n.PHONY: all\n",
                "sub.mk": "x$(n): a\n\t{ echo $(v); cat a; } > x$(n)\n",
                "a": "a\n",
                "version": "1.0\n",
            }
        )
        self.assertEqual(self.left({"version": "2.0\n"}, "x1"), ["1.0\na\n", "2.0\na\n"])
        self.assertNotIn("x2 isn't", self.stays_old("x1", "version").output)

    def test_file_that_can_be_run(self) -> None:
        """Only what make starts, and scripts, are programs."""
        self.version()
        (self.folder / "version").chmod(0o755)
        self.stays_old("x", "version")
        self.write({"version": "#!/bin/sh\necho 1.0\n"})
        self.version(version="#!/bin/sh\necho 1.0\n")
        makefile = self.folder / "Makefile"
        makefile.write_text(makefile.read_text().replace("cat version", "./version"))
        self.assertIn(
            "    make starts version when it reads its makefiles: what make starts so counts as a"
            " makefile, so import again when it changes\n",
            self.accepted().output,
        )

    def test_link(self) -> None:
        self.version()
        (self.folder / "version").unlink()
        (self.folder / "v1").write_text("1.0\n")
        (self.folder / "version").symlink_to("v1")
        self.stays_old("x", "v1")
        makefile = self.folder / "Makefile"
        makefile.write_text(makefile.read_text().replace("cat version", "readlink version"))
        self.refused("make reads version beside its makefiles, and whether commands depend on it")

    def test_long_file(self) -> None:
        self.version(version="1" + "0" * (1 << 20) + "\n")
        makefile = self.folder / "Makefile"
        makefile.write_text(makefile.read_text().replace("cat version", "head -c1 version"))
        self.refused("make reads version beside its makefiles, and whether commands depend on it")

    def test_exported_macro_that_make_expands_when_a_recipe_begins(self) -> None:
        """`make -n` begins no recipe."""
        for line in (
            "export v = $(shell cat version)",
            "export v = $(file <version)",
            "x: export v = $(shell cat version)",
        ):
            with self.subTest(line):
                rules = "x: a\n\t(echo $$v; cat a) > x\ny: a\n\tcp a y\n"
                makefile = f"all: x y\n{line}\n{rules}"
                self.write({"Makefile": makefile, "a": "a\n", "version": "1.0\n"})
                self.assertEqual(self.left({"version": "2.0\n"}, "x"), ["1.0\na\n", "2.0\na\n"])
                answer = self.stays_old("x", "version")
                self.assertNotIn("Not judged", answer.output)

    def by_name(self, **files: str) -> None:
        """A make below that `make -n` doesn't start."""
        self.version(**files)
        (self.folder / "Makefile").rename(self.folder / "sub.mk")
        self.write({"Makefile": "all:\n\tmake -f sub.mk\n.PHONY: all\n"})

    def test_make_by_its_name(self) -> None:
        self.by_name()
        self.assertEqual(self.left({"version": "2.0\n"}, "x"), ["1.0\na\n", "2.0\na\n"])
        self.refused(
            "    the make in the project's folder reads version beside its makefiles, and whether"
            " its commands depend on it can't be asked, since a recipe starts it by its name: start"
            " it by $(MAKE)"
        )

    def test_make_by_its_name_in_a_folder(self) -> None:
        for option in ("-C sub", "-Csub", "-kC sub", "--directory=sub", "--directory sub"):
            with self.subTest(option):
                self.version()
                for name in ("Makefile", "a", "version"):
                    text = (self.folder / name).read_text()
                    self.write({f"sub/{name}": text})
                self.write({"Makefile": f"all:\n\tmake {option}\n.PHONY: all\n"})
                left = self.left({"sub/version": "2.0\n"}, "sub/x")
                self.assertEqual(left, ["1.0\na\n", "2.0\na\n"])
                self.refused(
                    "    the make in sub reads sub/version beside its makefiles, and whether its"
                    " commands depend on it can't be asked, since a recipe starts it by its name:"
                    " start it by $(MAKE)"
                )

    def test_make_by_its_name_that_reads_nothing(self) -> None:
        self.by_name()
        makefile = self.folder / "sub.mk"
        makefile.write_text(makefile.read_text().replace("$(shell cat version)", "1.0"))
        self.accepted()

    def test_contents_that_make_refuses(self) -> None:
        self.version("x: version\n$(if $(filter 1.0,$v),,$(error no))\n")
        self.refused(f"    Makefile:9: {A_FUNCTION} depends on version")
        self.version("x: version\n$(if $(filter-out 1.0,$v)$(if $v,,no),$(error no))\n")
        self.refused(
            "make reads version beside its makefiles, and whether commands depend on it couldn't be"
            " tried, since make refuses other contents"
        )


@can_judge
@unittest.skipUnless(shutil.which("git"), "no git")
class CommitTest(UnseenTestCase):
    """Commands that hold what git says, which is something else after a commit."""

    MAKEFILE = "v := $(shell git log -1 --format=%s)\nx: a\n\techo $v > x; cat a >> x\n"

    def commit(self, folder: Path, message: str) -> None:
        """Commits all that a folder has."""
        who = ("-c", "user.name=a", "-c", "user.email=a@localhost")
        for words in (["init", "-q"], ["add", "."], [*who, "commit", "-q", "-m", message]):
            more = ["--allow-empty"] if "commit" in words else []
            subprocess.run(["git", "-C", str(folder), *words, *more], check=True)

    def project(self, makefile: str) -> None:
        """A project with one commit."""
        self.write({"Makefile": makefile, "a": "a\n", ".gitignore": "x\nv\n"})
        self.commit(self.folder, "one")

    def after_a_commit(self) -> list[str]:
        """The text of `x` after a build, a commit and a further build, and after a clean build."""
        folder = self.copied("edited")
        self.run_make(folder, "")
        self.commit(folder, "two")
        self.run_make(folder, "")
        text = (folder / "x").read_text()
        (folder / "x").unlink()
        self.run_make(folder, "")
        return [text, (folder / "x").read_text()]

    def test_commands(self) -> None:
        inner = "x: a\n\techo $(shell git log -1 --format=%s) > x; cat a >> x\n"
        for makefile in (self.MAKEFILE, inner):
            self.project(makefile)
            self.assertEqual(self.after_a_commit(), ["one\na\n", "two\na\n"])
            answer = self.imported()
            self.assertEqual(answer.status, 1, answer.output + answer.errors)
            self.assertIn("x isn't made again after a commit: make asks git for its", answer.output)
            self.assertNotIn(".git/", answer.output)

    def test_a_file_that_is_written_where_git_says_something_else(self) -> None:
        self.project(
            "v := $(shell git log -1 --format=%s)\nx: a v\n\tcat v a > x\n"
            "v: FORCE\n\techo $v | cmp -s - v || echo $v > v\nFORCE:\n"
        )
        self.assertEqual(self.after_a_commit(), ["two\na\n", "two\na\n"])
        self.accepted()

    def test_what_no_commit_changes(self) -> None:
        self.project(
            "v := $(shell git log -1 --format=%s)\ntop := $(shell git rev-parse --show-toplevel)\n"
            "x: a\n\tcat a > x; echo $(notdir $(top)) >> x\ndist:\n\ttar cf $v.tar a\n"
        )
        self.accepted()

    def test_a_folder_of_a_repository(self) -> None:
        self.project(self.MAKEFILE)
        above = self.folder.parent
        (self.folder / ".git").rename(above / ".git")
        self.refused("make asks git by `git log -1 --format=%s`, and whether commands depend on")
        other = self.MAKEFILE.replace("log -1 --format=%s", "rev-parse --show-cdup")
        self.write({"Makefile": other})
        self.accepted()


@can_judge
class ReadOutputTest(UnseenTestCase):
    """Files that a recipe makes, and that make reads for the commands of another one."""

    SENTENCE = (
        "    make reads gen beside its makefiles (by $(shell ..) or $(file ..)), which a recipe"
        " makes, so commands may depend on what an earlier build left, and make doesn't run them"
        " again when it changes; let a recipe read it, as by $$(cat gen)\n"
    )

    def reads(self, text: str, needs: str = "| gen") -> None:
        self.write(
            {
                "Makefile": f"x: a {needs}\n\techo {text} > x\ngen: b\n\tcp b gen\n",
                "a": "a\n",
                "b": "1\n",
            }
        )

    def test_shell(self) -> None:
        self.reads("$(shell cat gen)")
        self.assertEqual(self.left({"b": "2\n"}, "x"), ["1\n", "2\n"])
        self.refused(self.SENTENCE)

    def test_text_of_a_file(self) -> None:
        self.reads("$(file < gen)")
        self.assertEqual(self.left({"b": "2\n"}, "x"), ["1\n", "2\n"])
        self.refused(self.SENTENCE)

    def test_before_recipes_run(self) -> None:
        """What stands in it when make begins may be the same in one build and not in the next."""
        self.reads("$(v)", "gen")
        self.add_lines("v := $(shell grep -c 2 gen 2> /dev/null || :)\nv += $(if $v,,0)\n")
        built = self.built()
        for edits, text in (({"b": "2\n"}, "0\n"), ({"a": "b\n"}, "1\n")):
            self.edit(built, edits)
            self.run_make(built, "")
            self.assertEqual((built / "x").read_text(), text)
        self.refused(self.SENTENCE)

    def test_make_below(self) -> None:
        self.reads("$(shell cat gen)")
        (self.folder / "Makefile").rename(self.folder / "sub.mk")
        self.write({"Makefile": "all:\n\t$(MAKE) -f sub.mk x\n.PHONY: all\n"})
        self.refused(self.SENTENCE)

    def test_recipe_reads_it(self) -> None:
        self.reads("$$(cat gen)", "gen")
        self.assertEqual(self.left({"b": "2\n"}, "x"), ["2\n", "2\n"])
        self.accepted()


@can_judge
class OptionsTest(UnseenTestCase):
    """Options of makes that recipes start."""

    def started_with(self, options: str) -> None:
        self.write(
            {
                "Makefile": f"all:\n\t$(MAKE) {options} -f sub.mk x\n.PHONY: all\n",
                "sub.mk": "x: c\n\tcp c x\nc: a\n\tcp a c\n",
                "a": "1\n",
            }
        )

    def test_files_that_count_as_old(self) -> None:
        self.started_with("-o c")
        self.write({"c": "1\n"})
        self.assertEqual(self.left({"a": "2\n"}, "x"), ["1\n", "1\n"])
        self.refused(
            "    a recipe starts make in the project's folder with -o c, by which it runs nothing"
            " or passes over files: what it does then isn't judged; leave that option out\n",
            "--keep",
        )

    def test_stamps_alone(self) -> None:
        self.started_with("-st")
        self.assertIn(self.imported().status, (2, 4))

    def test_other_options(self) -> None:
        self.started_with("-I other -j 2 -k --no-print-directory -s")
        self.accepted()


@can_judge
class GoalsTest(UnseenTestCase):
    """Goals that make one file by other commands."""

    def test_goals_of_the_command_line(self) -> None:
        self.write(
            {
                "Makefile": "mode = $(if $(filter y,$(MAKECMDGOALS)),one,other)\n"
                "x: c\n\tcp c x\ny: c\n\tcp c y\nc: a\n\t{ echo $(mode); cat a; } > c\n",
                "a": "a\n",
            }
        )
        self.assertEqual(self.left({}, "y", "x", "y"), ["other\na\n", "one\na\n"])
        self.refused("`make x` has other commands for c than `make x y`: `{ echo other;", "x", "y")
        self.accepted("x")

    def test_same_commands(self) -> None:
        self.write(
            {
                "Makefile": "x: c\n\tcp c x\ny: c\n\tcp c y\nc: a\n\tcp a c\n"
                "ifneq ($(MAKECMDGOALS),clean)\n-include c.d\nendif\n",
                "a": "a\n",
            }
        )
        self.accepted("x", "y")

    def shared(self, macros: str, recipe: str = "{ echo $(mode); cat a; } > prog") -> None:
        """Two targets with macros of their own that need one program."""
        self.write(
            {
                "Makefile": f"{macros}all: debug release\n.PHONY: all\n"
                "debug release: prog\n\tcp prog $@\n"
                f"prog: a\n\t{recipe}\n",
                "a": "a\n",
            }
        )

    def test_macros_of_targets(self) -> None:
        self.shared("debug: mode = g\nrelease: mode = O\n")
        self.assertEqual(self.left({}, "release", "debug", "release"), ["g\na\n", "O\na\n"])
        self.refused(
            "    Makefile:8: the commands of prog depend on the target for which it is made first"
            " (debug, release), by the macros of that target:"
        )
        self.accepted("release")

    def test_macros_of_one_target(self) -> None:
        """The other target has the usual value."""
        self.shared("mode = O\ndebug: mode = g\n")
        self.assertEqual(self.left({}, "release", "debug", "release"), ["g\na\n", "O\na\n"])
        self.refused("the commands of prog depend on the target for which it is made first (debug)")

    def test_macros_behind_macros(self) -> None:
        define = "define make_it\n{ echo $(mode); cat a; } > prog\nendef\n"
        self.shared(define + "debug: mode = g\n", "$(make_it)")
        self.refused("the commands of prog depend on the target")

    def test_macros_of_the_environment(self) -> None:
        self.shared("debug: export mode = g\n", '{ echo "$$mode"; cat a; } > prog')
        self.assertEqual(self.left({}, "release", "debug", "release"), ["g\na\n", "\na\n"])
        self.refused("the commands of prog depend on the target")

    def test_macros_that_a_script_uses(self) -> None:
        """Nothing but the environment hands the macro to the recipe."""
        self.shared("debug: export mode = g\n", "./script")
        self.write({"script": '#!/bin/sh\n{ echo "$mode"; cat a; } > prog\n'})
        self.add_lines("prog: script\n")
        self.assertEqual(self.left({}, "release", "debug", "release"), ["g\na\n", "\na\n"])
        self.refused("the commands of prog depend on the target")

    def test_macros_in_a_make_below(self) -> None:
        self.shared("debug: mode = g\n")
        (self.folder / "Makefile").rename(self.folder / "sub.mk")
        self.write({"Makefile": "all:\n\t$(MAKE) -f sub.mk all\n.PHONY: all\n"})
        self.refused("    sub.mk:7: the commands of prog depend on the target")

    def test_macros_in_a_make_by_its_name(self) -> None:
        """`make -n` doesn't start it, so it can't be asked."""
        self.shared("debug: mode = g\n")
        (self.folder / "Makefile").rename(self.folder / "sub.mk")
        self.write({"Makefile": "all:\n\tmake -f sub.mk all\n.PHONY: all\n"})
        self.refused("    sub.mk:7: whether the commands of prog depend on the target for which")

    def test_macros_of_patterns(self) -> None:
        self.shared("%bug: mode = g\n")
        self.assertEqual(self.left({}, "release", "debug", "release"), ["g\na\n", "\na\n"])
        self.refused("the commands of prog depend on the target")

    def test_macros_that_are_private(self) -> None:
        self.shared("debug: private mode = g\n%e: private mode = O\n")
        self.accepted()

    def test_macros_that_are_not_used(self) -> None:
        self.shared("debug: other = g\n")
        self.accepted()

    def test_macros_of_all_users(self) -> None:
        """Each target that needs the file has the same value."""
        self.shared("debug release: mode = g\n")
        self.accepted()


@can_judge
class EvaluatedTest(UnseenTestCase):
    """Macros that recipes set by `$(eval ..)`."""

    FRONT = "all: x y\n.PHONY: all\n"
    USES = (
        "    Makefile:7: the commands of y use what the recipe of another target sets by $(eval ..)"
    )

    def rules(self, text: str) -> None:
        """Writes the rules for x and y."""
        self.write({"Makefile": self.FRONT + text, "a": "a\n", "b": "b\n"})

    def test_used_by_another_recipe(self) -> None:
        self.rules(
            "x: a\n\t$(eval v := set)\n\tcp a x\ny: b\n\t{ echo $(v); cat b; } > y\n"
        )
        self.assertEqual(self.left({"b": "c\n"}, "y"), ["\nc\n", "set\nc\n"])
        self.refused(f"{self.USES} (v; x), and are others in a make that doesn't run it:")

    def test_recipe_that_always_runs(self) -> None:
        self.rules(
            "y: b x\n\t{ echo $(v); cat b; } > y\n.PHONY: x\nx:\n\t$(eval v := set)@:\n"
        )
        self.assertEqual(self.left({"b": "c\n"}, "y"), ["set\nc\n", "set\nc\n"])
        self.accepted()

    def test_own_macro(self) -> None:
        self.rules(
            "x: a\n\t$(eval v := $@)\n\tcp a $(v)\ny: b\n\t$(eval v := $@)\n\tcp b $(v)\n"
        )
        self.accepted()

    COUNT = "define count\n$(eval n := $(n)i)\nendef\n"

    def test_count(self) -> None:
        self.rules(
            f"{self.COUNT}x: a\n\t$(count){{ echo $(n); cat a; }} > $@\n"
            "y: b\n\t$(count){ echo $(n); cat b; } > $@\n"
        )
        self.assertEqual(self.left({"b": "c\n"}, "y"), ["i\nc\n", "ii\nc\n"])
        self.refused("the commands of y use what the recipe of another target sets by $(eval ..)")

    def test_count_that_is_only_printed(self) -> None:
        self.rules(
            f"{self.COUNT}x: a\n\t$(count)@echo '[$(n)] $@'\n\tcp a x\n"
            "y: b\n\t$(count)@echo '[$(n)] $@'\n\tcp b y\n"
        )
        self.accepted()


@can_judge
class ChangedCommandsTest(UnseenTestCase):
    """Commands that are others when the build is there."""

    def test_wildcard(self) -> None:
        self.write(
            {
                "Makefile": "all: x y\n.PHONY: all\ny: b\n\tcp b y\n"
                "x: a\n\tcat a $(wildcard y) > x\n",
                "a": "a\n",
                "b": "b\n",
            }
        )
        self.assertEqual(self.left({"a": "c\n"}, "x"), ["c\nb\n", "c\n"])
        self.refused(
            "    Makefile:6: after a build make has other commands for x: `cat a y > x` and not"
            " `cat a > x`"
        )

    def test_wildcard_in_a_make_below(self) -> None:
        """A make below sees what the one before it has made."""
        self.write(
            {
                "Makefile": "all:\n\t$(MAKE) -C one\n\t$(MAKE) -C two\n.PHONY: all\n",
                "one/Makefile": "y: b\n\tcp b y\n",
                "one/b": "b\n",
                "two/Makefile": "x: ../one/y\n\techo $(wildcard x) > x; cat ../one/y >> x\n",
            }
        )
        self.assertEqual(self.left({"one/b": "c\n"}, "two/x"), ["x\nc\n", "\nc\n"])
        self.refused("two/Makefile:2: after a build make has other commands for two/x")

    def test_wildcard_in_a_make_by_its_name(self) -> None:
        """Such a make isn't started by `make -n`."""
        self.write(
            {
                "Makefile": "all:\n\tcd sub; make\n.PHONY: all\n",
                "sub/Makefile": "x: a\n\techo $(wildcard x) > x; cat a >> x\n",
                "sub/a": "a\n",
            }
        )
        self.assertEqual(self.left({"sub/a": "b\n"}, "sub/x"), ["x\nb\n", "\nb\n"])
        self.refused("sub/Makefile:2: after a build make has other commands for sub/x")

    def test_target_that_needs_what_a_makefile_is_made_from(self) -> None:
        self.write(
            {
                "Makefile": "all: x y\n.PHONY: all\ny: b\n\tcp b y\n"
                "x: conf\n\tcat conf $(wildcard y) > x\n"
                "gen.mk: conf\n\techo > gen.mk\ninclude gen.mk\n",
                "b": "b\n",
                "conf": "c\n",
            }
        )
        self.assertEqual(self.left({"conf": "d\n"}, "x"), ["d\nb\n", "d\n"])
        self.refused("Makefile:6: after a build make has other commands for x: `cat conf y > x`")

    def test_clock(self) -> None:
        self.write({"Makefile": "x: a\n\tcp a x; : $(shell date +%N)\n", "a": "a\n"})
        self.refused("Makefile:2: after a build make has other commands for x")

    def test_dependency_files_that_are_made(self) -> None:
        """Making them anew in the copy is no reason to refuse."""
        self.write(
            {
                "Makefile": "x: a\n\tcat a h > x\nx.d: a\n\techo 'x: h' > x.d\ninclude x.d\n",
                "a": "a\n",
                "h": "h\n",
            }
        )
        self.accepted()

    def many_sources(self, makefile: str) -> None:
        """A makefile that a command makes from more sources than are tried one by one."""
        names = [f"{name}{digit}" for name in "abc" for digit in range(10)]
        self.write(
            {
                "Makefile": f"-include all.mk\nx: {' '.join(names)}\n\tcat $^ $(F) > x\n"
                f"all.mk:\n\t{makefile} > all.mk\n",
                "h": "h\n",
                **dict.fromkeys(names, "h\n"),
            }
        )

    def test_a_dependency_file_of_many_sources(self) -> None:
        """As `cc -MM *.c` makes it: no other contents of the sources are tried."""
        self.many_sources("cat [abc]? | uniq | sed 's/^/x: /'")
        self.assertEqual(self.left({"h": "2\n"}, "x"), ["h\n" * 30 + "2\n"] * 2)
        self.assertNotIn("beside its makefiles", self.accepted().log)

    def test_a_makefile_of_many_sources_with_a_macro(self) -> None:
        self.many_sources("cat [abc]? | uniq | sed 's/^h/F = /'")
        self.refused("make reads 30 files beside its makefiles (a0, a1, a2, a3, a4, ..), and")


@can_judge
class RemovedFileTest(UnseenTestCase):
    """Files between two pattern rules, which make removes."""

    def chain(self, needs: str, more: str = "") -> None:
        self.write(
            {
                "Makefile": "all: x.o y\n.PHONY: all\n%.o: %.c\n\tcp $< $@\n%.c: %.y\n\tcp $< $@\n"
                f"y: b x.o {needs}\n\t-cat b x.c > y\n{more}",
                "x.y": "x\n",
                "b": "b\n",
            }
        )

    def test_not_named(self) -> None:
        self.chain("")
        self.assertEqual(self.left({"b": "c\n"}, "y"), ["c\n", "c\nx\n"])
        self.refused(
            "    Makefile:8: the recipe of y reads x.c, which the recipe of x.c makes, and which is"
            " gone after a build"
        )

    def test_named(self) -> None:
        self.chain("x.c")
        self.assertEqual(self.left({"b": "c\n"}, "y"), ["c\nx\n", "c\nx\n"])
        self.accepted()

    def test_taken_away_by_a_recipe(self) -> None:
        self.write({"Makefile": "x: c\n\tcp c x && rm c\nc: a\n\tcp a c\n", "a": "a\n"})
        self.assertIn(
            "Makefile:2: the recipe of x reads c, which another recipe makes, and takes it away, so"
            " the next run doesn't find it; let it leave that file there\n",
            self.imported().output,
        )

    def test_kept(self) -> None:
        self.chain("", ".SECONDARY: x.c\n")
        self.assertEqual(self.left({"b": "c\n"}, "y"), ["c\nx\n", "c\nx\n"])
        self.accepted()


@can_judge
class WithoutRuleTest(UnseenTestCase):
    """Files that a recipe writes and that no rule names as a target."""

    def header(self, target: str, more: str = "") -> None:
        self.write(
            {
                "Makefile": f"x: a | {target}\n\tcat a gen.h > x; echo 'x: gen.h' > x.d\n"
                f"{target}: {more}\n\tsleep 0.3; cp gen.in gen.h\n-include x.d\n",
                "a": "a\n",
                "gen.in": "1\n",
            }
        )

    def after_edit(self) -> str:
        """What stands in the output after an edit and a build with jobs."""
        folder = self.copied("jobs")
        for text in ("1\n", "2\n"):
            self.edit(folder, {"gen.in": text})
            self.assertEqual(self.make(folder, "-j4").returncode, 0)
        return (folder / "x").read_text()

    def test_phony_recipe(self) -> None:
        self.header("gen", "\n.PHONY: gen\ngen:")
        self.assertEqual(found_once(self.after_edit, "a\n1\n"), "a\n1\n")
        answer = self.imported()
        self.assertEqual((answer.status, answer.findings), (1, ["no stale x gen.h"]))
        self.assertIn(
            "Makefile:2: x isn't made again when gen.h changes: no rule has gen.h as its target,"
            " and the recipe of gen (Makefile:6) writes it, so make looks at it too early with"
            " several jobs; write 'gen.h: gen ;', a rule with an empty recipe\n",
            answer.output,
        )
        self.add_lines("gen.h: gen ;\n")
        self.assertEqual(self.after_edit(), "a\n2\n")
        self.accepted()

    def test_recipe_of_a_file(self) -> None:
        self.header("stamp", "gen.in\n\ttouch stamp")
        self.assertEqual(self.after_edit(), "a\n1\n")
        answer = self.imported()
        self.assertEqual((answer.status, answer.findings), (1, ["no stale x gen.h"]))
        self.assertIn("Add to Makefile:\n    x: stamp\n", answer.output)
        self.mend("x: stamp\n")


@can_judge
class FolderTest(UnseenTestCase):
    """Recipes that look whether a folder is there."""

    SENTENCE = "    Makefile:6: the recipe of b writes b otherwise where the folder d, which"
    TEXT = "if [ -d d ]; then echo with; else echo without; fi > b"

    def looks(self, needs: str, recipe: str) -> None:
        self.write(
            {
                "Makefile": "all: a b\n.PHONY: all\n"
                "a: a.in\n\trm -rf d; if grep -q yes a.in; then mkdir d; fi; cp a.in a\n"
                f"b: b.in {needs}\n\t{recipe}\n",
                "a.in": "yes\n",
                "b.in": "b\n",
                "look": "#!/bin/sh\nif [ -d d ]; then echo with; else echo without; fi > b\n",
            }
        )

    def test_order_only(self) -> None:
        self.looks("| a", self.TEXT)
        self.assertEqual(self.left({"a.in": "no\n"}, "b"), ["with\n", "without\n"])
        self.refused(self.SENTENCE)

    def test_script(self) -> None:
        self.looks("look | a", "./look")
        self.assertEqual(self.left({"a.in": "no\n"}, "b"), ["with\n", "without\n"])
        self.refused(self.SENTENCE)

    def test_program(self) -> None:
        """Neither the command nor a script names the folder: what a program looks at is traced."""
        self.looks("look | a", "sh look")
        (self.folder / "look").chmod(0o644)
        self.assertEqual(self.left({"a.in": "no\n"}, "b"), ["with\n", "without\n"])
        self.refused(self.SENTENCE)
        self.imported("--only", "translate", "--build")
        self.imported("--only", "record", keep=True)
        answer = self.imported("--only", "check", keep=True)
        text = "whether what the recipe of a writes depends on the folder d isn't known"
        self.assertRegex(answer.output, rf"{text} .*; so it is with b \(Makefile:6\)\n")

    def test_not_ordered(self) -> None:
        self.looks("", "[ -d d ] && cat b.in > b || echo without > b")
        self.refused(self.SENTENCE)

    def test_names_in_it(self) -> None:
        self.write(
            {
                "Makefile": "all: a b\n.PHONY: all\n"
                "a: a.in\n\trm -rf d; mkdir d; cd d; touch `cat ../a.in`; cp ../a.in ../a\n"
                "b: b.in | a\n\tls d > b\n",
                "a.in": "one\n",
                "b.in": "b\n",
            }
        )
        self.assertEqual(self.left({"a.in": "two\n"}, "b"), ["one\n", "two\n"])
        self.refused(self.SENTENCE)

    def test_prerequisite(self) -> None:
        self.looks("a", self.TEXT)
        self.assertEqual(self.left({"a.in": "no\n"}, "b"), ["without\n", "without\n"])
        self.accepted()

    def test_recipe_that_fails_again(self) -> None:
        """It is tried without what it wrote, and where it fails then too, it isn't judged."""
        self.looks("| a", "ln -s b.in b && if test -d d; then echo with; fi > c")
        self.refused(self.SENTENCE.replace("b otherwise", "c otherwise"))
        self.looks("| a", "ls d && mkdir e && cp b.in b")
        self.refused(
            "    Makefile:6: whether what the recipe of b writes depends on the folder d couldn't"
            " be tried, since that recipe fails when it runs again"
        )
        self.looks("| a", "ls d && ln -s b.in b")
        self.accepted()

    def test_same_without_it(self) -> None:
        self.looks("| a", "ls d; cp b.in b")
        self.assertIn(
            "    Makefile:6: the recipe of b reads the names in the folder d, which another recipe"
            " makes, and isn't run again when they change: it wrote the same with all other names"
            " that were tried\n",
            self.accepted().output,
        )
        self.looks("| a", "test -d d; cp b.in b")
        self.assertNotIn("folder", self.accepted().output)

    def one_name(self, recipe: str) -> None:
        """A recipe to which one certain name in a folder matters, that another recipe may make."""
        self.write(
            {
                "Makefile": "all: a b\n.PHONY: all\n"
                "a: a.in\n\trm -rf d; mkdir d; cd d; touch `cat ../a.in`; cp ../a.in ../a\n"
                f"b: b.in look | a\n\t{recipe}\n",
                "a.in": "one\n",
                "b.in": "b\n",
                "look": "#!/bin/sh\nfor one in d/*; do case $one in d/special) echo yes;; esac;"
                " done > b\n",
            }
        )
        (self.folder / "look").chmod(0o644)
        edited = self.left({"a.in": "special\n"}, "b")
        self.assertNotEqual(*edited)
        self.refused(self.SENTENCE)

    def test_one_name(self) -> None:
        self.one_name("ls d | sed -n '/^special$$/p' > b")

    def test_one_name_of_a_pattern(self) -> None:
        self.one_name("echo d/sp*al > b")

    def test_one_name_in_a_script(self) -> None:
        self.one_name("sh look")

    def test_steps(self) -> None:
        """Without a build there is nothing in which it could be tried."""
        self.looks("| a", self.TEXT)
        self.imported("--only", "translate", "--build")
        self.imported("--only", "record", keep=True)
        answer = self.imported("--only", "check", keep=True)
        self.assertEqual(answer.status, 2)
        text = "whether what the recipe of a writes depends on the folder d isn't known"
        self.assertRegex(answer.output, rf"{text} .*; so it is with b \(Makefile:6\)\n")
