"""A second import takes what the first one had, and never an answer that doesn't hold any more.

After each edit the answer is the one that an import from nothing gives.
"""

from __future__ import annotations

import os
import re
import shutil
import signal
import subprocess
import sys
import time
import unittest

from importer.make_folder import ENVIRONMENT, IMPORTER, Answer, MakeFolderTest, can_judge

COUNT = re.compile(r"record +[\d.]+ s  (\d+ of \d+) recipes")
MAKEFILE = """prog: a.o b.o
\tcat a.o b.o > prog
a.o: a.c h.h
\tcat a.c h.h > a.o
b.o: b.c
\tcat b.c > b.o
"""


class SecondImportTestCase(MakeFolderTest):
    """A folder that is imported again and again."""

    def setUp(self) -> None:
        super().setUp()
        self.write(
            {"Makefile": MAKEFILE, "a.c": "a\n", "b.c": "b\n", "h.h": "h\n", "other.h": "o\n"}
        )

    def first(self, *words: str) -> Answer:
        """An import from nothing."""
        answer = self.imported(*words)
        self.assertIn("mkcheck-import: translate ", answer.errors)
        return answer

    def second(self, *words: str) -> Answer:
        """An import that may take what the one before had: its answer, and all that it makes, is as
        from nothing."""
        answer = self.imported(*words, keep=True)
        shutil.rmtree(self.scratch / "fresh", ignore_errors=True)
        fresh = self.imported("-o", str(self.scratch / "fresh"), *words, keep=True)
        self.assertEqual((answer.status, answer.output), (fresh.status, self.named(fresh.output)))
        for name in ("makefile", "makefile.first", "footprint.json", "map.json"):
            made, there = self.scratch / "fresh" / name, self.folder / ".mkcheck" / name
            self.assertEqual(there.exists(), made.exists(), name)
            if made.exists():
                self.assertEqual(there.read_text(), made.read_text(), name)
        return answer

    def named(self, output: str) -> str:
        """An answer in which the folder of the output is the usual one."""
        return output.replace(str(self.scratch / "fresh"), ".mkcheck")

    def taken(self, *words: str) -> str:
        """A second import that takes the translation: how many recipes of all it records."""
        answer = self.second(*words)
        self.assertNotIn("mkcheck-import: translate ", answer.errors)
        self.assertNotIn("translated anew", answer.errors)
        return self.count(answer)

    def anew(self, why: str, *words: str) -> str:
        """A second import that translates anew, and says why: how many recipes it records."""
        answer = self.second(*words)
        self.assertIn("mkcheck-import: translate ", answer.errors)
        self.assertIn(why, answer.errors)
        return self.count(answer)

    def count(self, answer: Answer) -> str:
        """How many recipes of all were recorded, the last time."""
        found: list[str] = COUNT.findall(answer.errors)
        self.assertTrue(found, answer.errors)
        return found[-1]


@can_judge
class OtherMakesTest(SecondImportTestCase):
    """A make needs what another one makes, so `make -n` alone fails before a build, as in a build
    of Automake whose program needs a library of another folder."""

    def setUp(self) -> None:
        super().setUp()
        self.write(
            {
                "Makefile": "all:\n\t$(MAKE) -C lib\n\t$(MAKE) p\n"
                "p: a.c lib/l\n\tcat a.c lib/l > p\n",
                "lib/Makefile": "l: in\n\tcp in l\n",
                "lib/in": "in\n",
            }
        )

    def test_an_edit_keeps_the_translation(self) -> None:
        self.assertEqual(self.first().status, 0)
        self.write({"a.c": "2\n"})
        self.assertEqual(self.taken(), "1 of 2")
        self.write({"lib/in": "2\n"})
        self.assertEqual(self.taken(), "2 of 2")

    def test_another_command_is_seen(self) -> None:
        """It is one of the make behind the file that was missing."""
        self.first()
        self.write({"Makefile": (self.folder / "Makefile").read_text().replace("cat a.c", "cat")})
        self.anew("Makefile has changed")


@can_judge
class NothingChangedTest(SecondImportTestCase):
    """The answer is given again."""

    def test_nothing_is_done_again(self) -> None:
        first = self.first()
        self.assertEqual(self.taken(), "0 of 3")
        answer = self.imported(keep=True)
        self.assertEqual((answer.status, answer.output), (first.status, first.output))
        self.assertNotIn("mkcheck-import: check ", answer.errors)

    def test_a_no_is_given_again(self) -> None:
        self.write({"Makefile": MAKEFILE.replace(" h.h\n", "\n")})
        self.assertEqual(self.first().findings, ["no stale a.o h.h"])
        self.assertEqual(self.taken(), "0 of 3")

    def test_what_is_not_judged_is_named_again(self) -> None:
        self.write({"Makefile": MAKEFILE.replace("cat b.c", ": $(wildcard prog); cat b.c")})
        self.assertEqual(self.first().status, 4)
        self.assertEqual(self.taken(), "0 of 3")

    def test_a_recipe_without_a_record_changes_nothing(self) -> None:
        """An update tells its notes in another order."""
        rules = "git: a.c\n\tcp a.c git\nadd: git\n\trm -f add && ln git add\n"
        self.write({"Makefile": f"all: git add made\n{rules}made: b.c\n\tdate +%N > made\n"})
        first = self.imported(replay=True)
        self.assertEqual(first.status, 4, first.output + first.errors)
        second = self.imported(replay=True, keep=True)
        self.assertNotIn("translated anew", second.errors)
        self.assertEqual(second.output, first.output)

    def test_files_with_new_times_are_the_same(self) -> None:
        self.first()
        for name in ("a.c", "Makefile"):
            os.utime(self.folder / name)
        self.assertEqual(self.taken(), "0 of 3")

    def test_the_translation_is_the_same_with_and_without_replay(self) -> None:
        self.first()
        for replay in (True, False):
            with self.subTest(replay=replay):
                answer = self.imported(keep=True, replay=replay)
                self.assertNotIn("translated anew", answer.errors)
                self.assertEqual(self.count(answer), "3 of 3")
                fresh = self.scratch / "fresh"
                shutil.rmtree(fresh, ignore_errors=True)
                other = self.imported("-o", str(fresh), keep=True, replay=replay)
                self.assertEqual(
                    (answer.status, answer.output), (other.status, self.named(other.output))
                )
                notes = (self.folder / ".mkcheck" / "footprint.json.notes").read_text()
                self.assertEqual(notes, (fresh / "footprint.json.notes").read_text())
                self.assertEqual("no recipe was run again" in notes, not replay)

    def test_results_that_are_gone_are_made_again(self) -> None:
        self.first()
        (self.folder / ".mkcheck" / "footprint.json").unlink()
        self.assertEqual(self.taken(), "0 of 3")


@can_judge
class EditedSourceTest(SecondImportTestCase):
    """What changed is recorded again, and nothing else."""

    def test_what_it_reaches_is_recorded(self) -> None:
        self.first()
        self.write({"b.c": "other\n"})
        self.assertEqual(self.taken(), "2 of 3")
        self.write({"h.h": "other\n"})
        self.assertEqual(self.taken(), "2 of 3")

    def test_a_read_that_is_new_is_found(self) -> None:
        self.write({"Makefile": MAKEFILE.replace("cat b.c", "sh b.c"), "b.c": "echo b\n"})
        self.assertEqual(self.first().status, 0)
        self.write({"b.c": "cat other.h\n"})
        self.assertEqual(self.taken(), "2 of 3")
        self.assertEqual(self.imported(keep=True).findings, ["no stale b.o other.h"])

    def test_a_recipe_that_fails_now_is_told_as_ever(self) -> None:
        self.write({"Makefile": MAKEFILE.replace("cat b.c", "sh b.c"), "b.c": "echo b\n"})
        self.first()
        self.write({"b.c": "exit 3\n"})
        answer = self.imported(keep=True)
        self.assertEqual(answer.status, 2)
        self.assertIn("the build failed", answer.errors)
        self.write({"b.c": "echo b\n"})
        self.second()

    def test_a_dependency_file_that_changes_is_read_anew(self) -> None:
        makefile = MAKEFILE.replace(
            "a.o: a.c h.h\n\tcat a.c h.h > a.o",
            "a.o: a.c\n\tcat `cat a.c` > a.o; echo a.o: `cat a.c` > a.d\n-include a.d",
        )
        self.write({"Makefile": makefile, "a.c": "h.h\n"})
        self.assertEqual(self.first().status, 0)
        self.write({"b.c": "other\n", "h.h": "other\n"})
        self.assertEqual(self.taken(), "3 of 3")
        self.write({"a.c": "other.h\n"})
        self.assertEqual(self.anew("dependency files"), "0 of 3")
        self.assertEqual(self.rules_of_a(), "a.o: a.c other.h")

    def rules_of_a(self) -> str:
        """What the translated makefile says of a.o."""
        text = (self.folder / ".mkcheck" / "makefile").read_text()
        return "\n".join(line for line in text.splitlines() if line.startswith("a.o:"))

    def test_another_file_that_recipes_make_is_seen(self) -> None:
        self.write({"Makefile": MAKEFILE.replace("cat b.c", "sh b.c"), "b.c": "echo b\n"})
        self.first()
        self.write({"b.c": "echo b; echo more > more\n"})
        self.anew("recipes make other files now")


@can_judge
class LeftAsItWasTest(SecondImportTestCase):
    """A recipe that runs in each make, and writes its file only if its contents change."""

    FLAGS = "flags: f.in FORCE\n\t@cat f.in > $@.new; cmp -s $@.new $@ || cp $@.new $@; rm $@.new\n"

    def setUp(self) -> None:
        super().setUp()
        makefile = MAKEFILE.replace("b.o: b.c\n\tcat b.c >", "b.o: b.c flags\n\tcat b.c flags >")
        self.write({"Makefile": makefile + self.FLAGS + "FORCE:\n", "f.in": "f\n"})
        self.first()

    def test_an_edit_beside_it(self) -> None:
        self.write({"b.c": "other\n"})
        self.assertEqual(self.taken(), "2 of 4")

    def test_an_edit_of_what_it_reads(self) -> None:
        self.write({"f.in": "other\n"})
        self.assertEqual(
            self.anew("what the recipe of flags depends on isn't the same, and whether it leaves"),
            "0 of 4",
        )


@can_judge
class TriedTest(SecondImportTestCase):
    """A recipe that was tried without a folder that another recipe makes."""

    SAME = "test -d d; cat b.in > b\n"
    OTHER = "if test -d d; then echo with; else echo without; fi > b\n"

    def setUp(self) -> None:
        super().setUp()
        self.write(
            {
                "Makefile": "all: a b c\n.PHONY: all\na: a.in\n\trm -rf d; mkdir d; cp a.in a\n"
                "b: b.in look | a\n\tsh look\nc: c.in\n\tcp c.in c\n",
                "a.in": "a\n",
                "b.in": "b\n",
                "c.in": "c\n",
                "look": self.SAME,
            }
        )

    def test_an_edit_beside_it(self) -> None:
        self.assertEqual(self.first().status, 0)
        for text in ("other\n", "again\n"):
            self.write({"c.in": text})
            self.assertEqual(self.taken(), "1 of 3")

    def test_what_is_not_judged_is_named_again(self) -> None:
        self.write({"look": self.OTHER})
        self.assertEqual(self.first().status, 4)
        self.write({"c.in": "other\n"})
        self.assertEqual(self.taken(), "1 of 3")

    def test_an_edit_of_what_it_reads(self) -> None:
        self.first()
        self.write({"look": self.OTHER})
        self.anew("recipes have to be tried in a copy that is built")


@can_judge
class DependenciesTest(SecondImportTestCase):
    """Dependency files that make itself makes when it reads its makefiles, as `cc -MM *.c` does."""

    OF_ALL = (
        MAKEFILE.replace("a.o: a.c h.h", "a.o: a.c")
        + "-include .depend\n.depend: a.c b.c\n"
        + "\tsed -n 's/^#include /a.o: /p' a.c > .depend; test -f b.c\n"
    )

    def setUp(self) -> None:
        super().setUp()
        self.write({"Makefile": self.OF_ALL, "a.c": "#include h.h\na\n"})

    def test_an_edit_keeps_the_translation(self) -> None:
        self.first()
        self.write({"a.c": "#include h.h\nb\n"})
        self.assertEqual(self.taken(), "2 of 3")
        self.write({"h.h": "#define\n", "b.c": "c\n"})
        self.assertEqual(self.taken(), "3 of 3")
        self.assertEqual(self.taken(), "0 of 3")

    def test_a_dependency_file_for_each_object(self) -> None:
        makefile = MAKEFILE.replace("a.o: a.c h.h", "a.o: a.c")
        rule = "-include a.d b.d\n%.d: %.c\n\tsed -n 's/^#include /$*.o: /p' $< > $@\n"
        self.write({"Makefile": makefile + rule})
        self.first()
        self.write({"a.c": "#include h.h\nb\n"})
        self.assertEqual(self.taken(), "2 of 3")

    def test_another_dependency_is_seen(self) -> None:
        self.first()
        self.write({"a.c": "#include other.h\na\n"})
        self.anew("the tool says something else than then")

    def test_what_makes_them_is_a_makefile(self) -> None:
        self.write(
            {
                "Makefile": self.OF_ALL.replace("sed -n 's/^#include /a.o: /p' a.c", "./depend"),
                "depend": "#!/bin/sh\nsed -n 's/^#include /a.o: /p' a.c\n",
            }
        )
        self.first()
        self.write({"a.c": "#include h.h\nb\n"})
        self.assertEqual(self.taken(), "2 of 3")
        self.write({"depend": "#!/bin/sh\nsed -n 's/^#include  */a.o: /p' a.c\n"})
        self.anew("depend has changed, which the tool reads")

    def test_one_that_is_made_when_recipes_have_run(self) -> None:
        """Before the build it lacks what the made header includes."""
        makefile = (
            "prog: a.o\n\tcp a.o prog\na.o: a.c gen.h\n\tcat a.c gen.h h.h > a.o\n"
            "gen.h: gen.in\n\tcp gen.in gen.h\n-include .depend\n.depend: a.c\n"
            "\tcat a.c gen.h 2>/dev/null | sed -n 's/^#include /a.o: /p' > .depend\n"
        )
        self.write({"Makefile": makefile, "a.c": "a\n", "gen.in": "#include h.h\n"})
        self.first()
        self.write({"gen.in": "#include other.h\n"})
        self.assertEqual(self.taken(), "3 of 3")


@can_judge
class AnewTest(SecondImportTestCase):
    """What may change the translation has it made anew; recipes that are the same are kept."""

    def test_a_makefile(self) -> None:
        self.first()
        self.write({"Makefile": MAKEFILE + "# A comment.\n"})
        self.assertEqual(self.anew("Makefile has changed, which the tool reads"), "0 of 3")
        self.write({"Makefile": MAKEFILE.replace("cat b.c > b.o", "cat b.c >b.o")})
        self.assertEqual(self.anew("Makefile has changed"), "1 of 3")

    def test_a_makefile_that_is_included(self) -> None:
        self.write({"Makefile": "include more.mk\n" + MAKEFILE, "more.mk": "x = 1\n"})
        self.first()
        self.write({"more.mk": "prog: h.h\n"})
        self.anew("more.mk has changed, which the tool reads")

    def test_a_file_that_make_reads(self) -> None:
        makefile = MAKEFILE.replace("cat b.c > b.o", "cat b.c > b.o; : $(shell cat other.h)")
        self.write({"Makefile": makefile.replace("b.o: b.c", "b.o: b.c other.h")})
        self.first()
        self.write({"other.h": "p\n"})
        self.assertEqual(self.anew("other.h has changed, which the tool reads"), "1 of 3")

    def test_a_file_outside_that_make_reads(self) -> None:
        outside = self.scratch / "outside"
        outside.write_text("x\n")
        self.write({"Makefile": MAKEFILE.replace("cat b.c", f"cat b.c; : $(shell cat {outside})")})
        self.first()
        outside.write_text("y\n")
        self.anew(f"{outside} has changed, which the tool reads")

    def test_a_name_that_is_new_or_gone(self) -> None:
        self.write({"Makefile": "all: $(patsubst %.c,%.o,$(wildcard *.c))\n%.o: %.c\n\tcp $< $@\n"})
        self.first()
        self.write({"c.c": "c\n"})
        self.assertEqual(self.anew("c.c is there now"), "1 of 3")
        (self.folder / "c.c").unlink()
        self.assertEqual(self.anew("c.c is gone"), "0 of 2")

    def test_a_mode(self) -> None:
        self.first()
        (self.folder / "a.c").chmod(0o755)
        self.anew("a.c is of another kind or mode now")

    def test_a_variable_of_the_environment(self) -> None:
        self.first()
        answer = self.imported(keep=True, environment={"OTHER": "1"})
        self.assertIn("other than then: $OTHER", answer.errors)
        self.assertIn("mkcheck-import: translate ", answer.errors)

    def test_words(self) -> None:
        self.first()
        self.assertEqual(self.anew("other than then: words", "a.o"), "0 of 1")

    def test_a_prefix_that_is_no_longer_fixed(self) -> None:
        self.write({"Makefile": MAKEFILE.replace(" h.h\n", "\n").replace("h.h", "in/h.h")})
        self.write({"in/h.h": "h\n"})
        self.assertEqual(self.first("--fixed", "in").status, 0)
        self.assertEqual(self.anew("other than then: options"), "3 of 3")
        self.assertEqual(self.imported(keep=True).findings, ["no stale a.o in/h.h"])

    def test_an_edit_where_make_goes_by_times(self) -> None:
        self.write({"Makefile": "gen: a.c\n\tcp a.c gen\nprog: gen\n\tcp gen prog\n", "gen": "x\n"})
        os.utime(self.folder / "a.c", (1, 1))
        os.utime(self.folder / "gen", (2, 2))
        os.utime(self.folder / "Makefile", (3, 3))
        self.first("prog")
        self.write({"b.c": "other\n"})
        self.assertEqual(self.taken("prog"), "0 of 1")
        os.utime(self.folder / "a.c", (1, 1))
        self.write({"a.c": "other\n"})
        self.anew("a.c is another one now, and make goes by its time", "prog")

    def test_what_make_says_by_itself(self) -> None:
        makefile = "stamp := $(shell date +%s%N)\n" + MAKEFILE
        self.write({"Makefile": makefile})
        self.first()
        self.anew("the tool says something else than then")


@can_judge
class BuiltFolderTest(SecondImportTestCase):
    """The outputs of a build in the folder itself are hidden, and count for nothing."""

    def test_an_edit_beside_outputs(self) -> None:
        self.write({"Makefile": MAKEFILE + "clean:\n\trm -f prog *.o\n"})
        self.make(self.folder)
        self.first()
        self.write({"b.c": "other\n"})
        self.assertEqual(self.taken(), "2 of 3")
        self.make(self.folder)
        self.assertEqual(self.taken(), "0 of 3")


@can_judge
@unittest.skipUnless(shutil.which("ninja"), "no ninja")
class NinjaTest(SecondImportTestCase):
    """A build of ninja."""

    MANIFEST = """rule gen
  command = cat `cat $in` > $out && echo $out: `cat $in` > $out.d
  depfile = $out.d
  deps = gcc
rule cat
  command = cat $in > $out
build a.o: gen a.c
build b.o: cat b.c
build prog: cat a.o b.o
"""

    def setUp(self) -> None:
        super().setUp()
        (self.folder / "Makefile").unlink()
        self.write({"build.ninja": self.MANIFEST, "a.c": "h.h\n"})

    def test_an_edit_and_a_dependency_file_that_changes(self) -> None:
        self.assertEqual(self.first().status, 0)
        self.assertEqual(self.taken(), "0 of 3")
        self.write({"b.c": "other\n", "h.h": "other\n"})
        self.assertEqual(self.taken(), "3 of 3")
        self.write({"a.c": "other.h\n"})
        self.anew("dependency files")

    def test_another_manifest(self) -> None:
        self.first()
        self.write({"build.ninja": self.MANIFEST.replace("b.o: cat b.c", "b.o: cat b.c h.h")})
        self.assertEqual(self.anew("build.ninja has changed, which the tool reads"), "2 of 3")

    def test_an_edit_beside_restat(self) -> None:
        rule = "rule keep\n  command = cmp -s $in $out || cp $in $out\n  restat = 1\n"
        manifest = self.MANIFEST.replace("prog: cat a.o b.o", "prog: cat a.o b.o kept")
        self.write({"build.ninja": f"{rule}{manifest}build kept: keep k.in\n", "k.in": "k\n"})
        self.first()
        self.write({"b.c": "other\n"})
        self.assertEqual(self.taken(), "2 of 4")
        self.write({"k.in": "other\n"})
        self.anew("what the recipe of kept depends on isn't the same")


@can_judge
class DamagedTest(SecondImportTestCase):
    """What was kept and isn't whole is not believed."""

    def test_the_translation(self) -> None:
        self.first()
        path = self.folder / ".mkcheck" / "kept" / "import.json"
        path.write_text(path.read_text().replace("b.c", "c.c"))
        answer = self.second()
        self.assertIn("mkcheck-import: translate ", answer.errors)
        self.assertEqual(self.count(answer), "0 of 3")

    def test_what_recipes_left(self) -> None:
        self.first()
        for path in (self.folder / ".mkcheck" / "kept").glob("*.state.d/*"):
            path.write_text("damaged\n")
        self.assertEqual(self.taken(), "3 of 3")
        self.assertEqual(self.taken(), "0 of 3")


@can_judge
class StoppedTest(SecondImportTestCase):
    """An import that a signal ends keeps what it has, and the next one goes on."""

    def test_a_recording_goes_on(self) -> None:
        for number in (signal.SIGTERM, signal.SIGINT):
            with self.subTest(number):
                self.stop_at_b(number)
                (self.scratch / "go").touch()
                answer = self.second()
                self.assertEqual(answer.status, 0, answer.output + answer.errors)
                self.assertNotIn("mkcheck-import: translate ", answer.errors)
                self.assertIn("2 of 3 recipes", answer.errors)

    def stop_at_b(self, number: int) -> None:
        """Begins an import from nothing, and ends it when the recorder is at b.o."""
        begun, go = self.scratch / "begun", self.scratch / "go"
        wait = f"touch {begun}; while ! test -f {go}; do sleep 0.1; done"
        wait = f'test -n "$$MAKELEVEL" || test -f {go} || {{ {wait}; }}'
        self.write({"Makefile": MAKEFILE.replace("cat b.c > b.o", f"{wait}; cat b.c > b.o")})
        for path in (begun, go):
            path.unlink(missing_ok=True)
        shutil.rmtree(self.folder / ".mkcheck", ignore_errors=True)
        words = [sys.executable, str(IMPORTER), "-C", str(self.folder), "--no-replay"]
        with subprocess.Popen(
            words,
            env=ENVIRONMENT,
            stderr=subprocess.PIPE,
            text=True,
            preexec_fn=lambda: signal.signal(number, signal.SIG_DFL),
        ) as process:
            while process.poll() is None and not begun.exists():
                time.sleep(0.05)
            process.send_signal(number)
            _, errors = process.communicate()
        self.assertEqual(process.returncode, 128 + number)
        self.assertIn("the next import takes what this one has", errors)
