"""Makes that start makes: the translation, the answer, and what make does."""

from __future__ import annotations

from importer.make_folder import MakeFolderTest, can_judge
from waits import found_once, wait_for_later_stamps

TOP = "all: libs progs\n.PHONY: all libs progs\n"


@can_judge
class RecursiveTest(MakeFolderTest):
    """Recipes that start makes, whose goals become one graph."""

    def test_one_after_another(self) -> None:
        self.write(
            {
                "Makefile": "all:\n\t$(MAKE) -C lib\n\t@cd prog && $(MAKE) MODE=fast\n"
                ".PHONY: all\n",
                "lib/Makefile": "l.a: l.in\n\tcp l.in l.a\n",
                "lib/l.in": "l\n",
                "prog/Makefile": "p: p.in ../lib/l.a\n\tcat p.in ../lib/l.a > p; : $(MODE)\n",
                "prog/p.in": "p\n",
            }
        )
        answer = self.imported()
        self.assertEqual(answer.status, 0, answer.output + answer.errors)
        self.assertEqual(
            answer.first_rules(),
            ".PHONY: all\n"
            "all: lib/l.a .WAIT prog/p\n"
            "lib/l.a: lib/l.in\n\tcd lib; cp l.in l.a\n"
            "prog/p: prog/p.in\n"
            "\tcd prog; export MODE=fast; set +e; cat p.in ../lib/l.a > p; : fast\n",
        )
        self.assertIn("prog/p: prog/p.in lib/l.a\n", answer.rules())
        self.assertEqual(answer.map["prog/p"]["makefile"], "prog/Makefile")
        self.assertEqual(answer.map["prog/p"]["name"], "p")
        self.try_answer(answer)

    def test_at_one_time(self) -> None:
        self.write(
            {
                "Makefile": TOP + "libs:\n\t$(MAKE) -C lib\nprogs:\n\t$(MAKE) -C prog\n",
                "lib/Makefile": "l.a: l.in\n\tcp l.in l.a\n",
                "lib/l.in": "l\n",
                "prog/Makefile": "p: p.in\n\t-cat p.in ../lib/l.a > p\n",
                "prog/p.in": "p\n",
            }
        )
        answer = self.imported()
        self.assertEqual(
            answer.findings, ["no race prog/p lib/l.a lib/l.a", "no stale prog/p lib/l.a"]
        )
        self.assertIn(
            "prog/Makefile:2: the recipe of prog/p reads lib/l.a, and make may begin it before the"
            " recipe of lib/l.a (lib/Makefile:2) has written that; these are recipes of two makes:"
            " let the one in lib be done before the one in prog begins\n",
            answer.output,
        )
        self.assertIn("Add to prog/Makefile:\n    p: ../lib/l.a\n", answer.output)
        self.try_answer(answer)

    def test_make_below(self) -> None:
        """The one that has to wait is the make that starts the other one."""
        self.write(
            {
                "Makefile": "all: lib app\n.PHONY: all lib\nlib:\n\t$(MAKE) -C lib\n"
                "app: a\n\t-cat a lib/x > app\n",
                "a": "a\n",
                "lib/Makefile": "x: y\n\tcp y x\n",
                "lib/y": "1\n",
            }
        )
        answer = self.imported()
        self.assertEqual(answer.findings, ["no race app lib/x lib/x", "no stale app lib/x"])
        self.assertIn(
            "these are recipes of two makes: let app need lib, whose recipe starts the make in"
            " lib\n",
            answer.output,
        )
        lines = "    app: lib/x\n    lib/x: lib ;\n"
        self.assertIn(f"Add to Makefile:\n{lines}", answer.output)
        self.try_answer(answer)
        self.mend(lines.replace("    ", ""))

    def test_make_that_reads_too_early(self) -> None:
        """The make below reads what the one that starts it writes."""
        self.write(
            {
                "Makefile": "all: h lib\n.PHONY: all lib\nlib:\n\t$(MAKE) -C lib\n"
                "h: h.in\n\tcp h.in h\n",
                "h.in": "h\n",
                "lib/Makefile": "x: y\n\t-cat y ../h > x\n",
                "lib/y": "1\n",
            }
        )
        answer = self.imported()
        self.assertEqual(answer.findings, ["no race lib/x h h", "no stale lib/x h"])
        self.assertIn("let lib, whose recipe starts the make in lib, need h\n", answer.output)
        self.try_answer(answer)

    def test_makes_of_one_folder(self) -> None:
        """Makes of one folder are told by the targets that start them."""
        self.write(
            {
                "Makefile": "all: one two\n.PHONY: all one two\n"
                "one:\n\t$(MAKE) -f one.mk\ntwo:\n\t$(MAKE) -f two.mk\n",
                "one.mk": "x: a\n\tcp a x\n",
                "two.mk": "y: a\n\t-cat a x > y\n",
                "a": "a\n",
            }
        )
        answer = self.imported()
        self.assertEqual(answer.findings, ["no race y x x", "no stale y x"])
        self.assertIn(
            "let the one that the recipe of one starts be done before that of two begins\n",
            answer.output,
        )

    def test_first_build(self) -> None:
        """The first build is another one, and no dependency file has a part in that."""
        self.write(
            {
                "Makefile": TOP + "libs:\n\t$(MAKE) -C lib\nprogs:\n\t$(MAKE) -C prog\n",
                "lib/Makefile": "l.a: l.in\n\tcp l.in l.a\n",
                "lib/l.in": "l\n",
                "prog/Makefile": "p: p.in $(wildcard ../lib/l.a)\n\t-cat p.in ../lib/l.a > p\n",
                "prog/p.in": "p\n",
            }
        )
        answer = self.imported()
        self.assertEqual(answer.findings, ["no race prog/p lib/l.a lib/l.a"])
        self.assertIn("has written that (in a first build); these are", answer.output)
        self.try_answer(answer)

    def test_library_that_is_forced(self) -> None:
        """The usual form: a rule for the library that always starts make."""
        self.write(
            {
                "Makefile": "prog: main lib/l.a\n\tcat main lib/l.a > prog\n"
                "lib/l.a: force\n\t$(MAKE) -C lib l.a\nforce:\n.PHONY: force\n",
                "main": "m\n",
                "lib/Makefile": "l.a: l.in\n\tcp l.in l.a\n",
                "lib/l.in": "l\n",
            }
        )
        answer = self.imported()
        self.assertEqual(answer.status, 0, answer.output + answer.errors)
        self.try_answer(answer)

    def test_recipe_that_does_nothing(self) -> None:
        """A rule that only waits for the make that makes the file."""
        self.write(
            {
                "Makefile": "app: lib/x\n\tcp lib/x app\nlib/x: lib\n\t@:\n"
                "lib:\n\t$(MAKE) -C lib\n.PHONY: lib\n",
                "lib/Makefile": "x: y\n\tcp y x\n",
                "lib/y": "1\n",
            }
        )
        answer = self.imported()
        self.assertEqual(answer.status, 0, answer.output + answer.errors)
        self.assertEqual(
            answer.rules(),
            ".PHONY: lib\napp: app@order lib/x\n\tcp lib/x app\napp@order: lib/x@make1\n"
            "lib/x: lib/y\n\tcd lib; cp y x\nlib: lib/x\nlib/x@make1: lib\n",
        )
        self.try_answer(answer)

    def test_library_that_is_not_forced(self) -> None:
        """Once the library is there, nothing makes it again: that isn't judged, and never a yes."""
        self.write(
            {
                "Makefile": "prog: main lib/l.a\n\tcat main lib/l.a > prog\n"
                "lib/l.a:\n\t$(MAKE) -C lib l.a\n",
                "main": "m\n",
                "lib/Makefile": "l.a: l.in\n\tcp l.in l.a\n",
                "lib/l.in": "l\n",
            }
        )
        answer = self.imported()
        self.assertEqual(answer.status, 4, answer.output + answer.errors)
        self.assertIn(
            "Not judged:\n    Makefile:4: the recipe of lib/l.a starts make only", answer.output
        )
        built = self.built()
        self.assertFalse(self.rebuilds(built, ["lib/l.in"], ["lib/l.a", "prog"]))


@can_judge
class CommandsTest(MakeFolderTest):
    """What recipes do beside starting makes."""

    def test_loop(self) -> None:
        """Automake's way through the folders."""
        self.write(
            {
                "Makefile": "SUBDIRS = lib prog\nall: all-recursive\nall-recursive:\n"
                "\t@fail=; for dir in $(SUBDIRS); do \\\n"
                '\t  echo "Making all in $$dir"; \\\n'
                "\t  (cd $$dir && $(MAKE) all) || fail=yes; \\\n"
                '\tdone; test -z "$$fail"\n.PHONY: all all-recursive\n',
                "lib/Makefile": "all: l.a\nl.a: l.in\n\tcp l.in l.a\n.PHONY: all\n",
                "lib/l.in": "l\n",
                "prog/Makefile": "all: p\n.PHONY: all\n"
                "p: p.in ../lib/l.a\n\tcat p.in ../lib/l.a > p\n",
                "prog/p.in": "p\n",
            }
        )
        answer = self.imported()
        self.assertEqual(answer.status, 0, answer.output + answer.errors)
        self.try_answer(answer)

    def test_make_by_its_name(self) -> None:
        """A make that is started without $(MAKE), which `make -n` doesn't show."""
        self.write(
            {
                "Makefile": "all: x\n\tcd lib; make\n.PHONY: all\nx: a\n\tcp a x\n",
                "a": "a\n",
                "lib/Makefile": "l.a: l.in\n\tcat l.in ../x > l.a\n",
                "lib/l.in": "l\n",
            }
        )
        answer = self.imported()
        self.assertEqual(answer.findings, ["no stale lib/l.a x"], answer.output + answer.errors)
        self.assertEqual(answer.status, 1)
        self.assertIn("all: x .WAIT lib/l.a\n", answer.rules())
        self.try_answer(answer)

    def test_script_that_starts_make(self) -> None:
        self.write(
            {
                "Makefile": "all:\n\t./build\n.PHONY: all\n",
                "build": "#!/bin/sh\ncd lib && make\n",
                "lib/Makefile": "l.a: l.in\n\tcp l.in l.a\n",
                "lib/l.in": "l\n",
            }
        )
        answer = self.imported()
        self.assertEqual(answer.status, 4, answer.output + answer.errors)
        self.assertIn("\nNot judged:\n    Makefile:2: the recipe of all", answer.output)
        self.assertIn("starts make in lib: its build isn't judged here", answer.output)

    def test_recipe_that_does_more(self) -> None:
        self.write(
            {
                "Makefile": "all:\n\t$(MAKE) -C lib && cp lib/l.a .\n.PHONY: all\n",
                "lib/Makefile": "l.a: l.in\n\tcp l.in l.a\n",
                "lib/l.in": "l\n",
            }
        )
        answer = self.imported()
        self.assertEqual(answer.status, 4, answer.output + answer.errors)
        self.assertIn(
            "Makefile:2: the recipe of all starts make, and a command of it does more: it uses the"
            " file lib/l.a",
            answer.output,
        )

    def test_commands_around(self) -> None:
        """Commands of their own lines run before and after the makes."""
        self.write(
            {
                "Makefile": "all:\n\tcp h.in h\n\t$(MAKE) -C lib\n\tcp lib/l.a l.a\n.PHONY: all\n",
                "h.in": "h\n",
                "lib/Makefile": "l.a: l.in ../h\n\tcat l.in ../h > l.a\n",
                "lib/l.in": "l\n",
            }
        )
        answer = self.imported()
        self.assertEqual(answer.status, 0, answer.output + answer.errors)
        self.assertIn("all: all@commands .WAIT lib/l.a .WAIT all@commands.2\n", answer.rules())
        self.try_answer(answer)


@can_judge
class SharedTest(MakeFolderTest):
    """Targets, makefiles and rules that several makes have."""

    def test_same_target_at_one_time(self) -> None:
        """Two makes of one folder that both make a file, perhaps at once."""
        self.write(
            {
                "Makefile": "all: one two\n.PHONY: all one two\n"
                "one:\n\t$(MAKE) -f sub.mk x\ntwo:\n\t$(MAKE) -f sub.mk y\n",
                "sub.mk": "x: c\n\tcp c x\ny: c\n\tcp c y\nc: a\n\tcp a c\n",
                "a": "a\n",
            }
        )
        answer = self.imported()
        self.assertEqual(answer.status, 4, answer.output + answer.errors)
        self.assertIn("can run the recipes of the same targets at the same time (c)", answer.output)

    def test_same_target_one_after_another(self) -> None:
        self.write(
            {
                "Makefile": "all: one\n\t$(MAKE) -f sub.mk y\n.PHONY: all one\n"
                "one:\n\t$(MAKE) -f sub.mk x\n",
                "sub.mk": "x: c\n\tcp c x\ny: c\n\tcp c y\nc: a\n\tcp a c\n",
                "a": "a\n",
            }
        )
        answer = self.imported()
        self.assertEqual(answer.status, 0, answer.output + answer.errors)
        self.try_answer(answer)

    def test_make_of_the_same_makefile(self) -> None:
        """As Automake does: what the makefile makes first is there when its own make begins."""
        self.write(
            {
                "Makefile": "all: config.h\n\t$(MAKE) all-am\n"
                "all-am: x\nx: a config.h\n\tcat a config.h > x\n"
                "config.h: config.in\n\tcp config.in config.h\n.PHONY: all all-am\n",
                "a": "a\n",
                "config.in": "c\n",
            }
        )
        answer = self.imported()
        self.assertEqual(answer.status, 0, answer.output + answer.errors)
        self.try_answer(answer)

    def test_same_recipe_of_makes_with_other_words(self) -> None:
        """The make below finds `gen` done."""
        rules = "gen: a\n\tcp a gen; echo $V >> gen\nx: b gen\n\tcat b gen > x\n"
        for words, status in (("-f Makefile x", 0), ("W=2 x", 4), ("V=2 x", 4)):
            with self.subTest(words):
                self.write({"Makefile": f"all: gen\n\t$(MAKE) {words}\n{rules}"})
                self.write({"a": "a\n", "b": "b\n"})
                answer = self.imported()
                self.assertEqual(answer.status, status, answer.output + answer.errors)
                said = "several makes have a recipe for gen, with other commands or another"
                self.assertEqual(said in answer.output, status == 4, answer.output)
                self.assertTrue(self.rebuilds(self.built(), ["a"], ["gen", "x"]))

    def test_same_recipe_of_makes_that_run_at_one_time(self) -> None:
        rules = "gen: a\n\tcp a gen\nx y: gen\n\tcat gen > $@\n"
        makes = "one:\n\t$(MAKE) W=1 x\ntwo:\n\t$(MAKE) W=2 y\n"
        self.write({"Makefile": f"all: one two\n{makes}{rules}", "a": "a\n"})
        answer = self.imported()
        self.assertEqual(answer.status, 4, answer.output + answer.errors)
        self.assertIn("can run the recipes of the same targets at the same time", answer.output)

    def test_phony_names_of_several_makefiles(self) -> None:
        """`all` of one makefile isn't `all` of another one in the same folder."""
        self.write(
            {
                "Makefile": "all: x\n\t$(MAKE) -f other.mk all\nx: a\n\tcp a x\n.PHONY: all\n",
                "other.mk": "all: y\ny: a\n\tcp a y\n.PHONY: all\n",
                "a": "a\n",
            }
        )
        answer = self.imported()
        self.assertEqual(answer.status, 0, answer.output + answer.errors)
        self.assertIn("all: x .WAIT all@make2\n", answer.rules())
        self.assertIn("all@make2: y\n", answer.rules())

    def test_serial_make(self) -> None:
        """`.NOTPARALLEL` holds for the make that reads it."""
        self.write(
            {
                "Makefile": "all:\n\t$(MAKE) -C sub x y\n.PHONY: all\n",
                "sub/Makefile": ".NOTPARALLEL:\nx: a\n\tcp a x\ny: b\n\tcat b x > y\n",
                "sub/a": "a\n",
                "sub/b": "b\n",
            }
        )
        answer = self.imported()
        self.assertEqual(answer.status, 1, answer.output + answer.errors)
        self.assertIn("all: sub/x .WAIT sub/y\n", answer.rules())
        self.assertEqual(answer.findings, ["no stale sub/y sub/x"])
        self.try_answer(answer)

    def test_make_that_goes_on(self) -> None:
        """`-` and `-k`: a recipe of the make below fails, and its other targets are made."""
        self.write(
            {
                "Makefile": "all:\n\t-$(MAKE) -k -C lib\n\tcp a b\n.PHONY: all\n",
                "a": "a\n",
                "lib/Makefile": "all: x z\n.PHONY: all\nx: y\n\tcp y x\nz: y\n\t$(FAIL) cp y z\n",
                "lib/y": "1\n",
            }
        )
        answer = self.imported("FAIL=false &&")
        self.assertEqual((answer.status, answer.output), (2, ""))
        self.assertIn("make failed in lib with status 2", answer.errors)
        self.assertIn("fails, and the build goes on (by a `-` before the command", answer.errors)
        self.assertNotIn("recording", answer.errors)
        answer = self.imported()
        self.assertEqual(answer.status, 0, answer.output + answer.errors)
        self.assertIn(
            "    Makefile:2: the recipe of all goes on when the make in lib fails", answer.output
        )

    def test_makes_that_may_fail_are_one_note(self) -> None:
        self.write(
            {
                "Makefile": "all:\n\t-$(MAKE) -C lib\n\t-$(MAKE) -C doc\n.PHONY: all\n",
                "lib/Makefile": "x: y\n\tcp y x\n",
                "lib/y": "1\n",
                "doc/Makefile": "x: y\n\tcp y x\n",
                "doc/y": "1\n",
            }
        )
        answer = self.imported("--look")
        self.assertIn(
            "    Makefile:2: the recipe of all goes on when the make in doc fails (by `-`): then a"
            " make that ends well may leave old files, which isn't judged; so it is with lib\n",
            answer.output,
        )

    def test_make_that_ignores_failures(self) -> None:
        """With `-i` each command may fail."""
        self.write(
            {
                "Makefile": "all: b\n\t$(MAKE) -i -C lib\n.PHONY: all\nb: a\n\tcp a b\n",
                "a": "a\n",
                "lib/Makefile": "x: y\n\tcp y x; false\n",
                "lib/y": "1\n",
            }
        )
        answer = self.imported()
        self.assertEqual(answer.status, 0, answer.output + answer.errors)
        self.assertIn("lib/x: lib/y\n\t-cd lib; cp y x; false\n", answer.rules())
        self.assertIn("b: a\n\tcp a b\n", answer.rules())
        self.try_answer(answer)

    def test_make_that_fails(self) -> None:
        self.write(
            {
                "Makefile": "all:\n\t-$(MAKE) -C lib\n\tcp a b\n.PHONY: all\n",
                "a": "a\n",
                "lib/Makefile": "l.a: missing\n\tcp missing l.a\n",
            }
        )
        answer = self.imported()
        self.assertEqual(answer.status, 2, answer.output + answer.errors)
        self.assertIn("make failed in lib with status 2", answer.errors)


@can_judge
class JobsTest(MakeFolderTest):
    """Makes below that are told how many jobs to have."""

    RULES = (
        "all: gen out\ngen: in\n\tcp in gen\n"
        "out: out.in\n\tcp out.in out; cat gen >> out || true\n"
    )

    def judged(self, top: str, sub: str) -> list[str]:
        """The races and stale reads of makefiles in the folders that are above `deep`."""
        deep = "sub" if self.RULES in sub else "sub/deep"
        self.write({f"{deep}/in": "in\n", f"{deep}/out.in": ""})
        if not (self.folder / deep / "Makefile").exists():
            self.write({f"{deep}/Makefile": self.RULES})
        self.write({"Makefile": top, "sub/Makefile": sub})
        answer = self.imported()
        self.assertEqual(answer.status, 1, answer.output + answer.errors)
        self.try_answer(answer)
        return [finding.split(" ")[1] for finding in answer.findings]

    def test_one_job(self) -> None:
        """`gen` is always done first, and `out` isn't made again by it."""
        for option in ("-j1", "-j 1", "--jobs=1", "-kj1"):
            with self.subTest(option):
                top = f"all:\n\t$(MAKE) {option} -C sub\n"
                self.assertEqual(self.judged(top, self.RULES), ["stale"])

    def test_makes_of_one_makefile_with_one_job_and_with_several(self) -> None:
        """What the first make has done the second one finds done."""
        self.write({"sub/more.in": ""})
        sub = f"{self.RULES}more: more.in\n\tcp more.in more\n"
        one, several = "\t$(MAKE) -j1 -C sub {}\n", "\t$(MAKE) -j4 -C sub {}\n"
        for lines, found in (
            (one.format("all") + several.format("more"), ["stale"]),
            (one.format("more") + several.format("all"), ["race", "stale"]),
            (several.format("all") + one.format("more"), ["race", "stale"]),
        ):
            with self.subTest(lines):
                self.assertEqual(self.judged(f"all:\n{lines}", sub), found)

    def test_one_job_holds_below(self) -> None:
        top = "all:\n\t$(MAKE) -j1 -C sub\n"
        self.assertEqual(self.judged(top, "all:\n\t$(MAKE) -C deep\n"), ["stale"])

    def test_one_job_that_the_makefile_below_asks_for(self) -> None:
        top = "all:\n\t$(MAKE) -C sub\n"
        for line in ("MAKEFLAGS += -j1", "MAKEFLAGS += --jobs=1", "MAKEFLAGS = kj1"):
            with self.subTest(line):
                self.assertEqual(self.judged(top, f"{line}\n{self.RULES}"), ["stale"])

    def test_one_job_that_a_condition_of_the_makefile_asks_for(self) -> None:
        """The goals and the macros that the make is given decide."""
        front = "ifeq ($(MAKECMDGOALS) $v,all 1)\nMAKEFLAGS += -j1\nendif\n"
        for words, found in (("all v=1", ["stale"]), ("all v=2", ["race", "stale"])):
            with self.subTest(words):
                top = f"all:\n\t$(MAKE) -C sub {words}\n"
                self.assertEqual(self.judged(top, front + self.RULES), found)

    def test_words_come_before_what_the_makefile_asks_for(self) -> None:
        top = "all:\n\t$(MAKE) -j4 -C sub\n"
        found = self.judged(top, f"MAKEFLAGS += -j1\n{self.RULES}")
        self.assertEqual(found, ["race", "stale"])

    def test_several_jobs_that_the_makefile_below_one_job_asks_for(self) -> None:
        top = "all:\n\t$(MAKE) -j1 -C sub\n"
        self.write({"sub/deep/more.mk": "MAKEFLAGS += -j4\n"})
        sub = "all:\n\t$(MAKE) -C deep\n"
        self.write({"sub/deep/Makefile": f"include more.mk\n{self.RULES}"})
        self.assertEqual(self.judged(top, sub), ["race", "stale"])

    def test_several_jobs_below_one_job(self) -> None:
        """The build by which the importer learns has one job, and so doesn't fail."""
        top = "all:\n\t$(MAKE) -j1 -C sub\n"
        for option in ("-j4", "-j"):
            with self.subTest(option):
                found = self.judged(top, f"all:\n\t$(MAKE) {option} -C deep\n")
                self.assertEqual(found, ["race", "stale"])

    def test_several_jobs_below_a_serial_make(self) -> None:
        """`.NOTPARALLEL` is of one makefile."""
        top = "all:\n\t$(MAKE) -j4 -C sub\n.NOTPARALLEL:\n"
        self.assertEqual(self.judged(top, self.RULES), ["race", "stale"])

    def test_a_serial_make_below(self) -> None:
        top = "all:\n\t$(MAKE) -C sub\n"
        self.write({"sub/more.mk": ".NOTPARALLEL:\n"})
        sub = f"{self.RULES}include more.mk\n"
        self.assertEqual(self.judged(top, sub), ["stale"])


@can_judge
class TargetWithoutRecipeTest(MakeFolderTest):
    """A file that a recursive make writes, and that has a rule without a recipe above.

    GNU make doesn't look at it again in the make in which it is written.
    """

    def judged(self, top: str) -> list[str]:
        self.write(
            {
                "Makefile": top + "app: lib/x\n\tcp lib/x app\n.PHONY: lib\n",
                "lib/Makefile": "x: y\n\tcp y x\n",
                "lib/y": "1\n",
            }
        )
        answer = self.imported("app") if "all:" not in top else self.imported()
        advice = "give that rule an empty recipe, as in 'lib/x: PREREQUISITES ;'"
        self.assertIn(advice, answer.output)
        if "all:" not in top:
            self.try_answer(answer, "app")
        return answer.findings

    def test_normal(self) -> None:
        found = self.judged("lib/x: lib\nlib:\n\t$(MAKE) -C lib\n")
        self.assertEqual(found, ["no stale app lib/x"])

    def test_order_only(self) -> None:
        found = self.judged("lib/x: | lib\nlib:\n\t$(MAKE) -C lib\n")
        self.assertEqual(found, ["no stale app lib/x"])

    def test_behind_the_other_goal(self) -> None:
        """With one job make is right by its order; with more it may look at the file too early."""
        found = self.judged("all: lib app\nlib/x: lib\nlib:\n\t$(MAKE) -C lib\n")
        self.assertEqual(found, ["no stale app lib/x"])

    def test_without_a_rule(self) -> None:
        """As a header that only a dependency file names. With several jobs the make above looks at
        it before the make below has written it."""
        self.write(
            {
                "Makefile": "all: lib app\n.PHONY: all lib\nlib:\n\t$(MAKE) -C lib\n"
                "app: a | lib\n\tcat a lib/x > app; echo 'app: lib/x' > app.d\n-include app.d\n",
                "a": "a\n",
                "lib/Makefile": "x: y\n\tsleep 0.3; cp y x\n",
                "lib/y": "1\n",
            }
        )
        answer = self.imported()
        self.assertEqual(answer.findings, ["no stale app lib/x"], answer.output + answer.errors)

        def made() -> str:
            """What two jobs leave after an edit."""
            folder = self.built()
            wait_for_later_stamps(folder)
            (folder / "lib/y").write_text("2\n")
            self.assertEqual(self.make(folder, "-j2").returncode, 0)
            return (folder / "app").read_text()

        self.assertEqual(found_once(made, "a\n1\n"), "a\n1\n")


@can_judge
class MakesThatAreNotJudgedTest(MakeFolderTest):
    """Makes of which it isn't known when they run, or what they do: the answer is never yes."""

    def refused(self, makefile: str, sentence: str) -> None:
        self.write(
            {
                "Makefile": makefile + ".PHONY: all\n",
                "a": "a\n",
                "sub/Makefile": "out: src\n\tcp src out\n",
                "sub/src": "1\n",
                "other/Makefile": "out: src\n\tcp src out\n",
                "other/src": "1\n",
            }
        )
        answer = self.imported()
        status = 2 if answer.output.startswith("no answer: no recipe could be judged") else 4
        self.assertEqual(answer.status, status, answer.output)
        self.assertIn(sentence, answer.output)

    def test_by_another_path(self) -> None:
        """What such a make prints hides the commands before it; `cp` alone would be left."""
        self.refused(
            "all: x\nx: a\n\tenv PATH=/usr/bin:/bin make -C sub out\n\tcp a x\n",
            "a recipe starts a make by a path or with another PATH",
        )

    def test_sometimes(self) -> None:
        self.refused(
            "all:\n\ttest -f sub/out || $(MAKE) -C sub out\n",
            "make in sub is started in a first build and not in the next one",
        )

    def test_at_once(self) -> None:
        self.refused(
            "all:\n\t$(MAKE) -C sub out & $(MAKE) -C other out; wait\n",
            "the recipe of all starts makes that run beside each other",
        )
