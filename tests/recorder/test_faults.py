"""Recordings that fail or that warn, and the other runs."""

from __future__ import annotations

import sys

from recorder.project import ProjectTest, traced

FAILING = "out: a b\n\tcat b\na:\n\techo > a\nb: a\n\techo first\n\t@echo said; exit 7\n"


@traced
class FaultTest(ProjectTest):
    """Faults and their statuses."""

    def test_a_recipe_that_fails(self) -> None:
        self.write({"makefile": FAILING})
        outcome = self.record()
        self.assertEqual((outcome.status, outcome.counts, outcome.output), (1, (1, 3), ""))
        self.assertTrue(outcome.lacks("b", "out"), outcome)
        self.assertEqual(outcome.own("a"), (set(), {"a"}))
        self.assertEqual(
            outcome.errors,
            (
                "mkcheck-record: the recipe of b failed, status 7, at 'echo said; exit 7'\n"
                "\techo first\n\t@echo said; exit 7\nfirst\nsaid\n"
                "mkcheck-record: the recipe of out wasn't run, since it depends on one that"
                " failed\n"
            ),
        )
        said = f"when that is mended, mkcheck-record --update {self.book} records the rest"
        self.assertEqual(outcome.behind, (said,))
        self.assertEqual(self.check()[0], "no record b")

    def test_a_recipe_that_fails_for_what_another_makes_later(self) -> None:
        self.write({"makefile": "all: b d/c\nb: x\n\tcat x d/c\nd/c: x\n\tcp x d/c\n", "x": ""})
        outcome = self.record()
        self.assertTrue(outcome.lacks("b", "d/c"), outcome)
        self.assertIn(
            "\n\tb looks for d/c, which the recipe of d/c makes later: add b: d/c\n",
            outcome.errors,
        )
        self.write({"makefile": "b:\n\tcat c none\nc: b\n\tcp b c\n"})
        self.assertIn(
            "\n\tb looks for c, which the recipe of c makes later, and needs b\n",
            self.record("c").errors,
        )

    def test_a_recipe_that_fails_for_a_folder_that_another_makes_later(self) -> None:
        """A compiler looks for no header in a folder that isn't there."""
        late = "makes later: add o/b: g/d/c\n"
        for look in ("cd g", "test -d g/d && exit 0; false"):
            self.write(
                {
                    "makefile": (
                        f"all: o/b g/d/c\no/b: x\n\tmkdir -p o; {look}\n"
                        "g/d/c: x\n\tmkdir -p g/d; cp x g/d/c\n"
                    ),
                    "x": "",
                }
            )
            outcome = self.record()
            self.assertTrue(outcome.lacks("o/b"), outcome)
            said = f"\n\to/b looks for the folder of g/d/c, which the recipe of g/d/c {late}"
            self.assertIn(said, outcome.errors)
        self.write({"makefile": "all: g/b g/c\ng/b: x\n\tmkdir -p g; false\ng/c: x\n\tcp x g/c\n"})
        self.assertNotIn("looks for", self.record().errors)

    def test_a_recipe_that_fails_for_a_rule_that_the_goals_dont_reach(self) -> None:
        """The header of `p.c p.h: p.y` isn't reached where nothing names it."""
        makefile = "p: a.o p.o\n\tcat a.o p.o > p\n.PHONY: clean\nclean:\n\trm -f p\n"
        makefile += "p.c p.h: p.y\n\tcp p.y p.c; cp p.y p.h\np.o: p.c\n\tcp p.c p.o\n"
        said = "\n\ta.o looks for p.h, which has a rule that the goals don't reach: add a.o: p.h\n"
        for names in ("p.h", "clean /nowhere p.h none"):
            rule = f"a.o: a\n\tcat a {names} > a.o\n"
            self.write({"makefile": makefile + rule, "a": "", "p.y": ""})
            outcome = self.record()
            self.assertTrue(outcome.is_refused, outcome)
            self.assertIn(said, outcome.errors)
            self.assertEqual(outcome.errors.count("looks for"), 1)
        self.write({"makefile": "a.o:\n\tcat p.h > a.o\np.h: a.o\n\tcp a.o p.h\n"})
        self.assertNotIn("looks for", self.record().errors)

    def test_a_recipe_without_its_program_whose_target_came_with_the_sources(self) -> None:
        said = (
            "\n\tp.c is there, but a recording makes each target anew: if it came with the sources,"
            " leave out the commands of its rule, or use mkcheck-import, which takes it as it is\n"
        )
        self.write({"makefile": "p: p.c\n\tcp p.c p\np.c: p.y\n\tno-such-yacc p.y\n", "p.y": ""})
        self.assertNotIn("is there", self.record().errors)
        self.write({"p.c": "int a;\n"})
        outcome = self.record()
        self.assertTrue(outcome.lacks("p.c", "p"), outcome)
        self.assertIn(said, outcome.errors)
        self.write({"makefile": "p: p.c\n\tcp p.c p\np.c: p.y\n"})
        self.assertEqual(self.recorded().own("p"), ({"p.c"}, {"p"}))
        self.write({"makefile": "p.c: p.y\n\texit 1\n"})
        self.assertNotIn("is there", self.record().errors)

    def test_a_recipe_that_fails_for_names_that_another_lacks(self) -> None:
        """`$?` is empty, so the list of the recipe before has no lines."""
        makefile = "p: m list\n\ttest -s list\nm: x\n\tcp x m\nlist: x\n\tprintf '%s' $? > list\n"
        said = "\n\tthe commands of list use $?, which is empty here: write $^\n"
        self.write({"makefile": makefile, "x": ""})
        outcome = self.record()
        self.assertTrue(outcome.lacks("p"), outcome)
        self.assertIn(said, outcome.errors)
        self.write({"makefile": makefile.replace("> list", "> list; false")})
        self.assertIn(said, self.record().errors)
        self.write({"makefile": makefile.replace("cp x m", "false")})
        self.assertNotIn(said, self.record().errors)

    def test_goals_that_reach_no_recipe(self) -> None:
        self.write({"makefile": "OBJS = a\nall: $(OBJ)\na:\n\techo > a\n"})
        said = ["the goals reach no recipe: is a macro misspelt?"]
        self.assertEqual(self.recorded().warnings(), said)
        self.assertEqual(self.recorded("a").warnings(), [])

    def test_all_that_a_failing_recipe_puts_out(self) -> None:
        self.write(
            {
                "makefile": (
                    "a:\n\techo one\n\t-echo two >&2; false\n\tprintf three; exit 3\n\techo four\n"
                )
            }
        )
        outcome = self.record()
        self.assertEqual((outcome.status, outcome.book), (1, None))
        self.assertEqual(
            outcome.errors,
            (
                "mkcheck-record: the recipe of a failed, status 3, at 'printf three; exit"
                " 3'\n\techo one\n\t-echo two >&2; false\n\tprintf three; exit 3\n\techo"
                " four\none\ntwo\nthree\n"
            ),
        )

    def test_a_command_that_ends_in_a_backslash_with_the_file(self) -> None:
        """`graph -c` prints the next name as if the command went on."""
        front = "mkcheck-record: the last command of b ends in a backslash, and no line comes"
        behind = " behind it: end that file with a newline, without the backslash\n"
        cases: tuple[tuple[str, dict[str, str]], ...] = (
            ("all: b c\nc:\n\techo > c\nb:\n\techo > b; : \\", {}),
            ("all: b\na:\n\techo > a\ninclude m\n", {"m": "b: a\n\techo \\\n1 > b; : \\"}),
        )
        for makefile, files in cases:
            self.write({"makefile": makefile, **files})
            outcome = self.record()
            self.assertEqual((outcome.status, outcome.book), (2, None))
            self.assertEqual(outcome.errors, front + behind)
        for makefile in ("b:\n\techo > b; : \\", "all: b\nb:\n\techo > b; : \\\n\nall:\n"):
            self.write({"makefile": makefile})
            self.assertEqual(self.recorded().own("b"), (set(), {"b"}))

    def test_a_command_that_is_not_utf8(self) -> None:
        (self.folder / "makefile").write_bytes(b"b: a\n\techo \xff > b\na:\n\techo > a\n")
        outcome = self.record()
        self.assertEqual((outcome.status, outcome.book), (2, None))
        self.assertEqual(
            outcome.errors,
            "mkcheck-record: a command of b holds bytes that aren't UTF-8, and footprints, which"
            " are JSON, can't hold these: write it in UTF-8, or put these bytes into a file that it"
            " reads\n",
        )

    def test_an_old_file_stays_where_no_recipe_is_recorded(self) -> None:
        self.write({"makefile": "a:\n\tfalse\n"})
        kept = self.scratch / "kept"
        kept.write_text('{"format": 1}')
        outcome = self.record("-o", str(kept))
        self.assertEqual((outcome.status, outcome.counts), (1, (0, 1)))
        self.assertEqual(outcome.behind, (f"{kept} is still that of the recording before",))
        self.assertEqual(kept.read_text(), '{"format": 1}')

    def test_a_file_that_is_no_footprint_file(self) -> None:
        self.write({"makefile": "a:\n\techo > a\n"})
        kept = self.scratch / "kept"
        for option in ("-o", "--update"):
            for text in ("int a;\n", "[1]", "5", '["format", "x"]', '{"a": "format"}'):
                kept.write_text(text)
                outcome = self.record_plainly(option, str(kept))
                self.assertEqual(
                    (outcome.status, outcome.errors, kept.read_text()),
                    (
                        2,
                        f"mkcheck-record: {option} {kept}: this file is no footprint file, so it"
                        " isn't overwritten: give another name, or remove it\n",
                        text,
                    ),
                )
            for text in ("", '{"format": 1}'):
                kept.write_text(text)
                self.assertEqual(self.record_plainly(option, str(kept)).status, 0)
                self.assertIn('"target":"a"', kept.read_text())

    def test_a_command_that_is_killed(self) -> None:
        self.write({"makefile": "a:\n\tkill -9 $$$$\n"})
        outcome = self.record()
        self.assertEqual((outcome.status, outcome.book), (1, None))

    def test_what_mkcheck_refuses(self) -> None:
        self.write({"makefile": "a: b\nb: a\n"})
        outcome = self.record()
        self.assertEqual((outcome.status, outcome.book), (2, None))
        self.assertEqual(
            outcome.errors,
            (
                "mkcheck-record: mkcheck graph: refused 42 a b a: the names need each other in a"
                " circle; take out the prerequisite that closes it\n\tmakefile:2: b: a\n"
            ),
        )

    def test_what_a_refusal_means(self) -> None:
        front, by = "mkcheck-record: mkcheck graph: refused", "mkcheck-import judges a makefile"
        no_name = "is no name of a file"
        for text, number, sentence in (
            ("a: $(wildcard *.c)\n", "11 makefile:1", "the line has no macro name of POSIX: "),
            ("\nX := a\n", "22 makefile:2", "mkcheck doesn't judge :=, "),
            ("ifdef X\nendif\n", "25 makefile:1", "the line is no rule, macro or include"),
            ("%.o: %.c\n\tcc\n", "27 makefile:1", f"%.o {no_name}: pattern rules are GNU make's;"),
            ("a: b | c\n", "27 makefile:1", f"| {no_name}: order-only prerequisites are GNU"),
            ("a: x\na b &: c\n", "27 makefile:2", f"& {no_name}: &: is GNU make's; "),
            ("a: b\r\n", "27 makefile:1", f"b\\r {no_name}: the line ends in CR LF; "),
            ("a: *.c\n", "27 makefile:1", f"*.c {no_name}: names in a makefile are no patterns; "),
            ('a: "b c"\n', "27 makefile:1", f'"b {no_name}: a makefile has no quotes, '),
            ("X = ./d\na: $(X)/../b\n", "27 makefile:2", f"./d/../b {no_name}: a file has one sp"),
            ("a: d/\n", "27 makefile:1", f"d/ {no_name}: a file has one spelling; write d; "),
            ("a: ./\n", "27 makefile:1", f"./ {no_name}; "),
            ("a: b:c\n", "27 makefile:1", f"b:c {no_name}; "),
        ):
            self.write({"makefile": text})
            said = self.record().errors
            self.assertTrue(said.startswith(f"{front} {number}: {sentence}"), said)
            self.assertIn(by, said)
            line = text.split("\n")[int(number[-1]) - 1].replace("\r", "?")
            self.assertTrue(said.endswith(f"\n\t{line}\n"), said)
        for text, words, number, sentence in (
            ("a: b$\n", (), "16 makefile:1", "a $ stands alone; "),
            ("a:\n", ("-f", "none"), "37 none", "there is no makefile; -f names it, and -C its"),
            ("a:\n", ("%",), "27 goal:1", "the word is no name of a goal\n"),
            ("a:\n", ("A+=b",), "11 operand:1", "the word with = sets no macro\n"),
        ):
            self.write({"makefile": text})
            said = self.record(*words).errors
            self.assertTrue(said.startswith(f"{front} {number}: {sentence}"), said)
            self.assertNotIn(by, said)

    def test_a_folder_without_a_makefile(self) -> None:
        front = "mkcheck-record: mkcheck graph: refused 37: there is"
        self.assertIn(f"{front} no makefile; -f names it, ", self.record().errors)
        self.write({"configure": "#!/bin/sh\n"})
        self.assertEqual(f"{front} no makefile yet; run ./configure first\n", self.record().errors)
        self.write({"GNUmakefile": "a: x\n\tcp x a\n", "x": ""})
        outcome = self.record()
        self.assertEqual((outcome.status, outcome.book), (2, None))
        said = "only GNUmakefile, GNU make's own: give -f GNUmakefile; mkcheck-import judges"
        self.assertIn(f"{front} {said}", outcome.errors)
        self.assertEqual(self.recorded("-f", "GNUmakefile").own("a"), ({"x"}, {"a"}))

    def test_fixed_prefixes_under_which_nothing_lies(self) -> None:
        self.write({"makefile": "a: d/x\n\tcp d/x a\n", "d/x": ""})
        self.assertEqual(
            self.recorded("--fixed", "e", "--fixed", str(self.folder / "d")).warnings(),
            [
                "--fixed e/: there is no such folder",
                f"--fixed {self.folder}/d/: files of the project are named from its folder, so none"
                " lies under this prefix; write --fixed d/",
            ],
        )
        outcome = self.recorded("--fixed", "d", "--fixed", str(self.scratch), "--fixed", "..")
        self.assertEqual((outcome.warnings(), outcome.written["sources"]), ([], []))

    def test_a_name_that_nothing_makes(self) -> None:
        self.write({"makefile": "a: b\n\tcp b a\n"})
        self.assertEqual(
            self.record().errors,
            (
                "mkcheck-record: mkcheck graph: refused 41 b: no rule makes b, and the folder has"
                " no such file\n"
            ),
        )

    def test_without_strace(self) -> None:
        self.write({"makefile": "a:\n\techo > a\n"})
        tools = self.scratch / "tools"
        tools.mkdir()
        (tools / "python3").symlink_to(sys.executable)
        outcome = self.record(environment={"PATH": str(tools)})
        self.assertEqual((outcome.status, outcome.book), (2, None))
        self.assertIn("strace isn't there", outcome.errors)

    def test_words_that_are_no_options(self) -> None:
        self.assertEqual(self.record("--nothing").status, 2)
        self.assertEqual(self.record("--make", "--in-place").status, 2)
        self.assertEqual(self.record("--fixed", "a/../b").status, 2)
        self.assertEqual(self.record("-C", str(self.scratch / "none")).status, 2)


@traced
class OtherRunsTest(ProjectTest):
    """`--again` and `--make`."""

    def test_contents_that_differ(self) -> None:
        self.write({"makefile": "all: a b\na:\n\tdate +%N > a\nb: a\n\techo same > b\n"})
        outcome = self.recorded("--again", "--fixed", "/proc")
        self.assertEqual(
            outcome.warnings(),
            ["a differs in a second run: the recipe of a isn't a function of what it reads"],
        )
        self.write({"makefile": "b:\n\tpwd > b\n"})
        self.assertEqual(self.recorded("--again").warnings(), [])

    def test_make_does_the_same(self) -> None:
        self.write(
            {"makefile": "out: a b\n\t@cat a b > out\nb: a\n\t-cp \\\n\ta b\n\ttouch c\n", "a": ""}
        )
        outcome = self.recorded("--make")
        self.assertEqual(outcome.warnings(), [])
        self.assertEqual(outcome.own("out"), ({"a", "b"}, {"out"}))

    def test_a_make_that_a_recipe_starts(self) -> None:
        self.write(
            {"makefile": "x: a\n\t$(MAKE) -f sub.mk x\n", "sub.mk": "x: a\n\tcat a > x\n", "a": ""}
        )
        outcome = self.recorded("--make", "--opaque", "x")
        self.assertEqual(outcome.warnings(), [])
        self.assertEqual(outcome.own("x"), ({"sub.mk", "a"}, {"x"}))

    def test_make_does_another_thing(self) -> None:
        self.write(
            {
                "makefile": 'out: a\n\tif test "$$MAKELEVEL"; then cat b; fi; cat a > out\n',
                "a": "",
                "b": "",
            }
        )
        self.assertEqual(
            self.recorded("--make").warnings(), ["out reads b when make runs it, but not else"]
        )

    def test_make_runs_other_commands(self) -> None:
        self.write({"makefile": "out:\n\techo $(MAKEOVERRIDES) > out\n"})
        first, second = self.recorded("--make").warnings()
        self.assertRegex(first, r"^make runs a command that no recipe has: echo .+ > out$")
        self.assertEqual(second, "make doesn't run a command of out: echo > out")
