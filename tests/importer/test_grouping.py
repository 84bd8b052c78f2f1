"""Sentences that differ only in the target are told as one."""

from __future__ import annotations

import json
import unittest

from importer.make_folder import MakeFolderTest, can_judge
from mkcheck_tools.imports.grouping import grouped


def told(**sentences: str) -> list[str]:
    """What is told of sentences, each about one target; an underscore stands for a dot."""
    subjects = {text: target.replace("_", ".") for target, text in sentences.items()}
    return grouped(subjects, subjects)


class GroupingTest(unittest.TestCase):
    """Texts alone."""

    def test_targets_of_one_line(self) -> None:
        self.assertEqual(
            told(a_o="M:3: a.o isn't made", b_o="M:3: b.o isn't made", c_o="M:3: c.o isn't made"),
            ["M:3: a.o isn't made; so it is with b.o and c.o"],
        )

    def test_targets_of_several_lines(self) -> None:
        self.assertEqual(
            told(x="M:3: the recipe of x fails", y="N:5: the recipe of y fails"),
            ["M:3: the recipe of x fails; so it is with y (N:5)"],
        )

    def test_a_line_that_begins_the_sentence(self) -> None:
        self.assertEqual(
            told(a_i="build.ninja:3 leaves a.i", b_i="build.ninja:9 leaves b.i"),
            ["build.ninja:3 leaves a.i; so it is with b.i (build.ninja:9)"],
        )

    def test_names_made_from_that_of_the_target(self) -> None:
        self.assertEqual(
            told(one_o="M:3: `cc one.c -o one.o` is new", two_o="M:3: `cc two.c -o two.o` is new"),
            ["M:3: `cc one.c -o one.o` is new; so it is with two.o"],
        )

    def test_a_name_that_is_a_word_of_the_sentence(self) -> None:
        self.assertEqual(
            told(
                a_o="M:3: make has other commands for a.o: `cc a.c`, which reads a.h",
                commands_o="M:3: make has other commands for commands.o: `cc commands.c`, which"
                " reads commands.h",
            ),
            [
                "M:3: make has other commands for a.o: `cc a.c`, which reads a.h; so it is with"
                " commands.o"
            ],
        )

    def test_other_causes(self) -> None:
        texts = ["M:3: x reads h", "M:3: y reads i"]
        self.assertEqual(told(x=texts[0], y=texts[1]), texts)

    def test_a_part_of_a_word_is_no_name(self) -> None:
        texts = ["M:3: x reads x.h and maxx", "M:3: y reads y.h and maxy"]
        self.assertEqual(told(x=texts[0], y=texts[1]), texts)

    def test_details_of_the_first_stay(self) -> None:
        self.assertEqual(
            told(x="M:3: x fails; its lines:\n    one", y="M:3: y fails; its lines:\n    two"),
            ["M:3: x fails; its lines; so it is with y:\n    one"],
        )

    def test_what_is_about_no_target_stays_alone(self) -> None:
        self.assertEqual(grouped(["x is odd", "y is odd"], {}), ["x is odd", "y is odd"])


@can_judge
class GroupedAnswerTest(MakeFolderTest):
    """An import."""

    def test_commands_that_are_others_after_a_build(self) -> None:
        """Each object names itself once it is there, by one pattern rule."""
        self.write(
            {
                "Makefile": "all: x.o y.o z.o\n.PHONY: all\n"
                "%.o: %.c\n\tcat $< $(if $(wildcard $@),,/dev/null) > $@\n",
                "x.c": "x\n",
                "y.c": "y\n",
                "z.c": "z\n",
            }
        )
        answer = self.imported()
        self.assertIn("Makefile:4: after a build make has other commands for x.o: ", answer.output)
        self.assertIn("; so it is with y.o and z.o\n", answer.output)
        self.assertEqual(answer.output.count("after a build make has other commands"), 1)
        self.assertIn("no answer: no recipe could be judged, of 3", answer.output)

    def test_commands_that_quote_words_otherwise(self) -> None:
        """To the shell they are one command, as where a makefile keeps settings by `echo`."""
        self.write(
            {
                "Makefile": "F = -DX=$(if $(wildcard $@),,'')\n"
                "a: s\n\tsh tool $(F) s > a\n",
                "tool": "echo $1; cat $2\n",
                "s": "s\n",
            }
        )
        answer = self.imported()
        self.assertNotIn("after a build make has other commands", answer.output)
        self.assertEqual(answer.findings, ["no stale a tool"])

    def test_files_that_make_reads(self) -> None:
        """Nothing that was tried shows whether commands depend on one of them."""
        self.write(
            {
                "Makefile": "V := $(shell cat a b c > /dev/null)\nx: s\n\tcp s x\n",
                **dict.fromkeys("abcs", "1\n"),
            }
        )
        answer = self.imported()
        self.assertEqual(answer.status, 4, answer.output + answer.errors)
        self.assertIn("    make reads a beside its makefiles, and whether", answer.output)
        self.assertIn("; so it is with b and c\n", answer.output)
        self.assertEqual(answer.output.count("beside its makefiles"), 1)
        # The questions are counted as they are told.
        self.assertIn("1 question not judged", answer.output.splitlines()[0])
        self.assertIn(" s  1 problem\n", answer.errors)

    def test_targets_with_macros_of_their_own(self) -> None:
        """Two objects, each made for the first of two programs with flags of their own."""
        self.write(
            {
                "Makefile": "all: p q\n.PHONY: all\np: F = 1\nq: F = 2\n"
                "p q: x.o y.o\n\tcat x.o y.o > $@\n"
                "%.o: %.c\n\techo $(F) | cat - $< > $@\n",
                "x.c": "x\n",
                "y.c": "y\n",
            }
        )
        answer = self.imported()
        self.assertEqual(answer.status, 4, answer.output + answer.errors)
        text = "    Makefile:8: the commands of x.o depend on the target for which it is made first"
        self.assertIn(text, answer.output)
        self.assertIn("; so it is with y.o\n", answer.output)
        self.assertEqual(answer.output.count("depend on the target for which"), 1)

    def test_a_make_in_the_folder_of_the_project(self) -> None:
        self.write(
            {
                "Makefile": "x: s | stamp\n\tcp s x\nstamp:\n"
                "\t$(MAKE) -f other.mk\n\t$(MAKE) -C a\n\ttouch stamp\n",
                "other.mk": "y: s\n\tcp s y\n",
                "a/Makefile": "y: s\n\tcp s y\n",
                "s": "1\n",
                "a/s": "1\n",
            }
        )
        answer = self.imported()
        for folder in ("in the project's folder", "in a"):
            text = f"    make {folder} is started in a first build and not in the next one, so when"
            self.assertIn(text, answer.output)
        self.assertNotIn("make in . ", answer.output)

    def test_makes_of_a_first_build_alone(self) -> None:
        """Each folder has a make that only the first build starts."""
        self.write(
            {
                "Makefile": "x: s | stamp\n\tcp s x\nstamp:\n"
                "\t$(MAKE) -C a\n\t$(MAKE) -C b\n\t$(MAKE) -C c\n\ttouch stamp\n",
                **{f"{name}/Makefile": "y: s\n\tcp s y\n" for name in "abc"},
                **{f"{name}s": "1\n" for name in ("", "a/", "b/", "c/")},
            }
        )
        answer = self.imported()
        text = "make in a is started in a first build and not in the next one, so when it runs"
        self.assertIn(text, answer.output)
        self.assertIn("; so it is with b and c\n", answer.output)
        self.assertEqual(answer.output.count("started in a first build"), 1)

    def test_files_that_clean_removes(self) -> None:
        """The recipes of many lines write what that of one line removes: one sentence."""
        names = [f"y{number}" for number in range(5)]
        self.write(
            {
                "Makefile": f"all: {' '.join(names)}\n.PHONY: all clean\n"
                + "".join(f"{name}: s | clean\n\tcp s {name}\n" for name in names)
                + "clean:\n\trm -f y?\n",
                "s": "1\n",
            }
        )
        answer = self.imported()
        self.assertEqual(answer.status, 1, answer.output + answer.errors)
        self.assertIn("no: 5 findings in 1 sentence ", answer.output)
        text = "; so it is with 4 more pairs of clean, y0, y1, y2, y3 and y4\n"
        self.assertIn(text, answer.output)
        told = json.loads((self.folder / ".mkcheck/answer.json").read_text())
        (finding,) = told["findings"]
        self.assertEqual((finding["targets"], finding["files"]), (["clean", *names], names))
