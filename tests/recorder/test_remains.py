"""Files that a recipe may have left before an edit by which it now writes fewer, and that another
recipe uses. GNU make shows where that gives another result than a clean build."""

from __future__ import annotations

import os
import shutil
import subprocess
import unittest

from mkcheck_tools.replay.remains import after, counted
from mkcheck_tools.run.paths import Name
from recorder.project import OF_MAKE, compiled, traced
from recorder.test_surroundings import SurroundingsTest, namespaces
from waits import wait_for_later_stamps

# A recipe that makes a file for each line of `a`, and then `st`.
PIECES = "st: a\n\t{before}split -l 1 {options}a {front}; touch st\n"
USER = "out: st\n\t{command}\n"
LINES = {"a": "1\n2\n3\n"}


class RemainsTest(SurroundingsTest):
    """A project of two recipes, of which the first one writes fewer files after an edit."""

    def built(self) -> str:
        """What GNU make leaves in `out`, over what is there."""
        if shutil.which("make") is None:
            self.skipTest("no make")
        given = {key: value for key, value in os.environ.items() if key not in OF_MAKE}
        subprocess.run(
            ["make", "-s", "out"], cwd=self.folder, env=given, check=True, capture_output=True
        )
        return (self.folder / "out").read_text()

    def after_an_edit(self) -> tuple[str, str]:
        """What `out` holds where `a` gets shorter after a build, and in a clean build of that."""
        sources = {path.name for path in self.folder.iterdir()}
        self.built()
        wait_for_later_stamps(self.folder)
        self.write({"a": "1\n2\n"})
        found = self.built()
        for path in self.folder.iterdir():
            if path.name not in sources:
                path.unlink() if path.is_file() else shutil.rmtree(path)
        return found, self.built()

    def pieces(
        self, command: str, before: str = "", options: str = "", front: str = "x"
    ) -> None:
        """Writes a project that splits `a`, and makes `out` from the pieces."""
        maker = PIECES.format(before=before, options=options, front=front)
        self.write({"makefile": USER.format(command=command) + maker, **LINES})

    def left(self, *told: str) -> None:
        """The recipe of `out` has a doubt for what that of `st` may have left, and GNU make shows
        why."""
        warnings = self.recorded().warnings()
        self.assertEqual(len(warnings), 1, warnings)
        for text in ("the recipe of out uses files like ", "that of st may have left", *told):
            self.assertIn(text, warnings[0])
        found, clean = self.after_an_edit()
        self.assertNotEqual(found, clean)

    def nothing_left(self) -> None:
        """It has none, and an incremental build of GNU make gives what a clean one does."""
        self.assertEqual(self.recorded().warnings(), [])
        found, clean = self.after_an_edit()
        self.assertEqual(found, clean)


@traced
@namespaces
class DoubtTest(RemainsTest):
    """Old files count."""

    def test_a_pattern(self) -> None:
        self.pieces("cat x* > out")
        self.left(
            "uses files like xaa, xab, xac, of which",
            "let the recipe of st first remove them all by a pattern (rm -f xa*)",
        )

    def test_a_pattern_of_a_fixed_length(self) -> None:
        self.pieces("cat part.?? > out", front="part.")
        self.left("(rm -f part.a*)")

    def test_names_that_are_counted(self) -> None:
        command = "i=0; while test -f p.$$i; do cat p.$$i; i=$$((i + 1)); done > out"
        self.pieces(command, options="-d -a 1 ", front="p.")
        self.left("p.0, p.1, p.2")

    def test_a_folder(self) -> None:
        copied = "rm -rf e; cp -r d e; ls e > out"
        for command in ("ls d > out", "find d -type f | sort > out", copied):
            self.pieces(command, before="mkdir -p d; ", front="d/x")
            self.left("(rm -f d/xa*)")
            shutil.rmtree(self.folder)
            self.folder.mkdir()

    def test_two_recipes_of_which_one_takes_old_files_away(self) -> None:
        """It is the other one that is named."""
        maker = PIECES.format(before="", options="", front="x")
        second = "su: a\n\trm -f y*; split -l 1 a y; touch su\n"
        self.write({"makefile": f"out: st su\n\tcat x* y* > out\n{maker}{second}", **LINES})
        self.left("like xaa, xab, xac, of which that of st may")

    def test_an_update(self) -> None:
        """The doubt goes and comes with the command that takes old files away, though the recipe
        that uses them is kept."""
        texts: list[list[str]] = []
        for before in ("", "rm -f x*; ", "", ""):
            self.pieces("cat x* > out", before=before)
            outcome = self.record_plainly("--update", str(self.book))
            self.assertEqual(outcome.status, 0, outcome.errors)
            texts.append([text for text in outcome.warnings() if "may have left" in text])
        self.assertEqual([len(one) for one in texts], [1, 0, 1, 1], texts)


@traced
@namespaces
class NoDoubtTest(RemainsTest):
    """Nothing old counts."""

    def test_old_files_are_taken_away_first(self) -> None:
        self.pieces("cat x* > out", before="rm -f x*; ")
        self.nothing_left()

    def test_those_of_a_fixed_length(self) -> None:
        self.pieces("cat x* > out", before="rm -f x??; ")
        self.nothing_left()

    def test_the_whole_folder(self) -> None:
        self.pieces("cat d/* > out", before="rm -rf d; mkdir d; ", front="d/x")
        self.nothing_left()
        self.pieces("cat d/* > out", before="rm -rf e d; mkdir e; ", front="e/x")
        path = self.folder / "makefile"
        path.write_text(path.read_text().replace("; touch st", "; mv e d; touch st"))
        self.nothing_left()

    def test_files_that_the_user_names(self) -> None:
        self.pieces("cat xaa xab > out")
        self.nothing_left()

    def test_files_that_are_listed_and_not_used(self) -> None:
        self.pieces("cat xaa *.in > out")
        self.write({"b.in": "1\n"})
        self.nothing_left()

    def test_files_that_the_makefile_names(self) -> None:
        """Where they are written is decided by the makefile alone: by their rules, or by a command
        that names them."""
        makefile = "out: b.o c.o st\n\tcat *.o > out\nb.o: a\n\tcp a b.o\nc.o: a\n\tcp a c.o\n"
        self.write({"makefile": f"{makefile}st: a\n\tcp a d.o; touch st\n", **LINES})
        self.nothing_left()
        makefile = "out: b.o c.o\n\tcat *.o > out\nb.o: a\n\tcat a | tee b.o > $*.o; cp a c.o\n"
        self.write({"makefile": f"{makefile}c.o: b.o ;\n", **LINES})
        self.nothing_left()

    def test_a_recipe_that_no_make_makes_again(self) -> None:
        maker = "st:\n\tfor i in 1 2 3; do echo $$i > x$$i; done; touch st\n"
        self.write({"makefile": f"out: st a\n\tcat x* a > out\n{maker}", **LINES})
        self.nothing_left()

    @compiled
    def test_objects(self) -> None:
        """Those of an ordinary build: some are named, some are found by a pattern, and one recipe
        writes a header and a source."""
        self.write(
            {
                "makefile": (
                    "out: libx.a main.o\n\tcc -o prog main.o libx.a; ./prog > out\n"
                    "libx.a: b.o c.o d.o\n\trm -f libx.a; ar rcD libx.a [b-d].o\n"
                    "main.o: main.c gen.h\n\tcc -I. -c main.c\n"
                    "b.o: b.c gen.h\n\tcc -I. -c b.c\nc.o: c.c gen.h\n\tcc -I. -c c.c\n"
                    "d.o: gen.h\n\tcc -I. -c d.c\n"
                    'gen.h: a\n\techo "int d(void);" > gen.h;'
                    ' (echo "int d(void) { return"; wc -l < a; echo "; }") > d.c\n'
                ),
                "b.c": '#include "gen.h"\nint b(void) { return d(); }\n',
                "c.c": '#include "gen.h"\nint c(void) { return 2 * d(); }\n',
                "main.c": (
                    '#include <stdio.h>\n#include "gen.h"\nint b(void), c(void);\n'
                    'int main(void) { printf("%d\\n", b() + c()); return 0; }\n'
                ),
                **LINES,
            }
        )
        self.nothing_left()


class NameTest(unittest.TestCase):
    """The next name after one."""

    def test_what_counts_in_a_name(self) -> None:
        for name, found in (
            ("xaa", ("", "xaa", "")),
            ("d/part.01", ("d/part.", "01", "")),
            ("part.aa", ("part.", "aa", "")),
            ("page-3.png", ("page-", "3", ".png")),
            ("Foo.class", ("F", "oo", ".class")),
            ("_", ("_", "", "")),
        ):
            self.assertEqual(counted(Name(name)), found)

    def test_what_comes_next(self) -> None:
        for run, found in (("09", "10"), ("9", "10"), ("az", "ba"), ("zz", ""), ("Q", "R")):
            self.assertEqual(after(run), found)


if __name__ == "__main__":
    unittest.main()
