"""How often ninja builds: not at all where a recording shows what it knows after a build."""

from __future__ import annotations

import os
import shutil
import subprocess
import unittest
from pathlib import Path

from importer.ninja_folder import ENVIRONMENT, IMPORTER, NinjaFolderTest, can_judge
from mkcheck_tools.imports.copies import Copies

COMPILES = """\
rule cc
  command = cc -MMD -MF $out.d -c $in -o $out
  depfile = $out.d
  deps = gcc
rule gen
  command = echo '#define G 0' > $out
rule link
  command = cc $in -o $out
"""
SOURCES = {
    "a.c": '#include "h.h"\nint main(void) { return H; }\n',
    "b.c": '#include "gen.h"\nint b = G;\n',
    "h.h": "#define H 0\n",
}
PROGRAM = {
    **SOURCES,
    "build.ninja": COMPILES
    + """\
build gen.h: gen
build a.o: cc a.c
build b.o: cc b.c || gen.h
build prog: link a.o b.o
default prog
""",
}


class CopyTest(NinjaFolderTest):
    """The copy in which ninja was asked becomes the one that has what recipes left."""

    def test_a_copy_gets_another_word(self) -> None:
        self.write({"a": "a\n"})
        copies = Copies(str(self.folder), str(self.scratch / "copies"))
        place = copies.place("asked")
        Path(place.folder, "b").write_text("b\n")
        copies.rename("asked", "built")
        folder = Path(copies.place("built").folder)
        self.assertEqual(sorted(path.name for path in folder.iterdir()), ["a", "b"])
        self.assertEqual(copies.made, {"built"})
        copies.renew("built")
        copies.renew("asked")
        self.assertEqual(copies.made, set())
        folder = Path(copies.place("built").folder)
        self.assertEqual([path.name for path in folder.iterdir()], ["a"])


@can_judge
class CallTest(NinjaFolderTest):
    """Imports with a ninja that notes how it is called."""

    def setUp(self) -> None:
        super().setUp()
        self.calls = self.scratch / "calls"
        self.calls.mkdir()
        wrapper = self.scratch / "path" / "ninja"
        wrapper.parent.mkdir()
        ninja = shutil.which("ninja")
        wrapper.write_text(f'#!/bin/sh\necho "$*" >> "$TMPDIR/calls"\nexec {ninja} "$@"\n')
        wrapper.chmod(0o755)

    def imported(self, *words: str) -> subprocess.CompletedProcess[str]:
        """An import; recipes can write in the folder for temporary files too."""
        path = f"{self.scratch / 'path'}:{os.environ['PATH']}"
        return subprocess.run(
            ["python3", str(IMPORTER), "-C", str(self.folder), *words],
            env={**ENVIRONMENT, "PATH": path, "TMPDIR": str(self.calls)},
            capture_output=True,
            text=True,
            check=False,
        )

    def noted(self, name: str = "calls") -> list[str]:
        """The lines that were noted under a name."""
        path = self.calls / name
        return path.read_text().splitlines() if path.exists() else []

    @property
    def builds(self) -> list[str]:
        """The calls by which ninja builds: `-n` shows what it would do, and `-t` is a tool."""
        calls = [call.split() for call in self.noted()]
        return [" ".join(call) for call in calls if not {"-n", "-t", "--version"} & {*call}]


class OnceTest(CallTest):
    """Builds that ninja doesn't make, since their recording shows all."""

    def test_compilers_with_dependency_files(self) -> None:
        """Headers that `deps = gcc` names are ways, as where ninja noted them."""
        self.write(PROGRAM)
        done = self.imported()
        self.assertEqual((done.returncode, self.builds), (0, []), done.stdout + done.stderr)
        answer = self.answer()
        self.assertIn(["a.o", "h.h", "source", "a.o"], answer.ways)
        self.try_answer(answer)

    def test_a_dependency_file_that_stays(self) -> None:
        """One without `deps`."""
        text = PROGRAM["build.ninja"].replace("  deps = gcc\n", "")
        self.write({**PROGRAM, "build.ninja": text})
        done = self.imported()
        self.assertEqual((done.returncode, self.builds), (0, []), done.stdout + done.stderr)
        self.try_answer(self.answer())

    def test_a_missing_prerequisite(self) -> None:
        """A stale read is found."""
        self.write(
            {
                "build.ninja": "rule cat\n  command = cat in more > $out\nbuild out: cat in\n",
                "in": "",
                "more": "",
            }
        )
        done = self.imported()
        self.assertEqual((done.returncode, self.builds), (1, []), done.stdout + done.stderr)
        self.assertIn("out isn't made again when more changes", done.stdout)

    def test_an_output_that_is_not_written(self) -> None:
        """Its line runs in each build, so what changes the makefile is recorded by it again."""
        self.write(
            {
                "build.ninja": "rule cp\n  command = cp in a\nrule end\n  command = cp a out\n"
                "build a b: cp in\nbuild out: end a\ndefault out\n",
                "in": "",
            }
        )
        done = self.imported()
        self.assertEqual((done.returncode, self.builds), (0, []), done.stdout + done.stderr)
        self.assertIn("doesn't write its output b", done.stdout)

    def test_a_second_import_records_nothing(self) -> None:
        """What the first one recorded is taken."""
        self.write(PROGRAM)
        self.imported()
        done = self.imported()
        self.assertEqual((done.returncode, self.builds), (0, []), done.stdout + done.stderr)
        self.assertIn("0 of 4 recipes", done.stderr)


class BuiltTest(CallTest):
    """Builds that ninja makes before they are recorded."""

    def test_an_output_of_an_earlier_build(self) -> None:
        """It may help this one."""
        self.write({**PROGRAM, "gen.h": "#define G 1\n"})
        done = self.imported()
        self.assertEqual(len(self.builds), 1, done.stdout + done.stderr)

    def test_a_dependency_file_of_an_earlier_build(self) -> None:
        """Ninja would read it."""
        text = PROGRAM["build.ninja"].replace("  deps = gcc\n", "")
        self.write({**PROGRAM, "build.ninja": text, "a.o.d": "a.o: a.c\n"})
        done = self.imported()
        self.assertEqual(len(self.builds), 1, done.stdout + done.stderr)

    def test_restat(self) -> None:
        """Whether its outputs are left as they are is tried before the replay."""
        text = "rule cp\n  command = cmp -s in out || cp in out\n  restat = 1\nbuild out: cp in\n"
        self.write({"build.ninja": text, "in": ""})
        done = self.imported()
        self.assertEqual((done.returncode, len(self.builds)), (0, 1), done.stdout + done.stderr)

    def test_restat_that_the_goals_do_not_reach(self) -> None:
        """It doesn't matter."""
        more = "rule other\n  command = cp a.c $out\n  restat = 1\nbuild other: other a.c\n"
        text = PROGRAM["build.ninja"]
        self.write({**PROGRAM, "build.ninja": text.replace("default prog", f"{more}default prog")})
        done = self.imported()
        self.assertEqual((done.returncode, self.builds), (0, []), done.stdout + done.stderr)

    def test_dyndep(self) -> None:
        """What such a file says decides which lines run."""
        text = (
            "rule dd\n  command = printf 'ninja_dyndep_version = 1\\nbuild out: dyndep | x\\n' >"
            " dd\nrule cp\n  command = cp x out\nrule x\n  command = echo > x\nbuild dd: dd\n"
            "build x: x\nbuild out: cp || dd\n  dyndep = dd\n"
        )
        self.write({"build.ninja": text})
        done = self.imported()
        self.assertEqual((done.returncode, len(self.builds)), (0, 1), done.stdout + done.stderr)


class FailingTest(CallTest):
    """Builds in which a recipe fails."""

    def test_no_other_recipe_is_recorded_then(self) -> None:
        """Ninja says at once what is wrong."""
        self.write(
            {
                "build.ninja": "rule bad\n  command = echo 'bad: error: no' && exit 3\nrule good\n"
                '  command = echo good >> "$$TMPDIR/good" && echo > $out\n'
                "build all: phony a b c d\nbuild a: bad\nbuild b: good\nbuild c: good\n"
                "build d: good\ndefault all\n"
            }
        )
        done = self.imported()
        self.assertEqual(done.returncode, 2)
        self.assertIn("the build failed at the command of a, so it can't be recorded", done.stderr)
        self.assertIn("bad: error: no", done.stderr)
        # Ninja goes on with the others.
        self.assertEqual(self.noted("good"), ["good"] * 3)

    def test_no_recipe_can_be_recorded(self) -> None:
        """One sentence tells of recipes of which the same is said; no ninja would say more."""
        names = [f"out{number}" for number in range(30)]
        rule = "rule time\n  command = date +%N > $out\n"
        lines = "".join(f"build {name}: time\n" for name in names)
        self.write({"build.ninja": rule + lines})
        done = self.imported()
        self.assertEqual((done.returncode, self.builds), (2, []))
        said = done.stderr.partition("mkcheck-import: the recording failed:\n")[2].splitlines()
        self.assertLessEqual(len(said), 20)
        self.assertIn("so it is with out1, ", said[0])
        self.assertIn("and 24 more", said[0])

    def test_many_reasons(self) -> None:
        """The log has all lines."""
        lines = "".join(
            f"rule r{number}\n  command = date +{'%N' * number} > $out\n"
            f"build out{number}: r{number}\n"
            for number in range(1, 30)
        )
        self.write({"build.ninja": lines + "".join(f"build x{n}: r1\n" for n in range(3))})
        done = self.imported()
        self.assertEqual(done.returncode, 2)
        said = done.stderr.partition("mkcheck-import: the recording failed:\n")[2].splitlines()
        self.assertLessEqual(len(said), 20)
        log = (self.folder / ".mkcheck" / "import.log").read_text()
        self.assertIn("the recipe of out29, ", log)


if __name__ == "__main__":
    unittest.main()
