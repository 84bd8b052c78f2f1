"""An update in a folder that was built before, with files that nothing makes any more: a clean
build has none of them."""

from __future__ import annotations

import shutil
import subprocess
import unittest
from pathlib import Path

from recorder.project import MKCHECK, ProjectTest, traced

OBJECTS = "all: b\nb: x.o y.o\n\tcat *.o > b\nx.o: x\n\tcp x x.o\ny.o: x\n\tcp x y.o\n"
WITHOUT = "recorded without {}, as a clean build begins"


@traced
@unittest.skipUnless(shutil.which("git"), "no git")
class LeftFilesTest(ProjectTest):
    """A project of git, what was built and recorded of it, and another makefile."""

    def built(self, files: dict[str, str], *ignored: str) -> None:
        """Writes a project, makes it as its recipes do, and records it. Git tracks all files but
        those that are ignored."""
        self.write({**files, ".gitignore": "".join(f"{name}\n" for name in ignored)})
        self.git("init", "-q")
        self.git("add", ".")
        words = ["make", "-s", "-f", str(self.folder / "makefile")]
        subprocess.run(words, cwd=self.folder, check=True, capture_output=True)
        outcome = self.record_plainly("--update", str(self.book), "--keep", str(self.kept))
        self.assertEqual(outcome.status, 0, outcome.errors)

    @property
    def kept(self) -> Path:
        """The folder with what the build is made from."""
        return self.scratch / "built"

    def git(self, *words: str) -> None:
        """Runs git in the project."""
        subprocess.run(["git", *words], cwd=self.folder, check=True, capture_output=True)

    def update(self, makefile: str, status: int = 0) -> str:
        """What an update says with another makefile."""
        self.write({"makefile": makefile})
        outcome = self.record_plainly("--update", str(self.book))
        self.assertEqual(outcome.status, status, outcome.errors)
        return outcome.errors

    def answers(self) -> tuple[str, str]:
        """The first word of the answer, and what `mkcheck since` names."""
        book = ["-b", str(self.book)]
        checked, since = (
            subprocess.run(
                [MKCHECK, *words, *book],
                cwd=self.folder,
                capture_output=True,
                text=True,
                check=False,
            ).stdout
            for words in (["check"], ["since", str(self.kept)])
        )
        return checked.split(" ")[0], since

    def test_a_file_that_a_pattern_would_find(self) -> None:
        self.built({"makefile": OBJECTS, "x": "x\n"}, "*.o", "b")
        makefile = "all: b\nb: x.o\n\tcat *.o > b\nx.o: x\n\tcp x x.o\n"
        for text in ("x\n", "again\n"):
            self.write({"x": text})
            self.assertIn(WITHOUT.format("y.o"), self.update(makefile))
            self.assertEqual(self.answers(), ("yes", "b\ny.o\n"))
        (self.folder / "y.o").unlink()
        self.assertNotIn("recorded without", self.update(makefile))

    def test_a_folder_that_is_a_file_now(self) -> None:
        self.built(
            {"makefile": "all: o/a\no/a: x\n\tmkdir -p o; cp x o/a\n", "x": "x\n"}, "o"
        )
        said = self.update("all: o\no: x\n\tcp x o\n")
        self.assertIn(WITHOUT.format("o/a"), said)
        self.assertIn("makes the file o now, and a folder is there: remove it", said)
        self.assertEqual(self.answers(), ("yes", "o/a\n"))

    def test_a_file_that_is_still_needed(self) -> None:
        """A clean build would fail, so nothing is recorded."""
        self.built({"makefile": OBJECTS, "x": "x\n"}, "*.o", "b")
        said = self.update("all: b\nb: x.o y.o\n\tcat *.o > b\nx.o: x\n\tcp x x.o\n", 2)
        self.assertIn("nothing makes y.o any more, and git doesn't track it", said)

    def test_a_file_that_is_a_source_now(self) -> None:
        self.built({"makefile": OBJECTS, "x": "x\n"}, "b")
        self.git("add", "-f", "y.o")
        said = self.update("all: b\nb: x.o y.o\n\tcat *.o > b\nx.o: x\n\tcp x x.o\n")
        self.assertNotIn("recorded without", said)
        self.assertEqual(self.answers(), ("yes", ""))

    def test_a_file_with_a_rule_that_no_goal_needs(self) -> None:
        self.built({"makefile": OBJECTS, "x": "x\n"}, "*.o", "b")
        rules = "x.o: x\n\tcp x x.o\ny.o: x x\n\tcp x y.o\n"
        said = self.update(f"all: b\nb: x.o\n\tcat *.o > b\n{rules}")
        self.assertNotIn("recorded without", said)

    def test_a_file_that_is_another_one(self) -> None:
        """It isn't what the recipe left, so somebody else made it."""
        self.built({"makefile": OBJECTS, "x": "x\n"}, "*.o", "b")
        self.write({"y.o": "mine\n"})
        said = self.update("all: b\nb: x.o y.o\n\tcat *.o > b\nx.o: x\n\tcp x x.o\n")
        self.assertNotIn("recorded without", said)

    def test_a_second_file_of_a_recipe_with_other_commands(self) -> None:
        """It has a rule without commands, which says what it is made from."""
        rules = "all: b c\nb: x\n\tcp x b; cp x c\nc: b ;\n"
        self.built({"makefile": rules, "x": "x\n"}, "b", "c")
        said = self.update(rules.replace("cp x c", "cat x x > c"))
        self.assertNotIn("recorded without", said)
        self.assertEqual(self.answers(), ("yes", "b\nc\n"))

    def test_a_makefile_that_git_does_not_track(self) -> None:
        """A program wrote it, perhaps for other goals."""
        self.built({"makefile": OBJECTS, "x": "x\n"}, "*.o", "b", "makefile")
        said = self.update("all: b\nb: x.o\n\tcat *.o > b\nx.o: x\n\tcp x x.o\n")
        self.assertNotIn("recorded without", said)

    def test_a_second_file_of_a_recipe_that_stays(self) -> None:
        rules = "b: x\n\tcp x b; cp x c\nd: x\n\tcp x d\n"
        self.built({"makefile": f"all: b d\n{rules}", "x": "x\n"}, "b", "c", "d")
        self.assertNotIn("recorded without", self.update(f"all: b\n{rules}"))
