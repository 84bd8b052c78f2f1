"""Locks that recipes take by flock: these put no recipe first, and the locked file is a file."""

from __future__ import annotations

import shutil
import unittest

from mkcheck_tools.run import places
from recorder.project import ProjectTest, traced

MAKEFILE = "all: a b\na: x\n\t@LOCK@ cp x a@END@\nb: y\n\t@LOCK@ cp y b@END@\n"
CURE = "lock a folder in place of the file (flock . COMMAND, or exec 9<. and flock 9)"
SHARED = (
    "the recipes of a, b lock L, which counts as a file that they write: where it is there for the"
    f" lock alone, {CURE}; a lock puts no recipe first, so check answers as if there were none"
)
OWN = (
    "mkcheck-record: the recipe of a, run where its own outputs are already there, doesn't write L"
    " anew: it locks that file, and makes it only where there is none. L"
    f"{CURE[1:]}, or give --trust a to take the recipe as it is"
)


@traced
@unittest.skipUnless(shutil.which("flock"), "no flock")
class LockTest(ProjectTest):
    """Two recipes that take one lock."""

    def lock(self, front: str, end: str = "", rules: str = MAKEFILE) -> None:
        """Writes the project, whose commands begin and end so."""
        makefile = rules.replace("@LOCK@", front).replace("@END@", end)
        self.write({"makefile": makefile, "x": "", "y": ""})

    def test_a_file_that_recipes_empty(self) -> None:
        """Which of the two ran last is no matter here, but it is a file that both write."""
        self.lock("exec 9>L; flock 9;")
        self.assertEqual(self.recorded().warnings(), [SHARED])
        self.assertEqual(self.check()[0], "no writers a b L")

    def test_a_file_that_only_the_first_recipe_makes(self) -> None:
        self.lock("flock L sh -c '", "'")
        outcome = self.recorded()
        self.assertEqual(outcome.warnings(), [SHARED])
        self.assertEqual((outcome.own("a")[1], outcome.own("b")[0]), ({"L", "a"}, {"L", "y"}))

    def test_a_folder(self) -> None:
        """It is no file, so there is nothing that both write."""
        for front, end in (("flock . sh -c '", "'"), ("exec 9<.; flock 9;", "")):
            self.lock(front, end)
            self.assertEqual(self.recorded().warnings(), [])
            self.assertEqual(self.check()[0].split()[:3], ["yes", "2", "recipes"])

    def test_a_file_that_a_rule_makes(self) -> None:
        """The recipes only read it."""
        rules = MAKEFILE.replace("a: x", "a: x L").replace("b: y", "b: y L") + "L:\n\t> L\n"
        self.lock("flock L sh -c '", "'", rules)
        self.assertEqual(self.recorded().warnings(), [])
        self.assertEqual(self.check()[0].split()[:3], ["yes", "3", "recipes"])

    def test_a_file_of_one_recipe(self) -> None:
        self.lock("exec 9>L; flock 9;", rules="all: a\na: x\n\t@LOCK@ cp x a\n")
        self.assertEqual(self.recorded().warnings(), [])
        self.assertEqual(self.check()[0].split()[:3], ["yes", "1", "recipes"])

    def test_a_file_outside_of_the_folder(self) -> None:
        path = self.scratch / "L"
        for front in (f"flock {path} sh -c '", f"exec 9> {path}; flock 9; eval '"):
            self.lock(front, "'")
            # The scratch folder of the tests stands in for /tmp.
            outcome = self.record(environment={"TMPDIR": str(self.scratch)})
            self.assertTrue(outcome.lacks("a", "b"), outcome)
            for name in "ab":
                self.assertIn(
                    f"mkcheck-record: the recipe of {name} locks files outside the folder, which no"
                    f" footprint can name: {CURE}\n\t{name} locks {path}\n",
                    outcome.errors,
                )

    def test_a_lock_for_which_a_recipe_does_not_wait(self) -> None:
        told = (
            "the recipe of a locks . and doesn't wait, or not for long, till it may (flock -n,"
            " flock -w), and that of b locks it too: with several jobs a may fail or be made"
            " otherwise; let it wait for the lock"
        )
        for word in ("-n", "-w 9"):
            self.lock(f"flock {word} . sh -c '", "' || :")
            self.assertEqual(self.recorded().warnings(), [told])
        # One of them needs the other, or only one doesn't wait.
        self.lock("flock -n . sh -c '", "' || :", MAKEFILE.replace("b: y", "b: y a"))
        self.assertEqual(self.recorded().warnings(), [])
        self.lock("flock . sh -c '", "'", MAKEFILE.replace("@LOCK@", "flock -n . sh -c '", 1))
        self.assertEqual(self.recorded().warnings(), [told])

    def test_an_update_still_knows_them(self) -> None:
        self.lock("exec 9>L; flock 9;")
        updated = str(self.scratch / "updated.json")
        for count in ("2 of 2", "0 of 2"):
            outcome = self.record_plainly("--update", updated)
            self.assertIn(f"{count} recipes were recorded", outcome.errors)
            self.assertEqual(outcome.warnings(), [SHARED])


@traced
@unittest.skipUnless(shutil.which("flock"), "no flock")
@unittest.skipUnless(places.namespace(), "no mount namespace is allowed")
class ReplayedLockTest(ProjectTest):
    """A lock file that is there already isn't written again."""

    replays = True

    def test_the_error_names_the_lock(self) -> None:
        for front, end in (("flock L sh -c '", "'"), ("exec 9>>L; flock 9;", "")):
            text = f"a: x\n\t{front} cp x a{end}\n"
            self.write({"makefile": text, "x": ""})
            outcome = self.record()
            self.assertEqual((outcome.status, outcome.book), (1, None))
            self.assertEqual(outcome.errors.splitlines()[0], OWN)
        self.write({"makefile": "a: x\n\tflock . cp x a\n"})
        self.assertEqual(self.recorded().errors, "")


if __name__ == "__main__":
    unittest.main()
