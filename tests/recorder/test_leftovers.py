"""Files that an earlier build may have left, and the state of git."""

from __future__ import annotations

import os
import shutil
import subprocess
import unittest

from recorder.project import ProjectTest, traced

MAKEFILE = (
    "list: stamp\n\tcat data/*.txt data/h x.h > list\n"
    "stamp: names\n\tmkdir -p data; while read n; do echo $$n > data/$$n.txt; done < names;"
    " touch stamp\n"
)
FILES = {"makefile": MAKEFILE, "names": "one\n", "data/two.txt": "", "data/h": "", "x.h": ""}
END = "and the recipe of list reads it: if an earlier build left it, remove it and record"
with_git = unittest.skipUnless(shutil.which("git"), "no git")


@traced
class LeftOverTest(ProjectTest):
    """Files in a folder in which recipes write."""

    def setUp(self) -> None:
        super().setUp()
        self.write(FILES)
        self.age("makefile", 1000)

    def age(self, name: str, stamp: int) -> None:
        """Gives a file a stamp."""
        os.utime(self.folder / name, (stamp, stamp))

    def git(self, *words: str) -> None:
        """Runs git in the folder."""
        subprocess.run(["git", *words], cwd=self.folder, check=True, capture_output=True)

    def test_without_git(self) -> None:
        said = f"data/two.txt is no target, but a file where recipes write, {END} again"
        self.assertEqual(self.recorded().warnings(), [said])
        self.age("data/two.txt", 999)
        self.assertEqual(self.recorded().warnings(), [])

    @with_git
    def test_with_git(self) -> None:
        where = "but a file that git doesn't track where recipes write"
        self.age("data/two.txt", 999)
        self.git("init", "-q")
        self.git("add", "makefile", "names", "data/h")
        said = f"data/two.txt is no target, {where}, {END} again"
        self.assertEqual(self.recorded().warnings(), [said])
        self.git("add", "data/two.txt")
        self.assertEqual(self.recorded().warnings(), [])

    @with_git
    def test_dependency_files_that_no_recipe_makes(self) -> None:
        """A copy without them lacks their prerequisites."""
        rules = "b: a\n\tcat a h > b\ndepend:\n\techo b: h > .depend\n-include .depend\n"
        self.write({"makefile": rules, "a": "", "h": "", ".depend": "# None.\n"})
        self.assertEqual(self.recorded().warnings(), [])
        self.write({".depend": "# All.\nb: \\\n h\n"})
        (said,) = self.recorded().warnings()
        self.assertIn("the makefile includes .depend where it is there, and no recipe of", said)
        self.git("init", "-q")
        self.git("add", "makefile", "a", "h")
        self.assertEqual(self.recorded().warnings(), [said])
        self.git("add", ".depend")
        self.assertEqual(self.recorded().warnings(), [])
        self.write({"makefile": rules.replace("-include .d", "include .d"), "deps": "b: h\n"})
        self.git("rm", "-q", "--cached", ".depend")
        self.assertEqual(self.recorded().warnings(), [])

    def test_a_file_that_a_rule_names(self) -> None:
        self.write({"makefile": MAKEFILE.replace("list: ", "list: data/two.txt ")})
        self.age("makefile", 1000)
        self.assertEqual(self.recorded().warnings(), [])

    @with_git
    def test_the_state_of_git(self) -> None:
        self.git("init", "-q")
        self.write({"makefile": "v:\n\tcat .git/HEAD > v\n"})
        said = (
            "the recipe of v reads git's state (.git/HEAD), which each commit changes, and for"
            " which no line of a makefile can stand: write the version to a file outside of make,"
            " and let the recipe read that; --fixed .git takes the state for one that never changes"
        )
        self.assertEqual(self.recorded().warnings(), [said])
        self.assertEqual(self.recorded("--fixed", ".git").warnings(), [])


if __name__ == "__main__":
    unittest.main()
