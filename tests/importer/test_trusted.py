"""Recipes of which the recorder is told how far it may trust them, and what it runs of these."""

from __future__ import annotations

import json
import subprocess
import sys
import unittest

from importer.make_folder import MakeFolderTest, can_judge
from importer.ninja_folder import ENVIRONMENT, IMPORTER, NinjaFolderTest
from importer.ninja_folder import can_judge as can_judge_ninja
from waits import wait_for_later_stamps

# A line of a makefile for a tool that runs a recipe which failed again, whatever it left.
AGAIN = "# Recipes that failed run again, whatever they left.\n"


@can_judge
class MakeTest(MakeFolderTest):
    """Builds of GNU make."""

    def trusted(self) -> list[str]:
        """The words by which the recorder was asked to trust recipes."""
        path = self.folder / ".mkcheck/kept/recording.json.state"
        found: list[str] = json.loads(path.read_text())["state"]["choice"]["trusted"]
        return found

    def test_a_target_that_make_removes_where_its_recipe_fails(self) -> None:
        rule = "x: s\n\tcp s x\n"
        self.write({"Makefile": rule, "s": "1\n"})
        self.assertNotIn(AGAIN, self.imported().makefile)
        self.write({"Makefile": rule + ".DELETE_ON_ERROR:\n"})
        self.assertIn(AGAIN, self.imported().makefile)

    def test_each_make_has_to_remove_it(self) -> None:
        self.write(
            {
                "Makefile": "all:\n\t$(MAKE) -C sub\n.PHONY: all\n.DELETE_ON_ERROR:\n",
                "sub/Makefile": "x: s\n\tcp s x\n",
                "sub/s": "1\n",
            }
        )
        self.assertNotIn(AGAIN, self.imported().makefile)

    def test_a_recipe_that_writes_only_what_changes(self) -> None:
        """It was tried over its output, so it is run again without that alone."""
        self.write(
            {
                "Makefile": "x: s flags\n\tcat s flags > x\nFORCE:\n"
                "flags: f FORCE\n\t@cmp -s f $@ || cp f $@\n",
                "s": "1\n",
                "f": "1\n",
            }
        )
        answer = self.imported(replay=True)
        self.assertEqual(answer.status, 0, answer.output + answer.errors)
        self.assertEqual(self.trusted(), ["alike:flags"])
        self.assertNotIn("trusted", answer.output)
        self.write({"s": "2\n"})
        self.assertIn(" 1 of 2 recipes", self.imported(replay=True, keep=True).errors)

    def test_what_is_trusted_is_recorded_once(self) -> None:
        self.write({"Makefile": "x: s\n\tcat s > x; date +%N >> x\n", "s": "1\n"})
        doubt = "trusted, and not shown to be right: the recipe of x"
        for count, keep in (("1 of 1", False), ("0 of 1", True)):
            answer = self.imported("--trust", "x", replay=True, keep=keep)
            self.assertIn(f"  {count} recipes", answer.errors)
            self.assertIn(doubt, answer.output)
        self.assertEqual(self.trusted(), ["kept:x"])
        self.write({"s": "2\n"})
        answer = self.imported("--trust", "x", replay=True, keep=True)
        self.assertNotIn("translated anew", answer.errors)
        self.assertIn("  1 of 1 recipes", answer.errors)
        self.assertIn(doubt, answer.output)


@can_judge_ninja
class NinjaTest(NinjaFolderTest):
    """Builds of ninja."""

    def test_ninja_runs_a_command_that_failed_again(self) -> None:
        """Though it left a file that is newer than what it is made from."""
        rule = "rule cp\n  command = cp s x && test ! -e fail\nbuild x: cp s\n"
        self.write({"build.ninja": rule, "s": "1\n"})
        copy = self.copied("failed")
        runs: list[tuple[dict[str, str], int]] = [({}, 0), ({"s": "2\n", "fail": ""}, 1), ({}, 0)]
        for files, status in runs:
            (copy / "fail").unlink(missing_ok=True)
            wait_for_later_stamps(copy)
            for name, text in files.items():
                (copy / name).write_text(text)
            done = self.ninja(folder=copy)
            self.assertEqual(done.returncode, status, done.stdout)
            self.assertIn("[1/1]", done.stdout)
        self.assertIn("no work to do", self.ninja(folder=copy).stdout)
        words = ["-C", str(self.folder), "--only", "translate"]
        subprocess.run([sys.executable, str(IMPORTER), *words], env=ENVIRONMENT, check=False)
        self.assertIn(AGAIN, (self.folder / ".mkcheck/makefile").read_text())


if __name__ == "__main__":
    unittest.main()
