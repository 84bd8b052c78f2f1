"""Files that a recipe leaves read-only, over which only root may write again."""

from __future__ import annotations

import os
import subprocess
import unittest

from recorder.project import ProjectTest, traced


@traced
@unittest.skipUnless(os.geteuid() == 0, "not root")
class ReadOnlyTest(ProjectTest):
    """Recorded by root. For other users the replay over outputs fails."""

    def warned(self, command: str) -> list[str]:
        """The warnings on a recipe that makes `x` of `c`, which is read-only."""
        self.write({"makefile": f"x: c\n\t{command}\n", "c": "1\n"})
        (self.folder / "c").chmod(0o444)
        return self.recorded().warnings()

    def test_it_is_opened_to_be_written(self) -> None:
        for command in ("cp c x", "cat c > x; chmod 444 x"):
            with self.subTest(command):
                text = "the recipe of x leaves x read-only, and opens it to write it"
                self.assertIn(text, "\n".join(self.warned(command)))

    def test_it_is_made_anew(self) -> None:
        for command in (
            "rm -f x; cp c x",
            "cp -f c x",
            "install -m 444 c x",
            "cp c x.new; mv -f x.new x",
            "cat c > x",
        ):
            with self.subTest(command):
                self.assertEqual(self.warned(command), [])

    def test_another_user_may_not_do_it_twice(self) -> None:
        """What the doubt says is so."""
        self.folder.chmod(0o777)
        self.scratch.chmod(0o755)
        self.write({"c": "1\n"})
        (self.folder / "c").chmod(0o444)
        command = "cp c x && cp c x"
        words = ["setpriv", "--reuid=65534", "--regid=65534", "--clear-groups", "sh", "-c", command]
        done = subprocess.run(words, cwd=self.folder, capture_output=True, check=False)
        self.assertNotEqual(done.returncode, 0)
        self.assertTrue((self.folder / "x").exists())
