"""The scripts of docs/CI.md, run on small projects."""

from __future__ import annotations

import os
import re
import shutil
import subprocess
import unittest
from collections.abc import Sequence
from pathlib import Path

from report.project import MKCHECK, ROOT, ReportTest
from waits import wait_for_later_stamps

PAGE = ROOT / "docs" / "CI.md"
SCRIPT = re.compile(r"^```sh\n(.*?)^```$", re.MULTILINE | re.DOTALL)
MAKEFILE = "all.txt: a.txt\n\tcat a.txt b.txt > all.txt\na.txt: a.in\n\tcp a.in a.txt\n"


def traces() -> bool:
    """Whether strace is there, and may trace."""
    strace = shutil.which("strace")
    if strace is None:
        return False
    done = subprocess.run([strace, "-o", os.devnull, "true"], capture_output=True, check=False)
    return done.returncode == 0


@unittest.skipUnless(traces(), "no strace that may trace")
@unittest.skipUnless(shutil.which("git"), "no git")
class ScriptTest(ReportTest):
    """A project of git, the tools on its PATH, and the scripts of the page."""

    def setUp(self) -> None:
        super().setUp()
        tools = self.folder / "tools"
        tools.mkdir()
        (tools / "mkcheck").symlink_to(MKCHECK)
        for name in ("mkcheck-record", "mkcheck-report"):
            (tools / name).symlink_to(ROOT / "bin" / name)
        self.tools, self.folder = tools, self.folder / "project"
        self.folder.mkdir()
        judges, keeps = SCRIPT.findall(PAGE.read_text(encoding="utf-8"))
        self.write("mkcheck-ci.sh", judges)
        self.write("mkcheck-kept.sh", keeps)
        self.write("makefile", MAKEFILE)
        self.write("a.in", "a\n")
        self.write("b.txt", "b\n")
        self.write(".gitignore", ".mkcheck-ci/\nreport.html\nmkcheck.sarif\n")
        self.command("git", "init", "-q")
        self.command("git", "add", ".")

    def write(self, name: str, text: str) -> Path:
        """Writes a file, which gets a later stamp than all that make has made."""
        wait_for_later_stamps(self.folder)
        return super().write(name, text)

    def command(self, *words: str, **more: str) -> subprocess.CompletedProcess[str]:
        """Runs a command in the project, with the tools on the PATH. `more` has variables of the
        environment."""
        environment = {
            **os.environ,
            "MKCHECK": MKCHECK,
            "PATH": os.pathsep.join([str(self.tools), os.environ["PATH"]]),
            **more,
        }
        return subprocess.run(
            words, cwd=self.folder, env=environment, capture_output=True, text=True, check=False
        )


class JudgingTest(ScriptTest):
    """A project whose makefile forgets b.txt."""

    def run_script(self, status: int) -> str:
        """What the script prints; it has to end with this status and leave both reports."""
        for name in ("report.html", "mkcheck.sarif"):
            (self.folder / name).unlink(missing_ok=True)
        done = self.command("sh", "mkcheck-ci.sh")
        self.assertEqual(done.returncode, status, done.stdout + done.stderr)
        self.assertTrue((self.folder / "report.html").is_file(), done.stderr)
        self.assertTrue((self.folder / "mkcheck.sarif").is_file(), done.stderr)
        return done.stdout

    def test_no_yes_verified(self) -> None:
        """A no at its line; after the repair a yes; then the certificate, without a recording."""
        self.assertRegex(self.run_script(1), r"^makefile:1: .*b\.txt")
        self.assertFalse((self.folder / ".mkcheck-ci" / "certificate.json").exists())
        self.write("makefile", MAKEFILE.replace("all.txt: a.txt", "all.txt: a.txt b.txt"))
        self.assertRegex(self.run_script(0), r"^yes 2 recipes \d+ reads\n$")
        self.assertTrue((self.folder / ".mkcheck-ci" / "certificate.json").is_file())
        (self.tools / "mkcheck-record").unlink()
        (self.tools / "mkcheck-record").symlink_to("/bin/false")
        self.assertRegex(self.run_script(0), r"^yes 2 recipes \d+ reads\n$")

    def test_a_macro_that_is_not_given_any_more(self) -> None:
        """A program takes it from its environment, and reads another file without it."""
        self.write("makefile", "a.txt: gen.sh in.one\n\tsh gen.sh > a.txt\n")
        for name, text in {"gen.sh": "cat in.$MODE\n", "in.one": "1\n", "in.": "0\n"}.items():
            self.write(name, text)
        self.command("git", "add", ".")
        done = self.command("sh", "mkcheck-ci.sh", "MODE=one")
        self.assertEqual(done.returncode, 0, done.stdout + done.stderr)
        self.assertRegex(self.run_script(1), r"^makefile:1: .*reads in\.,")

    def test_failed_recording(self) -> None:
        """A recipe that fails ends the job with status 2 and its output."""
        self.write("makefile", "a.txt: a.in\n\techo broken; false\n")
        done = self.command("sh", "mkcheck-ci.sh")
        self.assertEqual(done.returncode, 2, done.stdout)
        self.assertIn("broken", done.stderr)


class KeepingTest(ScriptTest):
    """A folder that is kept over commits."""

    tracked: tuple[str, ...] = ()
    """What git tracks beside the makefile and the scripts."""

    def made(self, status: int = 0, words: Sequence[str] = (), **more: str) -> str:
        """What the script prints. The makefile is tracked, and later files aren't."""
        self.command("git", "add", "makefile")
        done = self.command("sh", "mkcheck-kept.sh", *words, **more)
        self.assertEqual(done.returncode, status, done.stdout + done.stderr)
        return done.stdout

    def assert_made_as_clean(self, *words: str, **more: str) -> None:
        """Runs the script, after which each file is as a build from nothing leaves it."""
        self.made(0, words, **more)
        clean = self.folder.with_name("clean")
        shutil.rmtree(clean, ignore_errors=True)
        self.command("git", "add", "-A", "--", "*.mk", *self.tracked)
        self.command("git", "checkout-index", "-a", f"--prefix={clean}/")
        done = self.command("make", "-s", "-C", str(clean), *words, **more)
        self.assertEqual(done.returncode, 0, done.stderr)
        for path in clean.iterdir():
            if path.is_file():
                self.assertEqual(self.text(path.name), path.read_text(), path.name)

    def text(self, name: str) -> str:
        """The text of a file."""
        return (self.folder / name).read_text()

    def test_other_commands(self) -> None:
        """What other commands made is removed, and made again."""
        self.write("makefile", "a.txt: a.in b.txt\n\tcat a.in b.txt > a.txt\n")
        self.write("old.o", "of another build")
        self.made()
        self.assertEqual(self.text("a.txt"), "a\nb\n")
        self.assertFalse((self.folder / "old.o").exists())
        self.write("mine", "not tracked")
        self.write("makefile", "a.txt: a.in b.txt\n\tcat b.txt a.in > a.txt\n")
        self.assertIn("cat b.txt a.in > a.txt", self.made())
        self.assertEqual(self.text("a.txt"), "b\na\n")
        self.assertEqual(self.text("mine"), "not tracked")
        self.assertNotIn("cat", self.made())

    def test_another_macro_of_the_command_line(self) -> None:
        """A program takes it from its environment, and the commands are the same."""
        self.write("gen.sh", "#!/bin/sh\necho $MODE > a.txt\n")
        self.write("makefile", "a.txt: gen.sh\n\tsh gen.sh\n")
        self.command("git", "add", "gen.sh")
        for mode in ("one", "two"):
            self.made(words=[f"MODE={mode}"])
            self.assertEqual(self.text("a.txt"), f"{mode}\n")
        self.assertNotIn("sh gen.sh", self.made(words=["MODE=two"]))

    def test_a_macro_that_is_not_given_any_more(self) -> None:
        """The make without it is the one before, though the recording before that had it."""
        self.write("gen.sh", "#!/bin/sh\necho $MODE > a.txt\n")
        self.write("makefile", "a.txt: gen.sh\n\tsh gen.sh\n")
        self.tracked = ("gen.sh",)
        self.command("git", "add", "gen.sh")
        for word in ("MODE=one", "", "MODE=one"):
            self.assert_made_as_clean(*filter(None, [word]))

    def test_another_makefile(self) -> None:
        """The one that was given includes the one that isn't, and has more rules."""
        self.write("makefile", "a.txt: a.in\n\tcp a.in a.txt\n")
        more = "all: a.txt c.txt\ninclude makefile\nc.txt: a.in\n\tcp a.in c.txt\n"
        self.write("more.mk", more)
        self.command("git", "add", "more.mk")
        self.assert_made_as_clean("-f", "more.mk")
        own = "a.txt: a.in\n\tcp a.in a.txt\nc.txt: a.in\n\tcat a.in a.in > c.txt\n"
        self.write("makefile", f"all: a.txt c.txt\n{own}")
        self.assert_made_as_clean()

    def test_without_the_default_text(self) -> None:
        """Make hands `-r` on to recipes, and the commands are the same."""
        self.write("gen.sh", "case ${MAKEFLAGS%% *} in r*) echo r ;; *) echo ;; esac > a.txt\n")
        self.write("makefile", "a.txt: gen.sh\n\tsh gen.sh\n")
        self.tracked = ("gen.sh",)
        self.command("git", "add", "gen.sh")
        for word in ("-r", "", "-r"):
            self.assert_made_as_clean(*filter(None, [word]))

    def test_goals_that_are_not_given_any_more(self) -> None:
        """What only the goals of before made is made anew when they come back."""
        text = "a.txt: a.in\n\tcp a.in a.txt\nc.txt: a.in\n\t{} a.in > c.txt\n"
        self.write("makefile", text.format("cat"))
        self.assert_made_as_clean("a.txt", "c.txt")
        self.write("makefile", text.format("cat a.in"))
        self.assert_made_as_clean()
        self.assert_made_as_clean("a.txt", "c.txt")

    def test_what_runs_the_same_commands_otherwise(self) -> None:
        """Another shell, other options of it, other variables: nothing else has changed."""
        echo = "a.txt:\n\techo -e 'x\\ty' > a.txt\n"
        program = "a.txt: one/gen two/gen\n\tgen > a.txt\n"
        for number in ("one", "two"):
            self.write(f"{number}/gen", f"#!/bin/sh\necho {number}\n")
            (self.folder / number / "gen").chmod(0o755)
        self.write("cmd.sh", "echo $HOME\n")
        self.tracked = ("one", "two", "cmd.sh")
        self.command("git", "add", *self.tracked)
        home = "a.txt: cmd.sh\n\tsh cmd.sh > a.txt\n"
        for first, then, rest in (
            ("SHELL = /bin/bash", "SHELL = /bin/sh", echo),
            ("", ".POSIX:", 'a.txt:\n\techo "`false; echo y`" > a.txt\n'),
            ("PATH = one:/usr/bin:/bin", "PATH = two:/usr/bin:/bin", program),
            ("HOME = /one", "HOME = /two", home),
        ):
            with self.subTest(then):
                self.write("makefile", f"{first}\n{rest}")
                self.assert_made_as_clean()
                self.write("makefile", f"{then}\n{rest}")
                self.assert_made_as_clean()

    def test_another_environment(self) -> None:
        """A program reads a variable that no text names."""
        self.write("gen.sh", "echo $MODE > a.txt\n")
        self.write("makefile", "a.txt: gen.sh\n\tsh gen.sh\n")
        self.tracked = ("gen.sh",)
        self.command("git", "add", "gen.sh")
        self.assert_made_as_clean(MODE="one")
        self.assert_made_as_clean(MODE="two")
        # With these variables alone it is a job like any other, and all stays.
        clean = ["env", "-i", f"PATH={self.tools}:{os.environ['PATH']}", f"HOME={self.folder}"]
        for number in ("three", "four"):
            done = self.command(*clean, "sh", "mkcheck-kept.sh", MODE=number)
            self.assertEqual(done.returncode, 0, done.stderr)
        self.assertEqual(self.text("a.txt"), "\n")
        self.assertIn("0 of 1 recipes were recorded", done.stderr)

    def test_a_link_that_leads_elsewhere(self) -> None:
        """The recipe reads another file by the same name."""
        text = "a.txt: cur one.in two.in\n\tcat cur > a.txt\n"
        self.write("makefile", text)
        self.write("one.in", "1\n")
        self.write("two.in", "2\n")
        self.tracked = ("one.in", "two.in", "cur")
        for number in ("one.in", "two.in"):
            (self.folder / "cur").unlink(missing_ok=True)
            (self.folder / "cur").symlink_to(number)
            self.command("git", "add", *self.tracked)
            self.assert_made_as_clean()

    def test_a_folder_that_is_a_file_now(self) -> None:
        """The folder goes with what was in it."""
        self.write("makefile", "all: o/a\no/a: a.in\n\tmkdir -p o; cp a.in o/a\n")
        self.made()
        self.write("makefile", "all: o\no: a.in\n\tcp a.in o\n")
        self.made()
        self.assertEqual(self.text("o"), "a\n")

    def test_a_finding(self) -> None:
        """Nothing is made where the answer is no."""
        self.assertIn("b.txt", self.made(1))
        self.assertFalse((self.folder / "all.txt").exists())

    def test_a_make_that_fails(self) -> None:
        """Nothing is known after it, so the next one begins from nothing."""
        self.write("makefile", "a.txt: a.in\n\tcat a.in > a.txt\n")
        self.made()
        (self.tools / "make").symlink_to("/bin/false")
        self.write("makefile", "a.txt: a.in\n\tcat a.in a.in > a.txt\n")
        self.made(1)
        (self.tools / "make").unlink()
        self.write("old.o", "of another build")
        self.made()
        self.assertEqual(self.text("a.txt"), "a\na\n")
        self.assertFalse((self.folder / "old.o").exists())
