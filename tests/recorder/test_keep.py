"""`--keep` keeps in a folder what a build is made from, and `mkcheck since` reads it there."""

from __future__ import annotations

import json
import os
import subprocess
import sys
import tempfile
import time
import unittest
from pathlib import Path
from typing import Any
from unittest import mock

from mkcheck_tools.record import keeping
from mkcheck_tools.record.keeping import Made
from recorder.project import MKCHECK, OF_MAKE, RECORDER, Environment, ProjectTest, traced

OWN = ("footprint.json", "words", "options", "conditions.json")
MAKEFILE = "include rules.mk\nall: a\na: s\n\tcp s a $(F)\n"


@traced
class KeepTest(ProjectTest):
    """A project, and the folder in which its builds are kept."""

    def setUp(self) -> None:
        super().setUp()
        self.kept = self.scratch / "built"
        self.write({"makefile": MAKEFILE, "rules.mk": "F =\n", "s": "s\n"})

    def texts(self) -> dict[str, str]:
        """The files of the folder."""
        files = (path for path in self.kept.rglob("*") if path.is_file())
        return {str(path.relative_to(self.kept)): path.read_text() for path in files}

    def since(self) -> tuple[str, str, int]:
        """What `mkcheck since` answers for the build as it is recorded now."""
        done = subprocess.run(
            [MKCHECK, "since", str(self.kept), "-b", str(self.book), "all"],
            cwd=self.folder,
            capture_output=True,
            text=True,
            check=False,
        )
        return done.stdout, done.stderr, done.returncode

    def test_what_a_build_is_made_from(self) -> None:
        self.recorded("--keep", str(self.kept), "all")
        texts = {"makefile": MAKEFILE, "rules.mk": "F =\n", "words": "all\n", "options": ""}
        found = self.texts()
        del found["conditions.json"]
        self.assertEqual(found, {**texts, "footprint.json": self.book.read_text()})
        self.assertEqual(self.since(), ("", "", 0))

    def conditions(self, *words: str, environment: Environment | None = None) -> dict[str, Any]:
        """What is kept of that on which recipes go beside their commands."""
        words = ("--update", str(self.book), "--keep", str(self.kept), *words)
        outcome = self.record_plainly(*words, environment=environment)
        self.assertEqual(outcome.status, 0, outcome.errors)
        found: dict[str, Any] = json.loads((self.kept / "conditions.json").read_text())
        return found

    def test_what_was_given(self) -> None:
        """The words are those of this recording alone, since the make had no others."""
        (self.folder / "makefile").rename(self.folder / "build.mk")
        given = ("-f", "./build.mk", "-r", "MODE=a", "all")
        conditions = self.conditions(*given)
        self.assertEqual(self.texts()["options"], "-f\nbuild.mk\n-r\n")
        self.assertEqual(self.texts()["words"], "MODE=a\nall\n")
        self.assertEqual((conditions["operands"], conditions["default_text"]), (["MODE=a"], False))
        (self.folder / "build.mk").rename(self.folder / "makefile")
        self.assertEqual(self.conditions()["operands"], [])
        self.assertEqual((self.texts()["options"], self.texts()["words"]), ("", ""))

    def test_without_a_file_the_footprints_go_into_the_folder_alone(self) -> None:
        self.write({"makefile": "all: a\n\tcp a all\n", "a": "1\n"})
        outcome = self.record_plainly("--keep", str(self.kept), "all")
        self.assertEqual((outcome.status, outcome.output), (0, ""), outcome.errors)
        book = json.loads((self.kept / "footprint.json").read_text())
        self.assertEqual([one["target"] for one in book["records"]], ["all"])

    def test_another_makefile(self) -> None:
        """The old build has the makefile that it was made from, whatever is given now."""
        (self.folder / "makefile").rename(self.folder / "build.mk")
        self.recorded("-f", "./build.mk", "-r", "--keep", str(self.kept), "all")
        self.write({"makefile": MAKEFILE.replace("cp s a", "cat s > a")})
        self.recorded("all")
        self.assertEqual(self.since(), ("a\n", "", 0))

    def test_conditions_are_the_same_text(self) -> None:
        """Where only texts and sources are others; also where nothing is recorded anew."""
        before = self.conditions("all")
        self.assertEqual(self.conditions("all"), before)
        self.write({"rules.mk": "F = 2>&1\n", "s": "other\n", "more": "more\n"})
        self.assertEqual(self.conditions("all"), before)

    def test_conditions_differ(self) -> None:
        """Each of them is what the same commands may go by."""
        (self.folder / "cur").symlink_to("s")
        before = self.conditions("all", environment={"MODE": "a", "COLUMNS": "80"})
        self.assertEqual(before["links"], {"cur": "s"})
        secret = "a value that nobody should read"
        now = self.conditions("all", environment={"MODE": secret, "COLUMNS": "80"})
        self.assertNotEqual(now["variables"]["MODE"], before["variables"]["MODE"])
        self.assertNotIn(secret, json.dumps(now))
        texts = "SHELL = /bin/bash\n.SHELLFLAGS = -uc\nCOLUMNS = 30\n"
        (self.folder / "cur").unlink()
        (self.folder / "cur").symlink_to("rules.mk")
        self.write({"makefile": texts + MAKEFILE})
        last = self.conditions("all", environment={"MODE": secret, "COLUMNS": "80"})
        self.assertEqual(last["shells"], ["/bin/bash -uc"])
        self.assertEqual((last["macros"], last["links"]), ({"COLUMNS": "30"}, {"cur": "rules.mk"}))

    def test_what_was_kept_before_is_gone(self) -> None:
        self.recorded("--keep", str(self.kept), "all")
        self.write({"makefile": MAKEFILE.replace("rules", "more"), "more.mk": "F = 2>&1\n"})
        self.recorded("all")
        self.assertEqual(self.since(), ("a\n", "", 0))
        self.recorded("--keep", str(self.kept), "all")
        self.assertEqual(set(self.texts()), {"makefile", "more.mk", *OWN})
        self.assertEqual(self.since(), ("", "", 0))

    def test_a_build_of_which_nothing_has_changed(self) -> None:
        words = ("--update", str(self.book), "--keep", str(self.kept), "all")
        self.assertEqual(self.record_plainly(*words).status, 0)
        (self.kept / "makefile").unlink()
        outcome = self.record_plainly(*words)
        self.assertEqual(outcome.status, 0, outcome.errors)
        self.assertIn("0 of 1 recipes were recorded", outcome.errors)
        self.assertEqual(self.texts()["makefile"], MAKEFILE)

    def test_a_recipe_that_fails_keeps_nothing(self) -> None:
        self.write({"rules.mk": "F = /none/x\n"})
        self.assertEqual(self.record("--keep", str(self.kept), "all").status, 1)
        self.assertFalse(self.kept.exists())

    def test_a_folder_with_other_files(self) -> None:
        self.kept.mkdir()
        Path(self.kept, "mine").write_text("mine\n")
        outcome = self.record("--keep", str(self.kept), "all")
        self.assertEqual(outcome.status, 2)
        self.assertIn("this folder holds other files than what a build is made", outcome.errors)
        self.assertEqual(self.texts(), {"mine": "mine\n"})

    def test_a_text_above_the_folder(self) -> None:
        (self.scratch / "up.mk").write_text("F =\n")
        self.write({"makefile": MAKEFILE.replace("rules.mk", "../up.mk")})
        outcome = self.record("--keep", str(self.kept), "all")
        self.assertEqual(outcome.status, 2)
        self.assertIn("--keep: ../up.mk lies above the project's folder", outcome.errors)
        self.assertFalse(self.kept.exists())
        self.assertFalse(self.book.exists(), "nothing is recorded first")

    def test_a_word_that_no_line_holds(self) -> None:
        outcome = self.record("--keep", str(self.kept), "F=x\ny", "all")
        self.assertEqual(outcome.status, 2)
        self.assertIn("--keep: a word that is empty or has a newline", outcome.errors)
        self.assertFalse(self.book.exists(), "nothing is recorded first")

    def test_names_of_texts_are_those_where_they_are_read(self) -> None:
        """D has another value behind the line that uses it, and so has E in an included text."""
        more = "-include $(D)/rules.mk\nD = late\n-include $(D)/rules.mk\n"
        self.write(
            {
                "makefile": f"D = early\nE = deep\n{more}all: a $(GOALS)\na: s\n\tcp s a\n",
                "early/rules.mk": "-include $(E)/rules.mk\nE = other\n",
                "deep/rules.mk": "GOALS = b\nb: s\n\tcp s b\n",
                "late/rules.mk": "F =\n",
            }
        )
        self.recorded("--keep", str(self.kept), "all")
        names = ("makefile", "early/rules.mk", "deep/rules.mk", "late/rules.mk")
        self.assertEqual(set(self.texts()), {*names, *OWN})
        # The old build has b, which is old where its commands are others.
        self.write({"deep/rules.mk": "GOALS = b\nb: s\n\tcat s s > b\n"})
        self.recorded("all")
        self.assertEqual(self.since(), ("b\n", "", 0))

    def test_a_text_that_is_edited_meanwhile(self) -> None:
        """The recipe waits till the makefile is another one, which means the same or doesn't."""
        text = self.recorded_over("all: a  # edited\n")
        self.assertEqual(self.texts()["makefile"], text)
        self.recorded_over("all: b\nb: s\n\tcp s b\n", 1)
        self.assertEqual(self.texts()["makefile"], text)

    def recorded_over(self, line: str, status: int = 0) -> str:
        """Records a makefile that gets another first line while its recipe runs."""
        go = self.scratch / "go"
        go.unlink(missing_ok=True)
        text = f"all: a\na: s\n\tuntil test -e {go}; do sleep 0.1; done; cp s a\n"
        self.write({"makefile": text})
        words = ["-C", str(self.folder), "--no-replay", "-o", str(self.book), "all"]
        given: Environment = {**os.environ, **OF_MAKE, "MKCHECK": MKCHECK}
        with subprocess.Popen(
            [sys.executable, str(RECORDER), "--keep", str(self.kept), *words],
            env={name: value for name, value in given.items() if value is not None},
            stderr=subprocess.PIPE,
            text=True,
        ) as recorder:
            while recorder.poll() is None and not runs(f"until test -e {go}"):
                time.sleep(0.1)
            self.write({"makefile": text.replace("all: a\n", line)})
            go.touch()
            _, said = recorder.communicate()
        self.assertEqual(recorder.returncode, status, said)
        edited = "a text of it was edited or made while recipes ran; record again"
        self.assertEqual(edited in said, status != 0, said)
        return text


def runs(command: str) -> bool:
    """Whether a process runs whose words hold this text."""
    for path in Path("/proc").glob("[0-9]*/cmdline"):
        try:
            if command.encode() in path.read_bytes():
                return True
        except OSError:
            continue
    return False


class WritingTest(unittest.TestCase):
    """What is kept is whole, whatever ends the program."""

    def test_the_end_comes_while_the_build_before_is_removed(self) -> None:
        with tempfile.TemporaryDirectory() as folder:
            kept = Path(folder, "built")
            keeping.keep_build(str(kept), Made({"makefile": b"all:\n"}, "{}", ["all"], [], ""))

            def end(path: Path, **_options: bool) -> None:
                Path(path, "words").unlink(missing_ok=True)
                raise KeyboardInterrupt

            with mock.patch("mkcheck_tools.record.keeping.shutil.rmtree", end):
                with self.assertRaises(KeyboardInterrupt):
                    made = Made({"makefile": b"more:\n"}, "{}", ["more"], ["-r"], "{}\n")
                    keeping.keep_build(str(kept), made)
            found = {path.name: path.read_text() for path in kept.iterdir()}
        own = {"footprint.json": "{}", "words": "more\n", "options": "-r\n"}
        self.assertEqual(found, {"makefile": "more:\n", "conditions.json": "{}\n", **own})
