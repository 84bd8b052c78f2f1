"""Recordings that end early: by a full disk, by a mistake of the recorder, by a signal in each
phase. What was recorded is kept."""

from __future__ import annotations

import json
import os
import shutil
import signal
import subprocess
import sys
import time
import unittest
from pathlib import Path
from unittest import mock

from mkcheck_tools.faults import Fault
from mkcheck_tools.replay.versions import CHUNK, copy_bytes
from mkcheck_tools.run import places, stopping
from mkcheck_tools.run.paths import RealPath
from recorder.project import MKCHECK, OF_MAKE, RECORDER, ROOT, ProjectTest, traced
from waits import SECONDS_AT_MOST, TRIES, wait_for

namespaces = unittest.skipUnless(places.namespace(), "no mount namespace is allowed")
MAKEFILE = "all: a b c\na: s\n\tcp s a\nb: s\n\tcat s > b\nc: a\n\tcp a c\n"
# A recorder of which a function is another one: {patch} sets it.
PATCHED = """\
import sys, time
sys.path.insert(0, {tools!r})
{patch}
from mkcheck_tools.record.program import run
run()
"""
WRONG = """\
import mkcheck_tools.{module} as room
kept = room.{name}
def wrong(*words):
    return kept(*words) if {target} != "b" else 1 // 0
room.{name} = wrong
"""
WAITING = """\
import mkcheck_tools.{module} as room
kept = room.{name}
def waiting(*words, **more):
    if {condition}:
        open({mark!r}, "w").close()
        {waits}
    return kept(*words, **more)
room.{name} = waiting
"""
# In pieces, since Python sees a signal that comes just before a sleep begins when that has ended.
AN_HOUR = "for _ in range(36000): time.sleep(0.1)"
# A tool to which two signals come before Python looks for any.
AT_ONCE = """\
import contextlib, os, signal, sys
sys.path.insert(0, {tools!r})
from mkcheck_tools.run import ending, stopping
def work():
    both = signal.SIGINT, signal.SIGTERM
    with {within}:
        signal.pthread_sigmask(signal.SIG_BLOCK, both)
        for number in both:
            os.kill(os.getpid(), number)
        signal.pthread_sigmask(signal.SIG_UNBLOCK, both)
    return 0
sys.exit(ending.ended("tool", "tool", work))
"""
# How much a full disk holds.
SMALL = 4 << 20
ON_A_SMALL_DISK = """\
mount -t tmpfs -o size=$1,mode=700 none "$2" || exit 99
full=$2 kept=$3; shift 3
"$@"; status=$?
cp -a "$full" "$kept"; exit $status
"""


def take_signals() -> None:
    """A shell starts what runs in the background with SIGINT ignored; the recorder isn't to be."""
    for number in (signal.SIGINT, signal.SIGTERM, signal.SIGHUP):
        signal.signal(number, signal.SIG_DFL)


class EndTest(ProjectTest):
    """A recording of three recipes."""

    def setUp(self) -> None:
        super().setUp()
        self.write({"makefile": MAKEFILE, "s": "1\n"})
        self.environment = {
            name: value for name, value in os.environ.items() if name not in OF_MAKE
        } | {"MKCHECK": MKCHECK, "TMPDIR": str(self.scratch)}

    def words(self, *more: str) -> list[str]:
        """The words that record the project."""
        return ["-C", str(self.folder), "-o", str(self.book), *more, "all"]

    def patched(self, patch: str) -> list[str]:
        """The words that start a recorder of which a function is another one."""
        text = PATCHED.format(tools=str(ROOT / "tools"), patch=patch)
        return [sys.executable, "-Bc", text]

    def kept(self) -> set[str]:
        """The targets whose recipes the state has."""
        path = Path(f"{self.book}.state")
        if not path.exists():
            return set()
        return {entry["target"] for entry in json.loads(path.read_text())["state"]["recipes"]}


@traced
class MistakeTest(EndTest):
    """An error of which nobody thought."""

    def mistake(self, module: str, name: str, target: str, *more: str) -> None:
        """It is made over the recipe of `b` alone, and costs that alone."""
        patch = WRONG.format(module=module, name=name, target=target)
        done = subprocess.run(
            [*self.patched(patch), *self.words(*more)],
            env=self.environment,
            capture_output=True,
            text=True,
            check=False,
        )
        self.assertEqual((done.returncode, done.stdout), (1, ""), done.stderr)
        records = json.loads(self.book.read_text())["records"]
        self.assertEqual([one["target"] for one in records], ["a", "c"])
        self.assertIn("mkcheck-record: recorded 2 of 3 recipes\n", done.stderr)
        told = r"mkcheck-record: the recipe of b can't be \w+: this is a mistake of the recorder"
        self.assertRegex(done.stderr, told + " itself: ZeroDivisionError in .*, line ")
        self.assertNotIn("Traceback", done.stderr)
        self.assertEqual(self.kept(), {"a", "c"})

    def test_while_a_recipe_is_recorded(self) -> None:
        self.mistake("record.recording", "footprint_of", "words[0].target", "--no-replay")

    @namespaces
    def test_while_a_recipe_is_replayed(self) -> None:
        self.mistake("replay.replays", "Replay.replay", "words[1].recipe.target")

    @namespaces
    @unittest.skipUnless(shutil.which("as"), "no assembler")
    def test_while_a_write_fails(self) -> None:
        self.write({"makefile": MAKEFILE.replace("cat s > b", "as -o b t.s"), "t.s": ".data\n"})
        self.mistake("replay.halves", "Halves.leaves_half", "words[1].recipe.target")

    @namespaces
    def test_while_a_replay_is_judged(self) -> None:
        self.mistake("replay.verdicts", "notes_amid", "words[0].trial.recipe.target")

    def test_while_dates_are_looked_for(self) -> None:
        if places.namespace():
            self.mistake("record.pipeline", "dated", "words[1].recipe.target")


class LoadingTest(unittest.TestCase):
    """A signal that comes while a tool is loaded."""

    def test_it_ends_without_a_word(self) -> None:
        for tool in ("record", "import", "report", "audit"):
            for number in (signal.SIGINT, signal.SIGTERM, signal.SIGHUP):
                self.assertEqual(self.stopped(tool, number), (-number, ""), tool)

    def stopped(self, tool: str, number: signal.Signals) -> tuple[int, str]:
        """How a tool ends whose program module sends this signal as it is loaded, and what it
        says."""
        patch = (
            "import importlib.abc, os, sys\n"
            "class Finder(importlib.abc.MetaPathFinder):\n"
            "    def find_spec(self, name, path, target=None):\n"
            f"        if name.endswith('.program'): os.kill(os.getpid(), {int(number)})\n"
            "sys.meta_path.insert(0, Finder())\n"
            f"sys.path.insert(0, {str(ROOT / 'tools')!r})\n"
            "import mkcheck_tools.starts as starts\n"
            f"starts.{'translate' if tool == 'import' else tool}()\n"
        )
        done = subprocess.run(
            [sys.executable, "-c", patch],
            preexec_fn=take_signals,
            capture_output=True,
            text=True,
            check=False,
        )
        return done.returncode, done.stderr


class AtOnceTest(unittest.TestCase):
    """Two signals at one moment, as Ctrl-C at a terminal gives a tool that another one started, and
    that other one ends it too."""

    def test_the_second_one_changes_nothing(self) -> None:
        for within in ("contextlib.nullcontext()", "stopping.held()"):
            text = AT_ONCE.format(tools=str(ROOT / "tools"), within=within)
            with self.subTest(within):
                done = subprocess.run(
                    [sys.executable, "-c", text],
                    preexec_fn=take_signals,
                    capture_output=True,
                    text=True,
                    check=False,
                )
                self.assertEqual(done.stderr, "tool: stopped by SIGINT, nothing is written\n")
                self.assertEqual(done.returncode, 128 + signal.SIGINT)


@traced
class SignalTest(EndTest):
    """Signals in each phase."""

    def stopped(
        self, patch: str, number: signal.Signals, *more: str, seconds: float = 0.0
    ) -> str:
        """Starts a recorder that waits for an hour in a phase, and sends it a signal this many
        seconds later. It has to end each time, and one time of some within a second, or what a
        machine that is busy makes of it. Returns what it said."""
        for _ in range(TRIES):
            begun = time.monotonic()
            subprocess.run([*self.patched(""), "--version"], capture_output=True, check=True)
            allowed = 1.0 + 3 * (time.monotonic() - begun)
            errors, took = self.stopped_once(patch, number, *more, seconds=seconds)
            if took < allowed:
                return errors
        self.fail(f"it always takes long to end: {errors}")

    def stopped_once(
        self, patch: str, number: signal.Signals, *more: str, seconds: float
    ) -> tuple[str, float]:
        """What the recorder says, and how many seconds it takes to end."""
        with subprocess.Popen(
            [*self.patched(patch), *self.words(*more)],
            env=self.environment,
            stderr=subprocess.PIPE,
            text=True,
            preexec_fn=take_signals,
        ) as run:
            wait_for(lambda: self.mark.exists() or run.poll() is not None)
            time.sleep(seconds)
            sent = time.monotonic()
            run.send_signal(number)
            _, errors = run.communicate(timeout=SECONDS_AT_MOST)
            took = time.monotonic() - sent
        self.assertTrue(self.mark.exists(), errors)
        self.mark.unlink()
        self.assertEqual(run.returncode, 128 + number, errors)
        # What is large is removed behind the end of the recorder.
        self.assertTrue(wait_for(lambda: not list(self.scratch.glob("mkcheck-record-*"))))
        return errors, took

    def kept_after(
        self, function: str, condition: str, *more: str, waits: str = AN_HOUR
    ) -> None:
        """What was recorded is kept where the recorder ends in this function."""
        module, _, name = function.partition(":")
        for number in (signal.SIGINT, signal.SIGTERM):
            patch = WAITING.format(
                module=module, name=name, mark=str(self.mark), condition=condition, waits=waits
            )
            errors = self.stopped(patch, number, *more)
            said = f"stopped by {number.name}, what was recorded is kept: mkcheck-record --update"
            self.assertTrue(
                errors.endswith(f"mkcheck-record: {said} {self.book} goes on from there\n"), errors
            )
            self.assertGreaterEqual(self.kept(), {"a"}, errors)
            shutil.rmtree(f"{self.book}.state.d")
            os.unlink(f"{self.book}.state")

    def setUp(self) -> None:
        super().setUp()
        self.mark = self.scratch / "mark"

    def test_while_the_makefile_is_read(self) -> None:
        program = self.scratch / "mkcheck"
        program.write_text(f"#!/bin/sh\ntouch {self.mark}; exec sleep 3600\n")
        program.chmod(0o755)
        self.environment["MKCHECK"] = str(program)
        for number in (signal.SIGINT, signal.SIGTERM):
            errors = self.stopped("", number)
            self.assertEqual(
                errors, f"mkcheck-record: stopped by {number.name}, nothing is written\n"
            )
            self.assertFalse(self.book.exists())

    def test_while_a_recipe_runs(self) -> None:
        self.write({"makefile": MAKEFILE.replace("cat s", f"touch {self.mark}; sleep 3600; cat s")})
        for number in (signal.SIGINT, signal.SIGTERM):
            errors = self.stopped("", number, "--no-replay")
            self.assertIn(f"stopped by {number.name}, what was recorded is kept", errors)
            self.assertEqual(self.kept(), {"a"})

    @namespaces
    def test_while_a_recipe_runs_beside_a_replay(self) -> None:
        makefile = MAKEFILE.replace("cat s", f"sleep 2; touch {self.mark}; sleep 3600; cat s")
        self.write({"makefile": makefile.replace("cp s a", "sleep 4; cp s a")})
        for number in (signal.SIGINT, signal.SIGTERM):
            errors = self.stopped("", number)
            self.assertIn(f"stopped by {number.name}, what was recorded is kept", errors)
            self.assertEqual(self.kept(), {"a"})

    def test_while_footprints_are_made(self) -> None:
        condition = "words[0].target == 'c'"
        self.kept_after("record.recording:footprint_of", condition, "--no-replay")

    @namespaces
    def test_while_a_replay_runs(self) -> None:
        condition, waits = (
            "words[1].recipe.target == 'c'",
            "words[1].recipe.lines[:] = ['sleep 3600']",
        )
        self.kept_after("replay.runs:Runner.run_commands", condition, waits=waits)

    @namespaces
    def test_while_a_replay_reads_what_is_very_large(self) -> None:
        """The recipe makes a file as large as one at which it only looks, if that is large."""
        sized = "n=`stat -c %s c.in || echo 2`; test $$n -gt 1000000 || n=2; truncate -s $$n c"
        sized = f"rm -f c; {sized}"
        self.write({"makefile": MAKEFILE.replace("c: a\n\tcp a c", f"c: a\n\t{sized}")})
        self.write({"c.in": "1\n"})
        patch = WAITING.format(
            module="replay.versions",
            name="digest_of_bytes",
            condition=f"os.stat(words[0]).st_size > {1 << 30}",
            mark=str(self.mark),
            waits="pass",
        )
        patch += "import os, mkcheck_tools.replay.glances\n"
        patch += f"mkcheck_tools.replay.glances.LARGE = {1 << 42}\n"
        for number in (signal.SIGINT, signal.SIGTERM):
            errors = self.stopped(patch, number)
            self.assertIn(f"stopped by {number.name}, what was recorded is kept", errors)
            self.assertEqual(self.kept(), {"a", "b", "c"})

    def test_while_a_large_file_is_copied(self) -> None:
        """It is copied in pieces, and no further one where the program ends."""
        old, new = RealPath(str(self.scratch / "old")), RealPath(str(self.scratch / "new"))
        with open(old, "xb") as file:
            file.write(b"x" * (4 * CHUNK))
        with mock.patch.object(stopping, "is_ending", side_effect=[False, True]):
            self.assertRaises(Fault, copy_bytes, old, new)
        self.assertEqual(os.path.getsize(new), 2 * CHUNK)

    @namespaces
    def test_while_a_replay_waits_for_later_stamps(self) -> None:
        looking = MAKEFILE.replace("\tcp a c", "\ttest -e s; cp a c")
        self.write({"makefile": looking})
        patch = WAITING.format(
            module="replay.stamps",
            name="stopping.pause",
            condition="words[0] > 60",
            mark=str(self.mark),
            waits="pass",
        )
        patch += "room.LEAST = 3600 * room.SECOND\n"
        # The replay begins as its recipe is recorded, beside the recording.
        errors = self.stopped(patch, signal.SIGTERM, seconds=0.5)
        self.assertIn("stopped by SIGTERM, what was recorded is kept", errors)
        self.assertEqual(self.kept(), {"a", "b", "c"})

    def test_while_it_is_judged(self) -> None:
        self.kept_after("record.pipeline:verdict_of", "True", "--no-replay")

    def test_while_it_is_written(self) -> None:
        self.kept_after("record.pipeline:write_text", "True", "--no-replay")
        self.assertFalse(self.book.exists())

    def test_while_notes_are_written(self) -> None:
        condition = "words[1].endswith('.notes')"
        self.kept_after("record.pipeline:write_text", condition, "--no-replay")
        self.assertEqual(len(json.loads(self.book.read_text())["records"]), 3)


@traced
@namespaces
class FullDiskTest(EndTest):
    """A disk on which there is no room."""

    def on_a_small_disk(self, full: Path, *more: str) -> subprocess.CompletedProcess[str]:
        """Records where this folder is a small disk, of which a copy is left in `left`."""
        way = places.namespace()
        assert way is not None
        full.mkdir(exist_ok=True)
        shutil.rmtree(self.scratch / "left", ignore_errors=True)
        front = [str(SMALL), str(full), str(self.scratch / "left")]
        done = subprocess.run(
            [*way.enter, "/bin/sh", "-c", ON_A_SMALL_DISK, "sh", *front]
            + [sys.executable, str(RECORDER), *self.words(*more)],
            env=self.environment,
            capture_output=True,
            text=True,
            check=False,
        )
        if done.returncode == 99:
            self.skipTest("no file system in memory is allowed")
        self.assertNotRegex(done.stderr, r"Traceback|mistake|Errno")
        return done

    def test_a_recipe_that_fills_the_disk_of_the_copy(self) -> None:
        """It fails, and costs itself alone."""
        large = f"head -c {2 * SMALL} /dev/zero > b; test `wc -c < b` -eq {2 * SMALL}"
        self.write({"makefile": MAKEFILE.replace("cat s > b", large)})
        self.environment["TMPDIR"] = str(self.scratch / "small")
        done = self.on_a_small_disk(self.scratch / "small", "--no-replay")
        self.assertEqual(done.returncode, 1, done.stderr)
        self.assertIn("the recipe of b failed, status 1, at ", done.stderr)
        self.assertIn(
            "\tthe disk on which recipes run is full: make room in"
            f" {self.scratch / 'small'}, or let TMPDIR name another folder\n",
            done.stderr,
        )
        records = json.loads(self.book.read_text())["records"]
        self.assertEqual([one["target"] for one in records], ["a", "c"])
        self.assertEqual(self.kept(), {"a", "c"})
        self.assertEqual(os.listdir(self.scratch / "left"), [])

    def test_a_folder_that_is_too_large_for_the_copy(self) -> None:
        self.write({"s": "1" * (2 * SMALL)})
        self.environment["TMPDIR"] = str(self.scratch / "small")
        done = self.on_a_small_disk(self.scratch / "small", "--no-replay")
        self.assertEqual((done.returncode, self.book.exists()), (2, False), done.stderr)
        self.assertRegex(
            done.stderr,
            r"mkcheck-record: the folder can't be copied to .*: No space left on device; TMPDIR"
            r" names where copies lie\n$",
        )
        self.assertEqual(os.listdir(self.scratch / "left"), [])

    def test_a_disk_that_is_too_small_for_what_is_kept(self) -> None:
        """What was recorded before is in the state, and the footprints of before stay."""
        makefile = MAKEFILE.replace("cat s > b", "cat " + "s " * 8 + "> b")
        self.write({"s": "1" * (SMALL // 3), "makefile": makefile})
        small = self.scratch / "small"
        self.book = small / "book.json"
        done = self.on_a_small_disk(small, "--no-replay")
        self.assertEqual(done.returncode, 2, done.stderr)
        self.assertIn(
            f"what was recorded is kept: mkcheck-record --update {self.book}", done.stderr
        )
        self.assertRegex(
            done.stderr, rf"mkcheck-record: {small}/\S* can't be written, since the disk is full"
        )
        self.book = self.scratch / "left" / "book.json"
        self.assertEqual((self.kept(), self.book.exists()), ({"a"}, False))


if __name__ == "__main__":
    unittest.main()
