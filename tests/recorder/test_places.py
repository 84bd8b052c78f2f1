"""Recipes run at the project's own path, which nobody else sees, and end by signals."""

from __future__ import annotations

import os
import shutil
import signal
import subprocess
import sys
import tempfile
import unittest
from dataclasses import replace
from pathlib import Path
from typing import Any
from unittest import mock

from mkcheck_tools.faults import Fault
from mkcheck_tools.replay.versions import Store
from mkcheck_tools.replay.worlds import World
from mkcheck_tools.run import folders, places, stopping
from mkcheck_tools.run.folders import scratch_folder
from mkcheck_tools.run.holders import ready
from mkcheck_tools.run.paths import Name, RealPath, SeenPath
from mkcheck_tools.run.places import Place
from outside import assert_untouched, folder_outside
from recorder.project import MKCHECK, RECORDER, ProjectTest, traced
from recorder.test_unseen import left_with, processes_with
from waits import wait_for

namespaces = unittest.skipUnless(places.namespace(), "no mount namespace is allowed")
SCRATCH = "mkcheck-record-"


@namespaces
class PlaceTest(ProjectTest):
    """`places.run`. No strace is needed."""

    def setUp(self) -> None:
        super().setUp()
        self.other = self.scratch / 'it\'s a "folder"'
        self.other.mkdir()
        (self.other / "a").write_text("other\n")
        self.write({"a": "own\n"})
        self.place = Place(RealPath(str(self.other)), SeenPath(str(self.folder)))

    def run_here(self, text: str, seconds: float | None = None) -> places.Ended:
        """Runs a shell command in the place."""
        environment = {"PATH": os.environ["PATH"], "PWD": str(self.folder)}
        return places.run(["/bin/sh", "-c", text], self.place, environment, seconds)

    @unittest.skipUnless(shutil.which("ipcmk") and shutil.which("ipcs"), "no ipcmk or ipcs")
    def test_shared_memory_ends_with_its_command(self) -> None:
        """No trace shows what two recipes would hand on by it."""
        before = self.run_here("ipcs -m").output
        self.assertEqual(self.run_here("ipcmk -M 64 && ipcs -m").status, 0)
        self.assertEqual(self.run_here("ipcs -m").output, before)

    def test_a_folder_at_the_path_of_another(self) -> None:
        ended = self.run_here(
            f"pwd; echo $PWD; pwd -P; cat a {self.folder}/a; echo > b; env | grep OLDPWD; exit 3"
        )
        self.assertEqual((ended.status, ended.timed_out), (3, False))
        self.assertEqual(ended.output, f"{self.folder}\n" * 3 + "other\nother\n")
        self.assertEqual(sorted(path.name for path in self.folder.iterdir()), ["a"])
        self.assertEqual(sorted(path.name for path in self.other.iterdir()), ["a", "b"])

    def test_files_belong_to_the_user(self) -> None:
        self.assertEqual(self.run_here("echo > b; id -u").output, f"{os.getuid()}\n")
        status = (self.other / "b").stat()
        self.assertEqual((status.st_uid, status.st_gid), (os.getuid(), os.getgid()))

    def test_the_mount_is_seen_by_nobody_else(self) -> None:
        before = Path("/proc/self/mounts").read_text()
        with subprocess.Popen(
            self.place.words(["/bin/sh", "-c", "echo there; read x"]),
            cwd=self.folder,
            stdin=subprocess.PIPE,
            stdout=subprocess.PIPE,
        ) as process:
            assert process.stdout is not None
            self.assertEqual(process.stdout.readline(), b"there\n")
            self.assertEqual((self.folder / "a").read_text(), "own\n")
            self.assertEqual(Path("/proc/self/mounts").read_text(), before)
            process.communicate(b"\n")

    def test_time_that_is_up(self) -> None:
        """It is up as soon as the command has said something."""
        begun = self.other / "begun"
        with mock.patch("time.monotonic", lambda: 100.0 * begun.exists()):
            ended = self.run_here("echo begun; echo > begun; sleep 600", 50)
        self.assertEqual((ended.timed_out, ended.output), (True, "begun\n"))

    def test_waiting_for_a_time(self) -> None:
        with subprocess.Popen(["sleep", "600"]) as process:
            for seconds in (0, 0.01):
                with self.assertRaises(subprocess.TimeoutExpired):
                    places.waited(process, seconds)
            process.kill()
            self.assertEqual(places.waited(process, 600), -signal.SIGKILL)

    def test_what_stays_in_the_background_is_killed(self) -> None:
        mark = str(self.scratch / "mark")
        self.assertEqual(
            self.run_here(f"sh -c 'sleep 600; echo > {mark}' & echo begun").output, "begun\n"
        )
        self.assertEqual(left_with(mark), [])

    def test_where_this_program_finds_a_path(self) -> None:
        seen = str(self.folder)
        for path, found in (
            (f"{seen}/b/c", f"{self.other}/b/c"),
            (seen, str(self.other)),
            (f"{seen}s", f"{seen}s"),
        ):
            self.assertEqual(self.place.real(SeenPath(path)), found)

    @unittest.skipUnless(shutil.which("nsenter"), "no nsenter")
    def test_mounts_that_are_made_once(self) -> None:
        """Commands have copies of these, and see the folder as in other places."""
        outside = folder_outside(self)
        with ready(replace(self.place, shut=True)) as self.place:
            self.assertTrue(self.place.is_ready)
            self.test_a_folder_at_the_path_of_another()
            ended = self.run_here(f"echo > {outside}/there")
            self.assertNotEqual(ended.status, 0)
            before = self.run_here("cat /proc/self/mounts").output
            if os.getuid() == 0:
                self.assertEqual(self.run_here(f"umount -l {self.folder}").output, "")
            self.assertEqual(self.run_here("cat /proc/self/mounts").output, before)
        assert_untouched(self, outside)

    def test_without_namespaces(self) -> None:
        kept = places.namespace
        places.namespace = lambda: None  # type: ignore[assignment]
        try:
            with self.assertRaisesRegex(Fault, "the system allows no mount namespace"):
                self.run_here("true")
        finally:
            places.namespace = kept


class ScratchFolderTest(ProjectTest):
    """Where the copy lies."""

    def test_a_folder_outside_of_the_project(self) -> None:
        inner = self.folder / "tmp"
        inner.mkdir()
        with scratch_folder(RealPath(str(self.folder))) as scratch:
            self.assertTrue(os.path.isdir(scratch))
            self.assertFalse(scratch.startswith(f"{self.folder}/"))
            (Path(scratch) / "d").mkdir()
            (Path(scratch) / "d" / "a").touch()
            (Path(scratch) / "d").chmod(0o500)
        self.assertFalse(os.path.exists(scratch))

    def test_a_signal_does_not_wait_for_all_that_is_there(self) -> None:
        """A folder that takes long to remove goes on being removed, and isn't waited for."""
        remove, go = folders.remove, self.scratch / "go"

        def slowly(folder: str) -> None:
            wait_for(go.exists)
            remove(folder)

        with mock.patch.object(folders, "remove", slowly), self.assertRaises(stopping.Stopped):
            with folders.temporary_folder(str(self.scratch)) as scratch:
                (Path(scratch) / "a").touch()
                raise stopping.Stopped(signal.SIGTERM)
        self.assertTrue(os.path.exists(scratch))
        go.touch()
        self.assertTrue(wait_for(lambda: not os.path.exists(scratch)))

    def left_after_signals(self, name: str, early: bool) -> list[str]:
        """What is left of a folder where a function gets a signal each time, at its begin if
        `early`, else at its end; after some time, in which it may still be removed.
        """
        module = {"mkdtemp": tempfile, "remove": folders}[name]
        function = getattr(module, name)

        def signalled(*words: str, **options: str) -> object:
            """The function, and a signal."""
            if early:
                signal.raise_signal(signal.SIGTERM)
            found = function(*words, **options)
            signal.raise_signal(signal.SIGTERM)
            return found

        take_signals()
        stopping.catch_signals()
        with mock.patch.object(module, name, signalled), self.assertRaises(stopping.Stopped):
            with folders.temporary_folder(str(self.scratch)) as scratch:
                (Path(scratch) / "a").touch()

        def left() -> list[str]:
            return [path.name for path in self.scratch.iterdir() if path != self.folder]

        wait_for(lambda: not left())
        return left()

    def test_signals_while_it_is_made_or_removed(self) -> None:
        for number in stopping.SIGNALS:
            self.addCleanup(signal.signal, number, signal.getsignal(number))
        for name in ("mkdtemp", "remove"):
            for early in (True, False):
                self.assertEqual(self.left_after_signals(name, early), [], (name, early))


@traced
class OwnPathTest(ProjectTest):
    """Recordings at the project's own path."""

    @namespaces
    def test_absolute_names_of_the_projects_files(self) -> None:
        self.write(
            {
                "makefile": (
                    f"out: a\n\tcat {self.folder}/a > {self.folder}/out\n"
                    f"two: out\n\tcd /; cp {self.folder}/out {self.folder}/two\n"
                ),
                "a": "1\n",
            }
        )
        outcome = self.recorded("out", "two")
        self.assertEqual(
            (outcome.own("out"), outcome.own("two")), (({"a"}, {"out"}), ({"out"}, {"two"}))
        )
        self.assertEqual(sorted(path.name for path in self.folder.iterdir()), ["a", "makefile"])

    @namespaces
    def test_a_script_whose_interpreter_is_named_by_the_projects_path(self) -> None:
        self.write({"makefile": "out: s i\n\t./s\n", "i": "#!/bin/sh\necho 1 > out\n"})
        self.write({"s": f"#!{self.folder}/i\n"})
        self.assertEqual(self.recorded().own("out"), ({"s", "i"}, {"out"}))

    @namespaces
    def test_files_above_the_folder(self) -> None:
        (self.scratch / "c").mkdir()
        (self.scratch / "c" / "a").write_text("")
        (self.scratch / "c" / "l").symlink_to(self.folder / "b")
        self.write({"makefile": "out: ../c/a\n\tcat ../c/a ../c/l > out\n", "b": ""})
        outcome = self.recorded("--fixed", "../c")
        self.assertEqual(outcome.own("out"), ({"../c/a", "b"}, {"out"}))

    @namespaces
    def test_a_project_below_a_fixed_prefix(self) -> None:
        self.write(
            {"makefile": f"out: a\n\tcp {self.folder}/a out\nall: out\n\tcp out all\n", "a": ""}
        )
        outcome = self.recorded("--fixed", str(self.scratch), "all")
        self.assertEqual(
            (outcome.own("out"), outcome.own("all")), (({"a"}, {"out"}), ({"out"}, {"all"}))
        )
        self.assertEqual((outcome.book or {})["sources"], ["a"])

    @namespaces
    def test_the_path_that_recipes_write_down(self) -> None:
        self.write(
            {"makefile": "out: a\n\tpwd > out; echo $$PWD >> out; cat out; exit 3\n", "a": ""}
        )
        self.assertTrue(self.record().errors.endswith(f"\n{self.folder}\n{self.folder}\n"))

    @namespaces
    def test_a_folder_that_is_named_over_a_link(self) -> None:
        link = self.scratch / "link"
        link.symlink_to(self.folder)
        self.write({"makefile": 'out: a\n\tcat "$$PWD/a" > out; echo $$PWD; exit 3\n', "a": ""})
        outcome = self.record("-C", str(link), environment={"PWD": str(link)})
        self.assertTrue(outcome.errors.endswith(f"\n{link}\n"), outcome.errors)

    def test_without_a_namespace_it_is_told_once(self) -> None:
        tools = self.scratch / "tools"
        tools.mkdir()
        (tools / "unshare").write_text("#!/bin/sh\nexit 1\n")
        (tools / "unshare").chmod(0o755)
        self.write({"makefile": "out: two\n\tcat two > out\ntwo: a\n\tcp a two\n", "a": ""})
        outcome = self.record(environment={"PATH": f"{tools}:{os.environ['PATH']}"})
        self.assertEqual(
            (outcome.own("out"), outcome.own("two")), (({"two"}, {"out"}), ({"a"}, {"two"}))
        )
        (told,) = outcome.warnings()
        self.assertTrue(
            told.startswith(
                "the system allows no mount namespace (unshare --mount), so recipes run in a copy"
            )
        )

    @namespaces
    @unittest.skipUnless(
        os.getuid() == 0 and shutil.which("setpriv"), "not started by root, or no setpriv"
    )
    def test_a_user_who_is_not_root(self) -> None:
        self.write(
            {
                "makefile": (
                    "out: a\n\tcat a > out; test `id -u` = 65534\nall: out\n\tcp -a out all\n"
                ),
                "a": "",
            }
        )
        os.chmod(self.scratch, 0o755)
        for path in (self.folder, *self.folder.iterdir()):
            os.chown(path, 65534, 65534)
        self.write({"secret": "", "closed/a": ""})
        os.chmod(self.folder / "secret", 0o600)
        os.chmod(self.folder / "closed", 0o700)
        words = [
            "setpriv",
            "--reuid=65534",
            "--regid=65534",
            "--clear-groups",
            sys.executable,
            "-B",
            str(RECORDER),
        ]
        done = subprocess.run(
            [*words, "--no-replay", "-C", str(self.folder), "all"],
            capture_output=True,
            text=True,
            env={"PATH": os.environ["PATH"], "MKCHECK": MKCHECK, "TMPDIR": "/tmp"},
            check=False,
        )
        if "Permission denied" in done.stderr:
            self.skipTest("another user can't read the repository")
        self.assertEqual(done.returncode, 0, done.stderr)
        self.assertNotIn("no mount namespace", done.stderr)
        self.assertRegex(
            done.stderr,
            "not copied, since they can't be read or are no files: (closed, secret|secret, closed)",
        )
        self.assertIn(
            '"reads":["/usr/bin/dash"' if '"/usr/bin/dash"' in done.stdout else '"reads":[',
            done.stdout,
        )
        self.assertIn('"writes":["all"]}', done.stdout)


def take_signals() -> None:
    """A shell starts what runs in the background with SIGINT ignored; the recorder isn't to be."""
    for number in (signal.SIGINT, signal.SIGTERM, signal.SIGHUP):
        signal.signal(number, signal.SIG_DFL)


@traced
@namespaces
class OutsideTest(ProjectTest):
    """What recipes would write outside of the project's folder."""

    def setUp(self) -> None:
        super().setUp()
        self.outside = folder_outside(self)

    def test_it_is_not_written(self) -> None:
        place = f"{self.outside}/"
        self.write({"a": ""})
        for command, name in (
            (f"cp a {place}new", "new"),
            (f"-cp a {place}new", "new"),
            (f"cp a {place}new || :", "new"),
            (f"rm -rf {place}there", "there"),
            (f"echo >> {place}there", "there"),
            (f"chmod 600 {place}there", "there"),
            (f"mkdir -p {place}new/d", "new"),
            (f"ln -s a {place}new", "new"),
            (f"cd {place}; mv there new", "new"),
        ):
            self.write({"makefile": f"install: a\n\t{command}\n\tcp a install\n"})
            for fixed in ((), ("--fixed", str(self.outside))):
                outcome = self.record(*fixed)
                self.assertEqual((outcome.status, outcome.book), (1, None), command)
                said = (
                    "mkcheck-record: the recipe of install writes files outside the folder, which"
                    " no footprint can name: let it write into the folder, or leave it out\n"
                    f"\tinstall writes {place}{name}\n"
                )
                # Behind it stands what the recipe put out.
                self.assertTrue(outcome.errors.startswith(said), outcome.errors)
                assert_untouched(self, self.outside)

    def test_what_stays_open(self) -> None:
        text = f"out: a\n\techo > {self.scratch}/t; rm {self.scratch}/t; echo > /dev/null\n"
        text += f"\trm -f {self.outside}/none; mkdir -p {self.outside}; cp a out\n"
        self.write({"makefile": text, "a": ""})
        outcome = self.recorded()
        self.assertEqual((outcome.own("out"), outcome.warnings()), (({"a"}, {"out"}), []))


class MountsTest(unittest.TestCase):
    """What is mounted."""

    def test_lines_of_the_system(self) -> None:
        lines = (
            "27 1 254:0 / / rw,relatime - ext4 /dev/vda rw\n",
            "28 27 0:1 / /a rw,nosuid shared:1 - tmpfs none rw\n",
            "29 28 0:2 / /a/hidden rw - tmpfs none rw\n",
            "30 28 0:3 / /a rw,relatime - tmpfs none rw\n",
            "31 27 0:4 / /b\\040c ro,nodev - ext4 /dev/vdb rw\n",
            "32 27 0:5 / /net rw - autofs none rw\n",
        )
        found = places.mounts(lines)
        self.assertEqual([mount.path for mount in found], ["/", "/a", "/b c", "/net"])
        self.assertEqual([mount.is_open for mount in found], [True, True, False, False])
        self.assertEqual(found[1].flags, ("rw", "relatime"))
        ends = ("mount -o remount,bind,ro,relatime /", "ro,nodev,strictatime '/b c'")
        for mount, end in zip((found[0], found[2]), ends):
            self.assertTrue(mount.shutting.endswith(end), mount.shutting)


@traced
class FixedTest(ProjectTest):
    """What recipes write below a fixed prefix."""

    def test_it_is_refused(self) -> None:
        (self.scratch / "tools").mkdir()
        self.write({"makefile": "install: a\n\tcp a ../tools/x\n", "a": ""})
        outcome = self.record("--fixed", f"{self.scratch}/tools")
        self.assertEqual((outcome.status, outcome.book), (1, None))
        front = "mkcheck-record: the recipe of install writes files outside the folder, which"
        self.assertTrue(outcome.errors.startswith(front), outcome.errors)

    def test_the_folders_above_a_name(self) -> None:
        folder = RealPath(str(self.folder))
        world = World(folder, folder, Store(RealPath(str(self.scratch))), 0.0)
        world.appear(Name("/opt/d/x"))
        self.assertEqual(world.inside, {"/opt/d": {"x"}, "/opt": {"d"}, "/": {"opt"}})


class BeginTest(unittest.TestCase):
    """Signals that come while a process begins."""

    def test_a_signal_while_a_process_begins(self) -> None:
        begun: list[subprocess.Popen[Any]] = []
        own = subprocess.Popen

        def popen(*words: Any, **options: Any) -> subprocess.Popen[Any]:
            """Starts a process, and gets a signal before it can tell of it."""
            begun.append(own(*words, **options))
            signal.raise_signal(signal.SIGTERM)
            return begun[0]

        for number in stopping.SIGNALS:
            self.addCleanup(signal.signal, number, signal.getsignal(number))
        take_signals()
        stopping.catch_signals()
        with open(os.devnull, "wb") as output, mock.patch.object(subprocess, "Popen", popen):
            with self.assertRaises(stopping.Stopped) as raised:
                with places.started(["sleep", "1234"], "/", os.environ, output.fileno()):
                    self.fail("the signal was lost")
        self.assertEqual(raised.exception.status, 128 + signal.SIGTERM)
        self.assertEqual([process.returncode for process in begun], [-signal.SIGKILL])


@traced
class SignalTest(ProjectTest):
    """Signals that end the recorder."""

    def stopped(self, number: int, recipe: str, *words: str) -> subprocess.CompletedProcess[str]:
        """Starts a recording whose recipe waits, sends it a signal, and waits for its end."""
        self.mark = str(self.scratch / "mark")
        self.write({"makefile": f"out: a\n\t{recipe.format(mark=self.mark)}\n", "a": ""})
        temporary = self.scratch / "temporary"
        temporary.mkdir(exist_ok=True)
        environment = {**os.environ, "MKCHECK": MKCHECK, "TMPDIR": str(temporary)}
        command = [
            sys.executable,
            str(RECORDER),
            "-C",
            str(self.folder),
            "-o",
            str(self.book),
            *words,
        ]
        with subprocess.Popen(
            command,
            env=environment,
            stdout=subprocess.PIPE,
            stderr=subprocess.PIPE,
            text=True,
            preexec_fn=take_signals,
        ) as run:
            recipe = f"sleep 1234; echo > {self.mark}"
            self.assertTrue(wait_for(lambda: bool(processes_with(recipe))))
            run.send_signal(number)
            output, errors = run.communicate(timeout=600)
        # What is large is removed behind the end of the recorder.
        self.assertTrue(wait_for(lambda: not list(temporary.iterdir())))
        self.assertEqual(left_with(self.mark), [])
        self.assertFalse(self.book.exists())
        return subprocess.CompletedProcess(command, run.returncode, output, errors)

    def test_each_signal_ends_all(self) -> None:
        for number in (signal.SIGINT, signal.SIGTERM, signal.SIGHUP):
            for words in ((), ("--in-place",)):
                done = self.stopped(number, "sh -c 'sleep 1234; echo > {mark}'; echo > out", *words)
                said = f"mkcheck-record: stopped by {number.name}, nothing is written\n"
                self.assertEqual((done.returncode, done.stdout), (128 + number, ""))
                self.assertTrue(done.stderr.endswith(said), done.stderr)

    @unittest.skipUnless(shutil.which("setsid"), "no setsid")
    def test_a_process_of_its_own_session_is_ended_too(self) -> None:
        recipe = "trap : TERM INT HUP; setsid sh -c 'sleep 1234; echo > {mark}'; echo > out"
        self.assertEqual(self.stopped(signal.SIGTERM, recipe).returncode, 143)

    def test_a_recipe_that_ignores_signals(self) -> None:
        recipe = "trap \"\" TERM INT HUP; sh -c 'sleep 1234; echo > {mark}'; echo > out"
        self.assertEqual(self.stopped(signal.SIGTERM, recipe).returncode, 143)

    @namespaces
    def test_a_replay_is_ended_too(self) -> None:
        recipe = (
            "test -f a && test ! -s a; if test -f ready; then sh -c 'sleep 1234; echo > {mark}';"
            " fi; echo > out"
        )
        # The recording finds no `ready`; the recipe makes it for the replay of its own outputs.
        recipe = recipe.replace("echo > out", "echo > ready; echo > out")
        self.assertEqual(self.stopped(signal.SIGTERM, recipe).returncode, 143)

    def test_a_signal_that_was_ignored_stays_ignored(self) -> None:
        self.write({"makefile": "out: a\n\tkill -HUP `cat pid`; cp a out\n", "a": ""})
        script = f'trap "" HUP; echo $$ > {self.folder}/pid; exec "$@"'
        words = [
            "sh",
            "-c",
            script,
            "sh",
            sys.executable,
            str(RECORDER),
            "--no-replay",
            "-C",
            str(self.folder),
        ]
        done = subprocess.run(
            [*words, "-o", str(self.book)],
            env={**os.environ, "MKCHECK": MKCHECK},
            check=False,
            capture_output=True,
        )
        self.assertEqual((done.returncode, self.book.exists()), (0, True), done.stderr)


if __name__ == "__main__":
    unittest.main()
