"""Progress on a terminal and elsewhere."""

from __future__ import annotations

import contextlib
import io
import os
import pty
import subprocess
import sys
import threading
import unittest
from collections.abc import Callable
from concurrent import futures
from concurrent.futures import ThreadPoolExecutor
from types import SimpleNamespace
from typing import Any
from unittest import mock

from mkcheck_tools.replay import halves
from mkcheck_tools.replay.replays import Replay
from mkcheck_tools.replay.runs import BARE
from mkcheck_tools.run import progress as progress_module
from mkcheck_tools.run.progress import CLEAR, SECONDS_APART, Progress, duration
from recorder.project import MKCHECK, RECORDER, ProjectTest, traced
from waits import SECONDS_AT_MOST, wait_for


HOUR = 3600.0


def read_all(terminal: int) -> str:
    """What was written to a terminal whose other side is closed."""
    text = b""
    try:
        while part := os.read(terminal, 65536):
            text += part
    except OSError:
        pass
    return text.decode()


class Told(io.StringIO):
    """A stream with an event that is set as soon as something is written."""

    def __init__(self) -> None:
        super().__init__()
        self.is_told = threading.Event()

    def write(self, text: str) -> int:
        """Takes a text."""
        count = super().write(text)
        self.is_told.set()
        return count

    def wait(self) -> None:
        """Takes as long as nothing is written, so a run that waits here is a long one."""
        self.is_told.wait(SECONDS_AT_MOST)


class LinesTest(unittest.TestCase):
    """What `Progress` writes."""

    def told(self, apart: float, times: list[float]) -> str:
        """What is written of two recipes with three commands, which begin at these times."""
        stream = io.StringIO()
        clock = iter(times)
        with mock.patch("time.monotonic", lambda: next(clock)):
            progress = Progress(2, stream, apart)
            progress.begin("a.o")
            progress.step("cc -c a.c")
            progress.begin("b.o")
            progress.step("cc -c b.c \\\n  -g")
            progress.step("ar rc b.o")
            progress.clear()
        return stream.getvalue()

    def test_a_line_now_and_then(self) -> None:
        self.assertEqual(
            self.told(0.0, [0.0, 0.0, 65.0, 70.0]),
            (
                "[1/2] a.o: cc -c a.c\n[2/2 1:05 left] b.o: cc -c b.c \\\n[2/2 1:10 left] b.o: ar"
                " rc b.o\n"
            ),
        )
        self.assertEqual(self.told(3600.0, [0.0, 1.0, 2.0, 3.0]), "")

    def test_the_time_between_lines(self) -> None:
        self.assertEqual(SECONDS_APART, 10.0)
        self.assertEqual(
            self.told(SECONDS_APART, [100.0, 109.0, 111.0, 120.0]),
            "[2/2 0:11 left] b.o: cc -c b.c \\\n",
        )

    def test_recipes_that_run_together(self) -> None:
        stream = io.StringIO()
        clock = iter([0.0, 2.0, 4.0, 6.0])
        with mock.patch("time.monotonic", lambda: next(clock)):
            progress = Progress(3, stream, 0.0, "replay")
            for name in "abc":
                progress.ended(name)
        self.assertEqual(
            stream.getvalue(),
            "[replay 1/3 0:04 left] a\n[replay 2/3 0:02 left] b\n[replay 3/3] c\n",
        )

    def test_a_recipe_that_goes_on(self) -> None:
        stream = io.StringIO()
        clock = iter([0.0, 11.0, 12.0, 22.0])
        with mock.patch("time.monotonic", lambda: next(clock)):
            progress = Progress(2, stream, SECONDS_APART, "replay")
            progress.goes_on("a")
            progress.goes_on("a")
            progress.goes_on("a")
        line = "[replay 0/2] a goes on\n"
        self.assertEqual(stream.getvalue(), line + line)

    def test_recipes_that_are_not_run(self) -> None:
        """One recipe of six has run, and five can't be: there is no time left. Of ten two had run
        in four seconds, so the two that will be run take as long again."""
        for total, unrun, times, line in (
            (6, 5, [0.0, 4.0, 5.0], "[2/6] bad isn't run\n"),
            (10, 6, [0.0, 4.0, 4.0], "[3/10 0:04 left] bad isn't run\n"),
        ):
            stream, clock = io.StringIO(), iter(times)
            with mock.patch("time.monotonic", lambda: next(clock)):
                progress = Progress(total, stream, SECONDS_APART)
                for _ in range(2 if total == 10 else 1):
                    progress.begin("a")
                progress.step("true")
                progress.at_once()
                progress.begin("bad")
                progress.unrun = unrun
                progress.pass_over()
            self.assertEqual(stream.getvalue(), line)

    def test_a_recipe_for_which_the_program_waits(self) -> None:
        stream = io.StringIO()
        with mock.patch.object(progress_module, "SECONDS_SHOWN", 0.05):
            with Progress(2, stream, 0.0) as progress:
                progress.begin("a.o")
                progress.step("cc -c a.c")
                wait_for(lambda: stream.getvalue().count("\n") >= 3)
                progress.clear()
                progress.begin("b.o")
        lines = stream.getvalue().splitlines()
        self.assertEqual(lines[0], "[1/2] a.o: cc -c a.c")
        self.assertRegex(lines[1], r"^\[1/2\] a\.o goes on, \d+:\d\d$")
        self.assertEqual([line for line in lines if "b.o" in line], [])

    def test_a_long_command(self) -> None:
        """Who reads the end of what is told finds the count."""
        stream = io.StringIO()
        progress = Progress(1, stream, 0.0)
        progress.begin("a.o")
        progress.step("cc " + "-DX " * 2000)
        self.assertEqual(len(stream.getvalue()), 401)

    def test_durations(self) -> None:
        self.assertEqual(
            [duration(seconds) for seconds in (0.4, 59.6, 3599.0, 3600.0, 36061.0)],
            ["0:00", "1:00", "59:59", "1:00:00", "10:01:01"],
        )

    def test_a_terminal(self) -> None:
        reader, writer = pty.openpty()
        self.addCleanup(os.close, reader)
        with os.fdopen(writer, "w") as stream, mock.patch.dict(os.environ, COLUMNS="18"):
            progress = Progress(1, stream)
            progress.begin("a.o")
            progress.step("cc -c a.c")
            progress.clear()
            stream.flush()
        self.assertEqual(read_all(reader), f"{CLEAR}[1/1] a.o: cc -c {CLEAR}")
        self.assertEqual(len("[1/1] a.o: cc -c "), 17)


class FailingWritesTest(unittest.TestCase):
    """The runs where writes fail, behind a count of replays that was shown just before."""

    def told(self, long: list[bool]) -> str:
        """What is written of runs: long ones end when a line is written, the others before they
        are waited for."""
        stream = Told()

        def run(is_long: bool) -> None:
            """Goes on until a line is written, if it is a long one."""
            if is_long:
                stream.wait()

        with ThreadPoolExecutor() as pool, mock.patch.object(halves, "SECONDS_SHOWN", 0.1):
            runs = {number: pool.submit(run, one) for number, one in enumerate(long)}
            futures.wait(runs[number] for number, one in enumerate(long) if not one)
            names = {number: f"{number}.o" for number in runs}
            halves.watch(runs, names, Progress(len(runs), stream, HOUR, title="failing"))
        return stream.getvalue()

    def test_a_long_run_is_told_at_once(self) -> None:
        self.assertEqual(self.told([True, True]), "[failing 0/2] 0.o goes on\n")

    def test_short_runs_are_not_told(self) -> None:
        self.assertEqual(self.told([False, False]), "")
        self.assertEqual(self.told([]), "")

    def test_a_run_that_has_ended_is_told_where_another_goes_on(self) -> None:
        self.assertRegex(self.told([True, False]), r"^\[failing 1/2 \d+:\d\d left\] 1\.o\n$")


class RunsBehindTest(unittest.TestCase):
    """The replays that are run once more when all have ended: they are counted too."""

    def setUp(self) -> None:
        self.stream = Told()

    def told(self, run: Callable[[ThreadPoolExecutor], object]) -> str:
        """The first line that is written while replays are run once more."""
        with ThreadPoolExecutor() as pool, contextlib.redirect_stderr(self.stream):
            with mock.patch.object(halves, "SECONDS_SHOWN", 0.1):
                run(pool)
        return self.stream.getvalue().partition("\n")[0]

    def outcome(self, name: str, **more: object) -> Any:
        """An outcome of a recipe, and a replay that takes a while."""
        trial = SimpleNamespace(recipe=SimpleNamespace(target=name), known=frozenset({"obj"}))
        return SimpleNamespace(trial=trial, lean=True, shows_nothing=False, **more)

    def replay(self) -> Any:
        """What replays, where each replay goes on until a line is written."""
        layout = SimpleNamespace(folders_of=lambda _: (), taken_away=lambda _: ())
        ancestors = SimpleNamespace(any_before=lambda above, own: above == ("a",) and own == "b")
        return SimpleNamespace(
            in_turn=lambda *_: self.stream.wait(), layout=layout, ancestors=ancestors
        )

    def test_recipes_that_are_alike(self) -> None:
        outcomes = [self.outcome("a.o"), self.outcome("b.o")]
        told = self.told(lambda pool: Replay.with_alike(self.replay(), pool, outcomes, [[0, 1]]))
        self.assertEqual(told, "[alike 0/2] a.o goes on")

    def test_recipes_that_fail_without_folders_of_others(self) -> None:
        outcomes = [
            self.outcome("a", run="", passed=True, folders=frozenset({"obj"})),
            self.outcome("b", run=BARE, passed=False, folders=frozenset()),
        ]
        told = self.told(lambda pool: Replay.with_folders(self.replay(), pool, outcomes))
        self.assertEqual(told, "[folders 0/1] b goes on")


@traced
class TerminalTest(ProjectTest):
    """The recorder on a terminal."""

    def test_each_command_is_told(self) -> None:
        self.write(
            {
                "makefile": (
                    "b: a\n\t@cp a b; echo unseen\na:\n\techo > a; echo a long line > /dev/null\n"
                )
            }
        )
        reader, writer = pty.openpty()
        self.addCleanup(os.close, reader)
        with subprocess.Popen(
            [sys.executable, str(RECORDER), "-C", str(self.folder), "-o", str(self.book)],
            env={**os.environ, "MKCHECK": MKCHECK, "COLUMNS": "40"},
            stdout=subprocess.PIPE,
            stderr=writer,
        ) as run:
            os.close(writer)
            # It is read all the time, since a terminal takes no more than some kB unread.
            told = read_all(reader)
            output, _ = run.communicate()
        self.assertEqual((run.returncode, output), (0, b""))
        lines = [line for line in told.split(CLEAR) if line]
        lines = [line for line in lines if " goes on" not in line]
        self.assertEqual(len(lines), 4, lines)
        self.assertEqual(lines[0], "[1/2] a: echo > a; echo a long line > /"[:39])
        self.assertRegex(lines[1], r"^\[2/2 \d+:\d\d left\] b: cp a b; echo unseen$")
        # They are replayed side by side, so either may end first.
        self.assertRegex(lines[2], r"^\[replay 1/2 \d+:\d\d left\] [ab]$")
        other = "b" if lines[2].endswith("a") else "a"
        self.assertEqual(lines[3], f"[replay 2/2] {other}")


if __name__ == "__main__":
    unittest.main()
