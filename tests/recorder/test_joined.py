"""Runs of a replay that are joined show what each would show by itself; and recipes that are alike
aren't all run where writes fail.
"""

from __future__ import annotations

import json
import os
import subprocess
import sys
import unittest
from pathlib import Path

from mkcheck_tools.replay.replays import processors
from mkcheck_tools.replay.surroundings import library
from mkcheck_tools.run import places
from recorder.project import MKCHECK, ROOT, ProjectTest, compiled, traced
from waits import found_once

namespaces = unittest.skipUnless(places.namespace(), "no mount namespace is allowed")
several = unittest.skipUnless(processors() > 1, "one processor, so no replay begins early")

# Runs the recorder, and tells the runs of replays.
TOLD = r"""
import sys
from mkcheck_tools.record import program
from mkcheck_tools.replay.runs import Runner

one = Runner.one


def told(own, trial, place, run, *more, **others):
    sys.stdout.write(f"{trial.recipe.target} {run}\n")
    sys.stdout.flush()
    return one(own, trial, place, run, *more, **others)


Runner.one = told
sys.exit(program.main(sys.argv[1:]))
"""
# The same where a replay fails that waits for stamps which are later by twenty seconds.
TOLD_AT_ONCE = TOLD.replace(
    "Runner.one = told",
    """\
Runner.one = told
from mkcheck_tools.replay import stamps

pause = stamps.stopping.pause


def short(seconds):
    assert seconds < 5, "it waits for later stamps"
    pause(seconds)


stamps.LEAST = 20 * stamps.SECOND
stamps.stopping.pause = short
""",
)
# The same, which also tells the end of each run.
TOLD_TO_THE_END = TOLD.replace(
    "    return one(own, trial, place, run, *more, **others)",
    """\
    try:
        return one(own, trial, place, run, *more, **others)
    finally:
        sys.stdout.write(f"{trial.recipe.target} {run} ended\\n")""",
)
# The first where no run over outputs comes before the clock has gone on.
TOLD_LATE = TOLD.replace(
    "Runner.one = told", "Runner.one = told\nRunner.passes_ahead = lambda *_: False"
)


@traced
@namespaces
class JoinedTest(ProjectTest):
    """Recipes that would pass a run over outputs with other bytes, or the bare run, alone."""

    replays = True

    def runs(self, makefile: str, files: dict[str, str], told: str = TOLD) -> list[str]:
        """The target and the kind of each run, in their order."""
        self.write({"makefile": makefile, **files})
        words = ["-C", str(self.folder), "-o", str(self.book)]
        done = subprocess.run(
            [sys.executable, "-c", told, *words],
            env={**os.environ, "MKCHECK": MKCHECK, "PYTHONPATH": str(ROOT / "tools")},
            capture_output=True,
            text=True,
            check=False,
        )
        self.assertEqual(done.returncode, 0, done.stderr)
        return done.stdout.splitlines()

    def refused(self, makefile: str, files: dict[str, str], what: str) -> None:
        """Records, which has to be refused for the recipe of `out`."""
        self.write({"makefile": makefile, **files})
        outcome = self.record()
        self.assertTrue(outcome.lacks("out"), outcome.errors)
        self.assertIn(what, outcome.errors)

    def reads(self, makefile: str, files: dict[str, str]) -> set[str]:
        """What the recipe of `out` is recorded to read."""
        self.write({"makefile": makefile, **files})
        return set(self.recorded().own("out")[0])

    def test_a_recipe_that_looks_at_nothing_else_runs_twice(self) -> None:
        runs = self.runs("out: a\n\tcat a > out\n", {"a": "1\n"})
        self.assertEqual(sorted(runs), ["out again", "out damaged"])

    def test_later_stamps_are_not_waited_for_where_it_looks_at_nothing_else(self) -> None:
        """The project's folder may have changed just before."""
        makefile = "out: a\n\tcat a > out\na: s\n\tcat s > a\n"
        runs = self.runs(makefile, {"s": "1\n"}, TOLD_AT_ONCE)
        of_out = [one for one in runs if one.startswith("out ")]
        self.assertEqual(sorted(of_out), ["out again", "out damaged"])

    @unittest.skipIf(processors() < 3, "one replay at a time")
    def test_runs_go_on_beside_each_other(self) -> None:
        """The one begins when the recipe is recorded, the other one in another second."""
        makefile, wanted = "out: a\n\tsleep 2; cat a > out\n", ["out again", "out damaged"]

        def first() -> list[str]:
            return self.runs(makefile, {"a": "1\n"}, TOLD_TO_THE_END)[:2]

        self.assertEqual(found_once(first, wanted), wanted)

    def test_runs_are_repeated_apart_where_the_joined_one_shows_something(self) -> None:
        """It fails over other bytes, which a make doesn't meet unless it was stopped."""
        makefile = "out: a\n\tif test -e out; then grep -q 1 out || exit 1; fi; cat a > out\n"
        runs = self.runs(makefile, {"a": "1\n"})
        if runs[0] == "out again":
            # It needn't wait for the clock.
            del runs[0]
        self.assertEqual(runs, ["out damaged", "out bare", "out again", "out damaged"])

    def test_an_output_that_is_a_hard_link_to_what_it_reads(self) -> None:
        """As the commands of git are to `git`. The stamp of the one is that of the other."""
        makefile = "out: a\n\trm -f out && ln a out\na: s\n\tcp s a\n"
        runs = self.runs(makefile, {"s": "1\n"}, TOLD_LATE)
        of_out = [one for one in runs if one.startswith("out ")]
        self.assertEqual(of_out, ["out damaged", "out again"])

    def test_a_source_that_it_looks_at_only_without_its_output(self) -> None:
        makefile = "out: a\n\ttest -e out || test -e flag || exit 1; cat a > out\n"
        self.assertEqual(self.reads(makefile, {"a": "1\n", "flag": ""}), {"a", "flag"})

    def test_a_folder_that_it_lists_only_without_its_output(self) -> None:
        makefile = 'out: a\n\ttest -e out || test "$$(ls d)" = x || exit 1; cat a > out\n'
        self.assertEqual(self.reads(makefile, {"a": "1\n", "d/x": ""}), {"a", "d/x"})

    def test_a_link_that_it_looks_at_only_without_its_output(self) -> None:
        (self.folder / "l").symlink_to("nowhere")
        makefile = "out: a\n\ttest -e out || test -h l || exit 1; cat a > out\n"
        self.refused(makefile, {"a": "1\n"}, "it looks in vain for l, which was there")

    def test_a_folder_that_another_recipe_makes(self) -> None:
        makefile = (
            "all: other out\nother: a\n\tmkdir obj; cat a > other\n"
            "out: a\n\ttest -e out || test -d obj || exit 1; cat a > out\n"
        )
        self.refused(makefile, {"a": "1\n"}, "it looks in vain for obj, which was there")

    def test_an_output_in_a_folder_that_another_recipe_makes(self) -> None:
        makefile = (
            "all: other out\nother: a\n\tmkdir obj; cat a > other\n"
            "out: a\n\tcat a > obj/x && cat a > out\n"
        )
        self.refused(makefile, {"a": "1\n"}, "the folder obj is made by the recipe of other")

    def test_an_output_that_was_there_when_it_was_recorded(self) -> None:
        makefile = "out: a\n\tif test -e side; then cat a; else echo none; fi > out; cat a > side\n"
        self.refused(makefile, {"a": "1\n", "side": "0\n"}, "writes out with other contents")

    def test_the_order_of_stamps_with_other_bytes(self) -> None:
        """With the right bytes a stamp is enough, and in the order of the recording no file stays
        as it is."""
        makefile = (
            "out: a b\n\tif test a -nt b && test -e out; then touch out;"
            " else cat a b > out; fi\n"
            "a: s\n\tcp s a\nb: s\n\tsleep 0.3; cp s b\n"
        )
        self.refused(makefile, {"s": "1\n"}, "writes out with other contents")

    def test_a_read_that_it_changes(self) -> None:
        makefile = "out: a\n\tcat a > out; echo 2 > a\na: s\n\tcp s a\n"
        runs = [run for run in self.runs(makefile, {"s": "1\n"}) if run.startswith("out ")]
        self.assertEqual(runs, ["out bare", "out again", "out damaged"])


# Runs the recorder, and tells which recipes are run where writes to their target fail.
FAILING = r"""
import sys
from mkcheck_tools.record import program
from mkcheck_tools.replay.runs import Runner

leaves_half = Runner.leaves_half


def told(own, trial, place):
    sys.stdout.write(f"{trial.recipe.target}\n")
    sys.stdout.flush()
    return leaves_half(own, trial, place)


Runner.leaves_half = told
sys.exit(program.main(sys.argv[1:]))
"""


# Put in front of it: tells also that a replay has ended.
BEGUN = r"""
import sys
from mkcheck_tools.replay.replays import Replay

replay_safely = Replay.replay_safely


def ended(*words):
    outcome = replay_safely(*words)
    sys.stdout.write("replayed\n")
    sys.stdout.flush()
    return outcome


Replay.replay_safely = ended
"""


@traced
@namespaces
@compiled
class AlikeTest(ProjectTest):
    """Recipes with the same commands but for the names of their files."""

    replays = True
    SOURCES = {f"{name}.c": f"int {name};\n" * count for name, count in zip("abcd", (3, 1, 9, 5))}

    def tried(self, makefile: str, files: dict[str, str]) -> tuple[set[str], set[str]]:
        """The targets whose recipes are run where writes fail, and those that are noted for it."""
        self.write({"makefile": makefile, **files})
        words = ["-C", str(self.folder), "-o", str(self.book)]
        done = subprocess.run(
            [sys.executable, "-c", FAILING, *words],
            env={**os.environ, "MKCHECK": MKCHECK, "PYTHONPATH": str(ROOT / "tools")},
            capture_output=True,
            text=True,
            check=False,
        )
        self.assertEqual(done.returncode, 0, done.stderr)
        notes = json.loads(Path(f"{self.book}.notes").read_text())["notes"]
        noted = {note["target"] for note in notes if note["kind"] == "half-written"}
        return set(done.stdout.split()), noted

    def runs(self, makefile: str, files: dict[str, str], **more: str) -> dict[str, list[str]]:
        """The kinds of runs of each target's recipe, sorted."""
        self.write({"makefile": makefile, **files})
        words = ["-C", str(self.folder), "-o", str(self.book)]
        done = subprocess.run(
            [sys.executable, "-c", TOLD, *words],
            env={**os.environ, "MKCHECK": MKCHECK, "PYTHONPATH": str(ROOT / "tools"), **more},
            capture_output=True,
            text=True,
            check=False,
        )
        found: dict[str, list[str]] = {}
        for line in sorted(done.stdout.splitlines()):
            target, kind = line.split()
            found.setdefault(target, []).append(kind)
        return found

    def rules(self, command: str, names: str = "abcd") -> str:
        """A makefile with a recipe for each of these objects."""
        rules = (f"{name}.o: {name}.c\n\t{command.replace('%', name)}\n" for name in names)
        return f"all: {' '.join(f'{name}.o' for name in names)}\n{''.join(rules)}"

    def test_the_smallest_and_the_largest_target_are_tried(self) -> None:
        files = self.sized(a=30, b=1, c=3000, d=300)
        tried, noted = self.tried(self.rules("cc -c -o %.o %.c"), files)
        # The first one is the largest until others are recorded.
        self.assertEqual((tried - {"a.o"}, noted), ({"b.o", "c.o"}, set()))

    @several
    def test_those_between_run_once_over_their_outputs(self) -> None:
        """All but the smallest and the largest target, and those that were the largest so far."""
        runs = self.runs(self.rules("cc -c -o %.o %.c"), self.sized(a=30, b=1, c=3000, d=300))
        each = ["again", "damaged"]
        self.assertEqual(runs["d.o"], ["damaged"])
        self.assertEqual((runs["a.o"], runs["c.o"]), (each, each))
        self.assertEqual(set(runs["b.o"]), set(each))

    @several
    def test_a_dependency_file_that_is_written_from_nothing(self) -> None:
        """Who opens it so learns nothing of what was there."""
        files = self.sized(a=30, b=1, c=3000, d=300)
        runs = self.runs(self.rules("cc -c -MD -MF %.d -o %.o %.c; echo 1 > %.log"), files)
        self.assertEqual(runs["d.o"], ["damaged"])
        for command in (
            "test -e %.d; cc -c -MD -MF %.d -o %.o %.c",
            "cc -c -MD -MF %.t -o %.o %.c; mv %.t %.d",
            "cc -c -MD -MF %.d -o %.o %.c; touch %.d",
            "rm -f %.d; cc -c -MD -MF %.d -o %.o %.c",
            "cc -c -o %.o %.c; echo >> %.d",
        ):
            with self.subTest(command):
                runs = self.runs(self.rules(command), files)
                self.assertEqual(runs["d.o"][0], "again")

    def test_all_run_apart_where_another_process_asks_for_the_target(self) -> None:
        """It may do something else over an output that is whole."""
        command = "test -e %.o; cc -c -o %.o %.c"
        runs = self.runs(self.rules(command), self.sized(a=30, b=1, c=3000, d=300))
        self.assertEqual(runs["d.o"], ["again", "damaged"])

    @unittest.skipUnless(library(), "no faketime")
    def test_one_that_goes_by_the_day_runs_apart(self) -> None:
        files = self.sized(a=30, b=1, c=3000, d=300)
        files["d.c"] += "const char *day = __DATE__;\n"
        runs = self.runs(self.rules("cc -c -o %.o %.c"), files)
        self.assertIn("again", runs["d.o"])
        notes = json.loads(Path(f"{self.book}.notes").read_text())["notes"]
        self.assertIn(("d.o", "date"), [(note["target"], note["kind"]) for note in notes])

    def test_all_run_apart_where_one_keeps_a_whole_output(self) -> None:
        """An assembler that leaves an output which it knows as its own."""
        folder = self.scratch / "bin"
        folder.mkdir()
        (folder / "as").write_text(
            '#!/bin/sh\nif test -e "$1" && read -r line < "$1" && test "$line" = object; then\n'
            'exit 0\nfi\nread -r line < "$2"\nprintf "object\\n%s\\n" "$line" > "$1"\n'
        )
        (folder / "as").chmod(0o755)
        self.write(
            {
                "makefile": self.rules(f"{folder}/as %.o %.c"),
                **{f"{name}.c": f"{name * count}\n" for name, count in zip("abcd", (3, 1, 9, 5))},
            }
        )
        outcome = self.record("--fixed", f"{folder}/")
        self.assertTrue(outcome.lacks("a.o", "b.o", "c.o", "d.o"), outcome.errors)
        for name in "abcd":
            self.assertIn(f"doesn't write {name}.o anew", outcome.errors)

    def sized(self, **counts: int) -> dict[str, str]:
        """Sources of objects that are alike, each with its own number of variables."""
        return {
            f"{name}.c": "".join(f"int {name}{i} = 1;\n" for i in range(count))
            for name, count in counts.items()
        }

    def test_objects_are_alike_by_the_names_of_other_tools(self) -> None:
        """CMake's objects have the ending of their source too, and lie in folders that are named
        after it; those of Automake may have the name of their program."""
        for front, count in (("obj/%.dir/%.c", 2), ("p-%", 2), ("p-q-%", 4), ("lib.%", 4)):
            made = [front.replace("%", name) + ".o" for name in "abcd"]
            rules = "".join(
                f"{target}: {name}.c\n\tmkdir -p ./{os.path.dirname(target)}\n"
                f"\tcc -c -o {target} {name}.c\n"
                for name, target in zip("abcd", made)
            )
            tried, noted = self.tried(f"all: {' '.join(made)}\n{rules}", self.SOURCES)
            self.assertEqual((len(tried), noted), (count, set()), front)

    @several
    def test_they_do_not_wait_for_what_other_runs_show(self) -> None:
        self.write({"makefile": "a.o: a.c\n\tsleep 1; cc -c -o a.o a.c\n", "a.c": "int a;\n"})
        self.assertEqual(found_once(self.begun, "a.o\nreplayed\n"), "a.o\nreplayed\n")

    def begun(self) -> str:
        """The recipes that are run where writes fail, and the ends of replays, in their order."""
        words = ["-C", str(self.folder), "-o", str(self.book)]
        done = subprocess.run(
            [sys.executable, "-c", BEGUN + FAILING, *words],
            env={**os.environ, "MKCHECK": MKCHECK, "PYTHONPATH": str(ROOT / "tools")},
            capture_output=True,
            text=True,
            check=False,
        )
        self.assertEqual(done.returncode, 0, done.stderr)
        return done.stdout

    def test_all_are_tried_where_one_of_these_is_left_half_written(self) -> None:
        command = "cc -c -o %.o %.c || { echo > %.o; false; }"
        tried, noted = self.tried(self.rules(command), self.SOURCES)
        self.assertEqual(tried, {"a.o", "b.o", "c.o", "d.o"})
        self.assertEqual(noted, tried)

    def test_what_starts_the_compiler_may_be_another_script(self) -> None:
        plain = "cc -c -o $1.o $1.c\n"
        scripts = {f"{name}.sh": plain for name in "abcd"}
        scripts["d.sh"] = "cc -c -o $1.o $1.c || { echo > $1.o; exit 1; }\n"
        makefile = "all: a.o b.o c.o d.o\n" + "".join(
            f"{name}.o: {name}.c {name}.sh\n\tsh {name}.sh {name}\n" for name in "abcd"
        )
        tried, noted = self.tried(makefile, {**self.SOURCES, **scripts})
        self.assertEqual((tried, noted), ({"a.o", "b.o", "c.o", "d.o"}, {"d.o"}))

    def test_what_another_program_writes_is_tried(self) -> None:
        tried, noted = self.tried(self.rules("cc -c -o %.o %.c; strip -g %.o"), self.SOURCES)
        self.assertEqual(tried, {"a.o", "b.o", "c.o", "d.o"})
        tried, noted = self.tried(self.rules("cat %.c > %.o"), self.SOURCES)
        self.assertEqual((tried, noted), ({"a.o", "b.o", "c.o", "d.o"},) * 2)

    def test_other_options_are_other_recipes(self) -> None:
        makefile = self.rules("cc -c -o %.o %.c", "ab") + "".join(
            f"{name}.o: {name}.c\n\tcc -c -D{name}x -o {name}.o {name}.c\n" for name in "cd"
        )
        makefile = makefile.replace("all: a.o b.o", "all: a.o b.o c.o d.o")
        tried, _ = self.tried(makefile, self.SOURCES)
        self.assertEqual(tried, {"a.o", "b.o", "c.o", "d.o"})


if __name__ == "__main__":
    unittest.main()
