"""The replay: what it refuses, what it lets pass, and what it says."""

from __future__ import annotations

import hashlib
import math
import os
import shutil
import subprocess
import sys
import tempfile
import time
import unittest
from dataclasses import replace
from pathlib import Path
from unittest import mock

from mkcheck_tools.answers.graphs import Ancestors, Recipe
from mkcheck_tools.replay import runs, stamps
from mkcheck_tools.replay.differences import Difference, lines_that_differ
from mkcheck_tools.replay.orders import DAY
from mkcheck_tools.replay.replays import Bench, Replay
from mkcheck_tools.replay.runs import AGAIN, BARE, DAMAGED, ORDERED, Outcome
from mkcheck_tools.replay.stamps import LEAST, SECOND, made_since, with_other_stamps
from mkcheck_tools.replay.versions import (
    Store,
    Version,
    copy_bytes,
    digest_of_bytes,
    version_of,
)
from mkcheck_tools.replay.worlds import Effects, Trial, World
from mkcheck_tools.run import places, stopping
from mkcheck_tools.run.clocks import file_time
from mkcheck_tools.run.paths import Name, RealPath, SeenPath, real_in
from mkcheck_tools.run.places import Place
from recorder.project import Environment
from recorder.project import Outcome as Recording
from recorder.project import ProjectTest, traced

namespaces = unittest.skipUnless(places.namespace(), "no mount namespace is allowed")

FRONTS = {
    BARE: "in a folder that holds only what it is recorded to read",
    AGAIN: "where its own outputs are already there",
    DAMAGED: "where its outputs are there with other bytes and later stamps",
    ORDERED: "where the files that it reads have their stamps in another order",
}


CONTENTS = "writes out with other contents"
MEMORY = "/dev/shm"


def lists_by_age(above: str) -> bool:
    """Whether a file system lists files in the order in which they were made, or the reverse of it,
    and programs may start there.
    """
    if not os.access(above, os.W_OK) or os.statvfs(above).f_flag & os.ST_NOEXEC:
        return False
    found = []
    for names in ("mczak", "kazcm"):
        with tempfile.TemporaryDirectory(dir=above) as folder:
            for name in names:
                Path(folder, name).touch()
            found.append(os.listdir(folder))
    return found[0] == found[1][::-1]


class ReplayTest(ProjectTest):
    """A project whose recipes are replayed."""

    replays = True

    def refused(
        self, makefile: str, what: str, run: str, files: dict[str, str] | None = None
    ) -> str:
        """Records, which has to be refused for the recipe of `out`; returns all that was said."""
        self.write({"makefile": makefile, **(files or {})})
        outcome = self.record()
        self.assertTrue(outcome.is_refused, outcome.errors)
        front = f"mkcheck-record: the recipe of out, run {FRONTS[run]}, {what}: "
        lines = [
            line
            for line in outcome.errors.splitlines()
            if not line.startswith("mkcheck-record: warning")
        ]
        self.assertTrue(lines[0].startswith(front), outcome.errors)
        self.assertIn("or give --trust out to take the recipe as it is", lines[0])
        self.assertTrue(all(line.startswith("\t") for line in lines[1:]), outcome.errors)
        trusting = self.recorded("--trust", "out")
        self.assertEqual(
            [line for line in trusting.errors.splitlines() if "warning" not in line],
            [
                "mkcheck-record: trusted, and not shown to be right: the recipe of out, run"
                f" {FRONTS[run]}, {what}"
            ],
        )
        return outcome.errors

    def passes(self, makefile: str, files: dict[str, str] | None = None, *words: str) -> None:
        """Records, where the replay has to find nothing."""
        self.write({"makefile": makefile, **(files or {})})
        outcome = self.recorded(*words)
        self.assertEqual(
            [line for line in outcome.errors.splitlines() if "warning" not in line], []
        )


@traced
@namespaces
class BareTest(ReplayTest):
    """What differs in a folder that holds only the recorded reads."""

    def test_the_time(self) -> None:
        said = self.refused("out:\n\tdate +%s > out\n", "writes out with other contents", BARE)
        was, now = (int(line.split('"')[1]) for line in said.splitlines()[1:3])
        self.assertLess(was, now)

    def test_an_output_that_is_one_file_with_a_source(self) -> None:
        makefile = "out: a\n\tln a out; echo 2 >> out\n"
        what = "changes a, which it wasn't recorded to write"
        said = self.refused(makefile, what, BARE, {"a": "1\n"})
        self.assertIn("what the recipe writes to out it writes to a, too. Let it make a copy", said)

    def test_a_process_number(self) -> None:
        self.refused("out:\n\techo $$$$ > out\n", "writes out with other contents", BARE)

    def test_a_random_name(self) -> None:
        makefile = "out:\n\techo > out; mktemp -p . t.XXXXXXXX > /dev/null\n"
        self.write({"makefile": makefile})
        outcome = self.record()
        self.assertEqual(outcome.status, 1)
        self.assertRegex(outcome.errors, r"the recipe of out, run .*, doesn't write t\.\w+: ")
        self.assertRegex(
            outcome.errors, r"it leaves t\.\w+, which it didn't leave when it was recorded"
        )

    def test_a_folder_of_a_random_name(self) -> None:
        self.write({"makefile": "out:\n\techo > out; mktemp -d -p . t.XXXXXXXX > /dev/null\n"})
        outcome = self.record()
        self.assertEqual(outcome.status, 1)
        self.assertRegex(
            outcome.errors, r"doesn't make the folder t\.\w+, as it did when it was recorded"
        )

    def test_a_link_that_is_only_looked_at(self) -> None:
        """No footprint can name it."""
        (self.folder / "l").symlink_to("nowhere")
        makefile = "out:\n\tif test -h l; then echo 1; else echo 2; fi > out\n"
        said = self.refused(makefile, "writes out with other contents", BARE)
        self.assertIn("contents: it looks in vain for l, which was there when it was", said)
        self.assertIn('\tline 1 was "1"\n\tline 1 is  "2"\n', said)

    def test_nothing_is_missing(self) -> None:
        said = self.refused("out: a\n\tcat a; date +%N > out\n", CONTENTS, BARE, {"a": ""})
        self.assertIn(
            f"{CONTENTS}: nothing for which it looked was missing in that run, so it depends on"
            " something else, such as the time, a random name, a process number, or the size of a"
            " folder or the order of the names in it. Take that out of the recipe, or",
            said,
        )

    def test_a_failure_shows_the_output(self) -> None:
        (self.folder / "l").symlink_to("nowhere")
        said = self.refused("out:\n\techo hello; test -h l && echo > out\n", "fails", BARE)
        self.assertIn("fails: it looks in vain for l, which was there when it was recorded.", said)
        self.assertTrue(
            said.endswith("\n\tstatus 1, at echo hello; test -h l && echo > out\n\thello\n"), said
        )

    def test_a_recipe_that_writes_nothing(self) -> None:
        (self.folder / "l").symlink_to("nowhere")
        self.refused(".PHONY: out\nout:\n\ttest -h l\n", "fails", BARE)
        self.passes(".PHONY: out\nout:\n\tcat a\n", {"a": ""})

    def test_a_folder_that_another_recipe_makes(self) -> None:
        makefile = (
            "all: dirs out\ndirs:\n\tmkdir obj; touch dirs\nout:\n\techo > obj/x && echo > out\n"
        )
        said = self.refused(makefile, "fails", BARE)
        self.assertIn(
            (
                "\tthe folder obj is made by the recipe of dirs, and needn't be there when"
                " this one runs: let this recipe make it too (mkdir -p obj)\n"
            ),
            said,
        )

    def test_modules_that_python_compiles(self) -> None:
        """Of a compiled module Python looks at the text, and doesn't read it."""
        python = os.path.realpath(sys.executable)
        script = "import one\nopen('{}', 'w').close()\n"
        rules = "all: a b\na: d/a.py d/one.py\n\t@P@ d/a.py\nb: d/b.py d/one.py\n\t@P@ d/b.py\n"
        self.write({f"d/{name}.py": script.format(name) for name in "ab"})
        self.write({"makefile": rules.replace("@P@", python), "d/one.py": "x = 1\n"})
        words = ("--fixed", os.path.dirname(os.path.dirname(python)))
        environment = {"PYTHONDONTWRITEBYTECODE": None, "PYTHONPYCACHEPREFIX": None}
        outcome = self.record(*words, environment=environment)
        self.assertTrue(outcome.lacks("a"), outcome)
        said = (
            " anew: Python keeps compiled modules there, and then only looks at their texts. Remove"
            " that folder, and write python3 -B in the recipes, or give --trust a to take the"
            " recipe as it is\n"
        )
        self.assertEqual(outcome.errors.count(said), 1, outcome.errors)
        warning = (
            "the recipes of a, b use modules that Python keeps compiled in d/__pycache__, and so"
            " may not read their texts: remove that folder, and write python3 -B in the recipes"
        )
        for more in (("--no-replay",), ("--trust", "a", "--trust", "b")):
            outcome = self.recorded(*words, *more, environment=environment)
            self.assertIn(warning, outcome.warnings())
        self.write({"makefile": rules.replace("@P@", f"{python} -B")})
        outcome = self.record(*words, environment=environment)
        self.assertEqual(outcome.status, 0, outcome.errors)
        self.assertEqual(outcome.own("b")[0] & {"d/b.py", "d/one.py"}, {"d/b.py", "d/one.py"})
        outcome = self.recorded(*words, "--no-replay", environment=environment)
        self.assertNotIn("__pycache__", outcome.errors)

    def test_a_file_that_the_recipe_takes_away(self) -> None:
        makefile = "a:\n\techo 1 > x; echo > a\n"
        self.passes("out: a\n\tcat x > out; rm x\n" + makefile)
        said = self.refused("out: a\n\trm x && echo > out\n" + makefile, "fails", BARE)
        what = "it takes away x, which it neither made nor read: let it do without (rm -f x)"
        self.assertIn(f"\t{what}\n", said)

    @unittest.skipUnless(shutil.which("gzip") and shutil.which("tar"), "no gzip or no tar")
    def test_stamps_of_made_files(self) -> None:
        """They are others in each build, and so is what holds them."""
        for way in ("gzip -c a > out", "tar cf out s a", "stat -c %Y a > out"):
            self.write({"makefile": f"out: s a\n\t{way}\na: s\n\tcat s > a\n", "s": "1\n"})
            outcome = self.record()
            self.assertTrue(outcome.lacks("out"), way)
            self.assertIn(
                f"the recipe of out, run {FRONTS[BARE]}, writes out with other contents: it uses"
                " the time stamp of a file that a recipe makes, which is another one in each build,"
                " and here too. Let it leave stamps out (gzip -n, tar --mtime=@0, ar D), or give"
                " --trust out",
                outcome.errors,
            )

    def test_an_ignored_failure_is_none(self) -> None:
        self.passes("out: a\n\t-cat a b > out\n\t-@false\n", {"a": ""})


@traced
@namespaces
class FailingTest(ReplayTest):
    """What a recipe leaves where writes to its target fail."""

    def halves(self, rule: str) -> bool | None:
        """Whether the recipe of `out` leaves it half-written, where no other run finds anything."""
        self.write({"makefile": f"{rule}\n", "a": "1\n"})
        self.recorded()
        store = Store(RealPath(str(self.scratch / "store")))
        world = World.of(RealPath(str(self.folder)), RealPath(str(self.copy())), store)
        recipe = Recipe("out", [rule.partition("\t")[2]])
        place = Path(world.place)
        subprocess.run(recipe.commands[0].words, cwd=place, check=True)
        trial = world.took(recipe, Effects((Name("a"),), (Name("out"),)), time.time())
        seen, scratch = SeenPath(str(self.folder)), RealPath(str(self.scratch / "runs"))
        replay = Replay(world, seen, scratch, os.environ, Ancestors())
        (outcome,) = replay.run([trial]).outcomes
        self.assertTrue(outcome.passed, outcome)
        return outcome.half

    def copy(self) -> Path:
        """A copy of the project."""
        return Path(shutil.copytree(self.folder, tempfile.mkdtemp(dir=self.scratch) + "/copy"))

    def test_a_target_that_is_written_by_its_own_name(self) -> None:
        for way in ("sort a > out", "cp a out", "cat a | tee out > t; rm t"):
            self.assertTrue(self.halves(f"out: a\n\t{way}"), way)

    def test_a_target_that_is_renamed_or_removed(self) -> None:
        for way in (
            "sort a > out.new && mv out.new out",
            "sort a > out || { rm -f out; false; }",
            "cp a out || rm -f out",
        ):
            self.assertFalse(self.halves(f"out: a\n\t{way}"), way)


@traced
@namespaces
class AgainTest(ReplayTest):
    """What differs where the recipe's own outputs are there."""

    def test_appending(self) -> None:
        self.refused(
            "out: a\n\tcat a >> out\n", "writes out with other contents", AGAIN, {"a": "1\n"}
        )

    def test_a_file_that_keeps_its_end(self) -> None:
        makefile = (
            "out: a\n\tdd if=a of=out conv=notrunc 2>/dev/null; dd if=a of=out conv=notrunc"
            " oflag=append 2>/dev/null\n"
        )
        self.refused(makefile, "writes out with other contents", AGAIN, {"a": "12345"})

    def test_a_mode(self) -> None:
        makefile = "out:\n\tif test -f out; then m=600; else m=640; fi; echo > out; chmod $$m out\n"
        what = "gives out the mode 600, which was 640 when it was recorded"
        self.refused(makefile, what, AGAIN)

    def test_a_mode_of_a_folder(self) -> None:
        makefile = "out:\n\tif test -f out; then m=700; else m=750; fi; echo > out; chmod $$m d\n"
        what = "gives the folder d the mode 700, which was 750 when it was recorded"
        self.write({"d/x": ""})
        (self.folder / "d").chmod(0o755)
        self.refused(makefile, what, AGAIN)

    def test_a_kind(self) -> None:
        makefile = "out: a\n\tif test -f out; then ln -sf a out; else cp a out; fi\n"
        self.refused(
            makefile,
            "leaves out as a link, where it was a file when it was recorded",
            AGAIN,
            {"a": ""},
        )

    def test_another_link(self) -> None:
        makefile = "out:\n\tif test -L out; then ln -sfn b out; else ln -s a out; fi\n"
        what = "makes out a link to b, which led to a when it was recorded"
        self.refused(makefile, what, AGAIN)

    def test_an_output_that_is_left_out(self) -> None:
        makefile = "out:\n\tif test -f out; then rm -f log; else echo > log; fi; echo > out\n"
        self.refused(makefile, "doesn't write log", AGAIN)

    def test_a_failure(self) -> None:
        self.refused("out: a\n\tln -s a out\n", "fails", AGAIN, {"a": ""})

    def test_a_failure_of_what_is_made_once(self) -> None:
        self.write({"makefile": "out:\n\tmkdir d && echo > out\n"})
        (warning,) = self.recorded().warnings()
        self.assertTrue(
            warning.startswith(f"the recipe of out, run {FRONTS[AGAIN]}, fails: "), warning
        )

    def test_copy_if_changed(self) -> None:
        makefile = "out: a\n\tcp a new; cmp -s new out || cp new out; rm new\n"
        self.refused(makefile, "doesn't write out anew", AGAIN, {"a": "1"})
        makefile = "out: a\n\tcp a new; cmp -s new out || mv new out\n"
        what = "leaves new, which it didn't leave when it was recorded"
        self.refused(makefile, what, AGAIN)

    @unittest.skipUnless(shutil.which("make"), "no make")
    def test_a_make_in_a_subfolder(self) -> None:
        makefile = "out: sub/s\n\tcd sub && $(MAKE) x > /dev/null; cp x ../out\n"
        self.write({"makefile": makefile, "sub/makefile": "x: s\n\tcp s x\n", "sub/s": "1\n"})
        outcome = self.record("--opaque", "out")
        self.assertEqual((outcome.status, outcome.book), (1, None))
        front = f"the recipe of out, run {FRONTS[AGAIN]}, doesn't write sub/x anew: "
        self.assertIn(f"mkcheck-record: {front}", outcome.errors)
        self.assertEqual(self.record("--opaque", "out", "--trust", "out").status, 0)

    def test_newer_than(self) -> None:
        makefile = "out: a\n\ttest out -nt a || cp a out\n"
        self.refused(makefile, "doesn't write out anew", AGAIN, {"a": "1"})

    def test_a_second_write_in_place_is_seen_as_one(self) -> None:
        names = [f"o{number}" for number in range(8)]
        rules = "".join(f"{name}:\n\techo > {name}\n" for name in names)
        self.passes(f"all: {' '.join(names)}\n{rules}")


@traced
@namespaces
class OrderedTest(ReplayTest):
    """What differs where the stamps of reads come in another order."""

    rules = "a: x\n\tcp x a\nb: y\n\tcp y b\n"

    def test_made_files(self) -> None:
        files = {"x": "1\n", "y": "2\n"}
        for way in (
            "cat a b > out; if test a -nt b; then echo newer; fi >> out",
            "cat a b > l; ls -t a b > out; rm l",
            "cat a b > out; find a b -newer a >> out",
        ):
            makefile = f"out: a b\n\t{way}\n{self.rules}"
            said = self.refused(makefile, "writes out with other contents", ORDERED, files)
            self.assertIn("it compares stamps of files that recipes make, whose order is", said)

    def test_made_files_and_sources(self) -> None:
        makefile = "out: x b\n\tcat x b > out; test b -nt x\nb: y\n\tcp y b\n"
        self.refused(makefile, "fails", ORDERED, {"x": "1\n", "y": "2\n"})

    @unittest.skipUnless(shutil.which("tar"), "no tar")
    def test_stamps_of_sources_that_are_stored(self) -> None:
        """Each edit of a source gives another one, and each clean build finds the same one."""
        files = {"x": "1\n", "y": "2\n"}
        stored = "tar cf out x; cat a b >> out"
        self.passes(f"out: x a b\n\t{stored}\n{self.rules}", files)
        makefile = f"out: x a b\n\t{stored}; test b -nt a\n{self.rules}"
        self.refused(makefile, "fails", ORDERED)

    def test_files_that_are_made_in_one_order(self) -> None:
        self.passes(
            "all: out p q\nout: x a b\n\tcat x a b > out; test b -nt a; test a -nt x\n"
            "a: x\n\tcp x a\nb: a\n\tcp a b\n"
            # Sources have the same order in each build, and a stamp that is kept is its source's.
            "p: x y a\n\tcat x y a > p; test y -nt x\n"
            "q: x y c\n\tcat x y c > q; test c -nt x; test ! c -nt y\nc: y\n\tcp -p y c\n",
            {"x": "1\n", "y": "2\n"},
        )


class OldSourcesTest(OrderedTest):
    """The same of sources that are older: made files get earlier stamps, and not later ones."""

    def write(self, files: dict[str, str]) -> None:
        super().write(files)
        for path in (self.folder, *self.folder.rglob("*")):
            stamp = path.stat().st_mtime_ns - DAY
            os.utime(path, ns=(stamp, stamp))

    @unittest.skipUnless(shutil.which("gzip"), "no gzip")
    def test_stamps_that_are_stored(self) -> None:
        makefile = "out: s a\n\tgzip -c a > out\na: s\n\tcat s > a\n"
        said = self.refused(makefile, "writes out with other contents", BARE, {"s": "1\n"})
        self.assertIn("it uses the time stamp of a file that a recipe makes", said)


class StampsTest(unittest.TestCase):
    """Other stamps of files that recipes make."""

    def setUp(self) -> None:
        self.scratch = Path(tempfile.mkdtemp(prefix="recorder-test-")).resolve()
        self.addCleanup(shutil.rmtree, self.scratch)

    def moved(self, source: int, outside: int = DAY, folder: int = DAY) -> int:
        """By how many nanoseconds a made file's stamp is moved, where a source, a file elsewhere
        and a folder were changed so long before the recording."""
        project, place = self.scratch / "project", self.scratch / "place"
        (project / "d").mkdir(parents=True)
        (project / "s").write_text("1\n")
        (self.scratch / "elsewhere").write_text("1\n")
        shutil.copytree(project, place)
        now = time.time_ns() - 60 * SECOND
        for path, age in ((place / "s", source), (self.scratch / "elsewhere", outside)):
            os.utime(path, ns=(now - age, now - age))
        for path in (place / "d", place):
            os.utime(path, ns=(now - folder, now - folder))
        store = Store(RealPath(str(self.scratch / "store")))
        world = World.of(RealPath(str(project)), RealPath(str(place)), store)
        world.begun = now / SECOND
        s, a, out = Name("s"), Name("a"), Name("out")
        (place / "a").write_text("1\n")
        os.utime(place / "a", ns=(now, now))
        world.took(Recipe("a", ["cp s a"]), Effects((s,), (a,)), time.time())
        (place / "out").write_text("1\n")
        effects = Effects((s, a), (out,), looked=(Name("../elsewhere"),))
        trial = world.took(Recipe("out", ["cp a out"]), effects, time.time())
        found = self.at_once(world, trial, now)
        self.assertIs(with_other_stamps(world, found), found)
        self.assertEqual(set(made_since(world, found, time.time_ns())), {"a"})
        self.assertEqual(found.after[a], found.before[a])
        shutil.rmtree(project)
        shutil.rmtree(place)
        return found.before[a].stamp - trial.before[a].stamp

    def at_once(self, world: World, trial: Trial, now: int) -> Trial:
        """The recipe with other stamps, by a clock that goes on only where it is waited for."""
        clock = [now]

        def pause(seconds: float) -> None:
            clock[0] += math.ceil(seconds * SECOND)

        with mock.patch.object(stamps, "latest", lambda: clock[0]):
            with mock.patch.object(stopping, "pause", pause):
                return with_other_stamps(world, trial)

    def test_a_clock_of_files_that_is_late(self) -> None:
        """As on a busy machine. By the other clock a stamp of a moment ago would be newer than that
        of what is written now, and what is edited now would be older than the recording."""
        late = time.time_ns() - 5 * SECOND
        folder, store = RealPath(str(self.scratch)), Store(RealPath(str(self.scratch / "store")))
        with mock.patch("time.clock_gettime_ns", return_value=late):
            world = World.of(folder, folder, store)
            trial = world.took(Recipe("a", []), Effects((), ()), time.time())
            self.assertLess(stamps.latest(), late)
            self.assertGreater(runs.seconds_left(trial), 4)
            self.assertLessEqual(world.begun, late / SECOND)

    def test_what_is_written_now_is_no_older(self) -> None:
        for _ in range(100):
            now = file_time()
            (self.scratch / "x").write_text("1\n")
            self.assertGreaterEqual((self.scratch / "x").stat().st_mtime_ns, now)

    def test_they_are_earlier_where_nothing_is_in_between(self) -> None:
        self.assertEqual(self.moved(DAY), -LEAST)

    def test_they_are_later_where_something_is(self) -> None:
        second = LEAST // 2
        for ages in ((second,), (DAY, second), (DAY, DAY, second)):
            self.assertGreaterEqual(self.moved(*ages), LEAST, ages)


@traced
@namespaces
@unittest.skipUnless(lists_by_age(MEMORY), f"{MEMORY} lists files by their names, or isn't there")
class ListedTest(ReplayTest):
    """Many file systems list a folder in the order in which its files were made."""

    listing = "cat d/a d/b > out; find d -type f > l; cat l >> out; rm l"
    rules = "d/a: x\n\tcp x d/a\nd/b: y\n\tcp y d/b\n"
    files = {"x": "1\n", "y": "2\n"}

    def setUp(self) -> None:
        super().setUp()
        (self.folder / "d").mkdir()
        self.room = tempfile.mkdtemp(prefix="recorder-test-", dir=MEMORY)
        self.addCleanup(shutil.rmtree, self.room)

    def record_plainly(self, *words: str, environment: Environment | None = None) -> Recording:
        return super().record_plainly(*words, environment={"TMPDIR": self.room})

    def test_files_of_two_recipes(self) -> None:
        makefile = f"out: d/a d/b\n\t{self.listing}\n{self.rules}"
        said = self.refused(makefile, "writes out with other contents", BARE, self.files)
        self.assertIn(
            "\n\tit lists d, whose files come in another order in each build: let it sort their"
            " names\n",
            said,
        )
        self.passes(makefile.replace("-type f >", "-type f | sort >"))

    def test_files_that_are_made_in_one_order(self) -> None:
        """One needs the other, or one recipe makes both."""
        first = f"out: d/a d/b\n\t{self.listing}\n{self.rules}".replace("d/b: y", "d/b: y d/a")
        second = f"out: d/b x\n\t{self.listing}\nd/b: y\n\tcp y d/a; cp y d/b\n"
        for makefile in (first, second):
            self.write({"makefile": makefile, **self.files})
            (warning,) = self.recorded().warnings()
            told = (
                "run where folders list their names the other way round, as on another file system"
            )
            self.assertIn(told, warning)

    def test_folders_of_two_recipes(self) -> None:
        listing = "cat d/p/a d/q/b > out; find d -type d > l; cat l >> out; rm l"
        rules = "d/p/a: x\n\tmkdir -p d/p; cp x d/p/a\n"
        rules += "d/q/b: y\n\tmkdir -p d/q; cp y d/q/b\n"
        makefile = f"out: d/p/a d/q/b\n\t{listing}\n{rules}"
        self.refused(makefile, "writes out with other contents", BARE, self.files)
        self.passes(makefile.replace("-type d >", "-type d | sort >"))


@traced
@namespaces
class DamagedTest(ReplayTest):
    """What differs where the outputs hold other bytes."""

    def test_an_output_that_decides(self) -> None:
        makefile = (
            "out: a\n\tif grep -s put out > /dev/null; then echo 2 > out; else cp a out; fi\n"
        )
        self.refused(makefile, "writes out with other contents", DAMAGED, {"a": "1"})

    def test_a_failure_is_a_warning(self) -> None:
        self.write(
            {"makefile": "out: a\n\ttest ! -f out || cmp out a && cat a > out\n", "a": "1\n"}
        )
        (warning,) = self.recorded().warnings()
        self.assertTrue(
            warning.startswith(f"the recipe of out, run {FRONTS[DAMAGED]}, fails: "), warning
        )

    @unittest.skipUnless(shutil.which("ar"), "no ar")
    def test_an_archive(self) -> None:
        self.write({"makefile": "out: a\n\tar rc out a\n", "a": "1\n"})
        (warning,) = self.recorded().warnings()
        front = (
            f"the recipe of out, run {FRONTS[DAMAGED]}, fails: after a make that was stopped, its"
            " outputs may have to be removed by hand; begin the recipe with rm -f $@ ("
        )
        self.assertTrue(warning.startswith(front), warning)
        self.write({"makefile": "out: a\n\trm -f $@\n\tar rc $@ a\n"})
        self.assertEqual(self.recorded().warnings(), [])


@traced
@namespaces
class TrustTest(unittest.TestCase):
    """Why a trusted recipe passes over its output, or lacks something, nobody asks: so no run is
    made to find it."""

    def calls(self, trusted: set[str], outcome: Outcome) -> int:
        """How often the runs of a recipe are made that show this each time."""
        replay = mock.Mock(
            spec=Replay, trusted=trusted, ahead=None, runner=None, late={}, lean=False
        )
        replay.is_trusted = lambda trial: trial.recipe.target in trusted
        replay.is_alike = lambda trial: False
        with mock.patch.object(Bench, "tried", return_value=outcome) as tried:
            Replay.tried(replay, outcome.trial, mock.Mock(), frozenset())
        return tried.call_count

    def test_a_recipe_that_passes_over_its_output(self) -> None:
        trial = mock.Mock(recipe=Recipe("out", [], strict=False))
        kept = Difference(Name("out"), "doesn't write out anew", (), True)
        passing_over = Outcome(trial, AGAIN, differences=(kept,))
        self.assertEqual(self.calls({"out"}, passing_over), 1)
        self.assertEqual(self.calls(set(), passing_over), 2)
        other = Outcome(trial, AGAIN, differences=(kept, replace(kept, kept=False)))
        self.assertEqual(self.calls({"out"}, other), 2)

    def test_nothing_is_tried_ahead(self) -> None:
        trial = mock.Mock(recipe=Recipe("out", [], strict=False))
        replay = mock.Mock(spec=Replay, trusted={"out"}, layout=mock.Mock())
        replay.is_trusted = lambda trial: True
        found = Replay.look_ahead(replay, trial, 0)
        self.assertIsNone(found.passed)
        replay.in_memory.assert_not_called()


class PassTest(ReplayTest):
    """What a recipe may do."""

    def test_reads_are_as_they_were(self) -> None:
        makefile = (
            "all: a b c d\na:\n\techo 1 > x; echo > a\nb: a\n\tcp x b\n"
            "c: b\n\techo 2 > x; cp x c\nd: c\n\techo 3 >> x; cp x d\n"
        )
        self.passes(makefile)

    def test_a_source_that_is_written_later(self) -> None:
        self.passes("all: a b\na:\n\tcp s a\nb: a\n\techo 2 >> s; cp s b\n", {"s": "1\n"})

    @unittest.skipUnless(shutil.which("gzip") and shutil.which("tar"), "no gzip or no tar")
    def test_stamps(self) -> None:
        """What compares contents, and what asks which file is newer, of sources and made files."""
        older = "test s -ot a && test a -ot b && test b -nt s && test a -ot c && test a -nt old"
        ways = {
            "o1": f"cat s a b c old > o1 && {older} && test c -ot o1",
            "o2": "cp -p a o2; touch -r a o2",
            "o3": "gzip -nc a > o3; tar --mtime=@0 -cf - a >> o3; install -m 644 a o4; rm o4",
            "o5": "gzip -c s > o5; tar cf - s old >> o5; test ! -f a || find . -newer s -name b",
            "o6": "gzip -c old > o6; ar rcD o6.a b; cat o6.a >> o6; rm o6.a",
        }
        rules = "".join(f"{name}: s a b c old\n\t{way}\n" for name, way in ways.items())
        self.write({"s": "1\n"})
        os.utime(self.folder / "s", (1_000_000_000, 1_000_000_000))
        self.passes(
            f"all: {' '.join(ways)}\n{rules}old: s\n\tcp -p s old\na: s\n\tcat s > a\n"
            "b: a\n\tcp a b\nc: b\n\tsleep 0.3; cp b c; touch c\n"
        )

    def test_the_path_of_the_project(self) -> None:
        self.passes(
            "out: a\n\tpwd > out; cat $$(pwd)/a >> out.new; pwd -P >> out.new; mv out.new out\n",
            {"a": "1"},
        )

    def test_given_folders_and_links(self) -> None:
        self.write({"d/e/x": "", "f/keep": "", "a": "1\n"})
        (self.folder / "l").symlink_to("d/e")
        (self.folder / "empty").mkdir()
        self.passes("out: a\n\tcd l && cat ../../a > ../../f/y\n\ttest -d empty; cp f/y out\n")

    def test_folders_that_recipes_before_make(self) -> None:
        self.passes(
            "out: dirs\n\techo > obj/deep/x; echo > out\ndirs:\n\tmkdir -p obj/deep; touch dirs\n"
        )

    def test_folders_that_two_recipes_make(self) -> None:
        self.passes(
            "all: one two out\none:\n\tmkdir -p obj; echo > one\ntwo:\n\tmkdir -p obj; echo > two\n"
            "out: two\n\techo > obj/x; echo > out\n"
        )

    def test_a_pipe_that_is_left(self) -> None:
        self.passes("out:\n\trm -f pipe; mkfifo pipe; echo > out\n")

    def test_a_target_that_is_a_pipe_or_a_socket(self) -> None:
        binding = "import socket; socket.socket(socket.AF_UNIX).bind('out')"
        for command, what in (
            ("rm -f out; mkfifo out", "a pipe"),
            (f'rm -f out; {sys.executable} -c "{binding}"', "a socket"),
        ):
            self.write({"makefile": f"out: a\n\t{command}\n", "a": ""})
            outcome = self.record()
            self.assertEqual(outcome.status, 1)
            self.assertIn(f"the recipe of out leaves {what} as out, which holds", outcome.errors)

    def test_files_that_are_only_touched(self) -> None:
        self.passes("out: a\n\ttest -s a || cp b out\na:\n\ttouch a\n", {"b": ""})

    def test_names_that_are_one_file(self) -> None:
        self.write({"a": "1\n"})
        os.link(self.folder / "a", self.folder / "b")
        self.passes(
            "out: a b\n\tcat a b > /dev/null; if test a -ef b; then echo 1; else echo 2; fi > out\n"
        )

    def test_modes_of_what_is_read(self) -> None:
        self.passes(
            "out: tool s\n\t./tool; ./s > out\ntool:\n\techo 'echo' > tool; chmod 750 tool\n",
            {"s": "#!/bin/sh\necho 1\n"},
        )

    def test_modes_of_folders(self) -> None:
        self.write({"d/x": "1\n"})
        (self.folder / "d").chmod(0o755)
        makefile = (
            "all: early closed late\n"
            "early: d/x\n\tls -ld d | cut -c1-10 > early; cat d/x >> early\n"
            "closed: early made/x\n\tchmod 500 d; chmod 750 made; echo > closed\n"
            "made/x:\n\tmkdir -m 711 made; echo > made/x\n"
            "late: closed d/x\n\tls -ld made | cut -c1-10 > late; cat d/x made/x >> late\n"
        )
        self.write({"makefile": makefile})
        outcome = self.recorded()
        self.assertEqual(outcome.own("closed")[1], {"closed", "d", "made"}, outcome.errors)
        self.assertEqual(outcome.own("late")[0], {"d", "d/x", "made", "made/x"})

    @unittest.skipUnless(shutil.which("tar"), "no tar")
    def test_an_archive_of_a_folder(self) -> None:
        self.write({"d/e/x": "1\n", "d/y": "2\n"})
        (self.folder / "d" / "empty").mkdir(0o750)
        for name in ("d/e/x", "d/y", "d/empty", "d/e", "d"):
            os.utime(self.folder / name, (1_000_000_000, 1_000_000_000))
        # Each file system has an order of its own for the names in a folder.
        self.passes("out: d/e/x d/y\n\ttar --sort=name -cf out d\n")

    def test_links_that_recipes_make(self) -> None:
        makefile = (
            "all: text over copied moved run\n"
            "l: a\n\tln -sf a l\n"
            "d: real/x\n\tln -sfn real d\n"
            "real/x:\n\tmkdir -p real; echo 1 > real/x\n"
            "text: l\n\treadlink l > text\n"
            "over: d\n\tcd d && cat x > ../over\n"
            "copied: l\n\tcp -P l copied.new; mv copied.new copied\n"
            "moved: d\n\tcat d/x > moved; ln -sf d/x other\n"
            "i: interpreter\n\tcp interpreter i; chmod +x i\n"
            "run: i s\n\t./s > run\n"
        )
        files = {"a": "1\n", "interpreter": "#!/bin/sh\necho 2\n", "s": "#!./i\n"}
        self.passes(makefile, files)

    def test_dates(self) -> None:
        makefile = "all: a b c d\na: s\n\tcp s a\nb: s\n\tcp s b; date +%F > c.new; rm c.new\n"
        makefile += "c:\n\tdate '+today: %F' > c\nd:\n\tdate '+%b %e %Y.' > d\n"
        self.write({"makefile": makefile, "s": time.strftime("%Y-%m-%d\n")})
        first, second = self.recorded().warnings()
        self.assertRegex(first, r"^the recipe of c writes today's date \([-\d]+\) into c: on ")
        self.assertRegex(second, r"^the recipe of d writes today's date \([ \w]+\) into d: on ")

    def test_in_place(self) -> None:
        self.passes("b: a\n\tcp a b\na:\n\techo 1 > a\n", {}, "--in-place")
        self.assertEqual((self.folder / "b").read_text(), "1\n")

    def test_without_replay(self) -> None:
        self.write({"makefile": "out:\n\tdate +%N > out\n"})
        outcome = self.recorded("--no-replay")
        self.assertTrue(
            outcome.errors.startswith("mkcheck-record: no recipe was run again (--no-replay), so ")
        )

    def test_trust_without_need(self) -> None:
        self.write({"makefile": "out: a\n\tcp a out\na:\n\techo > a\n"})
        outcome = self.recorded("--trust", "out", "--trust", "a")
        self.assertEqual(
            outcome.errors,
            "".join(
                f"mkcheck-record: trusted without need: the recipe of {name} left the same files"
                " when it ran again\n"
                for name in ("a", "out")
            ),
        )

    def test_trust_of_a_name_that_has_no_recipe(self) -> None:
        self.write({"makefile": "out: a\n\tcp a out\n", "a": ""})
        outcome = self.record("--trust", "a")
        self.assertEqual((outcome.status, outcome.book), (2, None))
        self.assertEqual(
            outcome.errors, "mkcheck-record: --trust a: the goals reach no recipe of that name\n"
        )

    def test_all_errors_are_told_at_once(self) -> None:
        self.write(
            {"makefile": "all: a b c\na:\n\tdate +%N > a\nb:\n\techo >> b\nc: a\n\tcp a c\n"}
        )
        outcome = self.record()
        fronts = [line for line in outcome.errors.splitlines() if not line.startswith("\t")]
        self.assertEqual(len(fronts), 2, outcome.errors)
        self.assertIn(
            f"the recipe of a, run {FRONTS[BARE]}, writes a with other contents", fronts[0]
        )
        self.assertIn(
            f"the recipe of b, run {FRONTS[AGAIN]}, writes b with other contents", fronts[1]
        )


@namespaces
class UntracedTest(ReplayTest):
    """Replays of records that are told by hand. No strace is needed."""

    def replayed(
        self, lines: list[str], reads: list[str], writes: list[str], seconds: float = 60.0
    ) -> Outcome:
        """Runs the recipe of `out` in the folder, and replays it by these reads and writes."""
        own = Place.of(RealPath(str(self.folder)))
        world = World.of(own.folder, own.folder, Store(RealPath(str(self.scratch / "store"))))
        recipe = Recipe("out", lines)
        environment = {"PATH": os.environ["PATH"], "PWD": str(self.folder)}
        for command in recipe.commands:
            self.assertEqual(places.run(command.words, own, environment).status, 0)
        effects = Effects(tuple(map(Name, reads)), tuple(map(Name, writes)))
        world.took(recipe, effects, world.begun)
        least, runs.LEAST_SECONDS = runs.LEAST_SECONDS, seconds
        try:
            scratch = RealPath(str(self.scratch / "replays"))
            replay = Replay(world, own.seen, scratch, environment, Ancestors())
            (outcome,) = replay.run(world.trials).outcomes
        finally:
            runs.LEAST_SECONDS = least
        return outcome

    def test_a_read_that_is_left_out(self) -> None:
        self.write({"a": "1\n", "b": "2\n"})
        lines = ["cat a b > out"]
        self.assertTrue(self.replayed(lines, ["a", "b"], ["out"]).passed)
        outcome = self.replayed(lines, ["a"], ["out"])
        self.assertEqual(
            (outcome.run, outcome.failed.splitlines()[0]), (BARE, "status 1, at cat a b > out")
        )

    def test_a_writing_that_is_left_out(self) -> None:
        self.write({"a": "1\n", "b": "2\n"})
        (left,) = self.replayed(["cp a out; cp a c"], ["a"], ["out"]).differences
        self.assertEqual(left.what, "leaves c, which it didn't leave when it was recorded")
        (changed,) = self.replayed(["cp a out; echo > b"], ["a", "b"], ["out"]).differences
        self.assertEqual(changed.what, "changes b, which it wasn't recorded to write")
        (touched,) = self.replayed(["cp a out; touch b"], ["a", "b"], ["out"]).differences
        self.assertEqual(touched.what, "changes b, which it wasn't recorded to write")

    def test_a_recipe_that_waits(self) -> None:
        self.write({"a": "1\n", "ready": ""})
        outcome = self.replayed(
            ["until test -f ready; do sleep 0.1; done; cp a out"], ["a"], ["out"], 1.0
        )
        self.assertEqual(outcome.run, BARE)
        self.assertRegex(
            outcome.failed,
            r"^it didn't end in \d+ seconds, where it took \d+\.\d when it was recorded, at ",
        )

    def test_lines_that_differ(self) -> None:
        one, two = self.scratch / "one", self.scratch / "two"
        paths = RealPath(str(one)), RealPath(str(two))
        one.write_bytes(b"a\nb\nc\n")
        two.write_bytes(b"a\nB\nc\n")
        self.assertEqual(lines_that_differ(*paths), ('line 2 was "b"', 'line 2 is  "B"'))
        two.write_bytes(b"a\nb")
        self.assertEqual(lines_that_differ(*paths), ('line 3 was "c"', "line 3 is  not there"))
        two.write_bytes(b"a\0")
        self.assertEqual(lines_that_differ(*paths), ())

    def test_versions(self) -> None:
        self.write({"a": "1\n", "b": "1\n"})
        folder = RealPath(str(self.folder))
        first, second = (version_of(real_in(folder, name)) for name in "ab")
        self.assertEqual(first, second)
        (self.folder / "b").chmod(0o700)
        self.assertNotEqual(first, version_of(real_in(folder, "b")))
        (self.folder / "l").symlink_to("nowhere")
        self.assertEqual(version_of(real_in(folder, "l")), Version("link", 0, "nowhere"))
        self.assertIsNone(version_of(real_in(folder, "none")))

    def test_holes_are_neither_read_nor_filled(self) -> None:
        for number, (front, size, end) in enumerate(
            [(b"a", 9 << 20, b"z"), (b"", 9 << 20, b"z"), (b"a", 9 << 20, b""), (b"", 5, b"")]
        ):
            one, two = (real_in(RealPath(str(self.scratch)), f"{name}{number}") for name in "ab")
            with open(one, "wb") as file:
                file.write(front)
                file.truncate(size)
                file.seek(0, os.SEEK_END)
                file.write(end)
            copy_bytes(one, two)
            text = Path(one).read_bytes()
            self.assertEqual(Path(two).read_bytes(), text)
            self.assertEqual(digest_of_bytes(one), hashlib.sha256(text).hexdigest())
            self.assertLessEqual(os.stat(two).st_blocks, os.stat(one).st_blocks)


if __name__ == "__main__":
    unittest.main()
