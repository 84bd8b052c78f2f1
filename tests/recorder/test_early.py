"""Replays that begin while other recipes are recorded show what later ones would show."""

from __future__ import annotations

import os
import subprocess
import sys
import unittest

from mkcheck_tools.replay.replays import processors
from mkcheck_tools.run import places
from recorder.project import MKCHECK, ROOT, ProjectTest, traced
from waits import SECONDS_AT_MOST

namespaces = unittest.skipUnless(
    places.namespace() and processors() > 1, "no mount namespace is allowed, or one processor"
)


# Runs the recorder, and tells when a recipe was recorded, and when its replay begins. A recipe is
# recorded until the replay begins that the first word names for it, as b:a.
TOLD = """\
import os
import sys
import threading
from mkcheck_tools.record import program, recording
from mkcheck_tools.replay.replays import Replay

run, replay = recording.run, Replay.replay_safely
awaited = dict(word.split(":") for word in sys.argv[1].split())
begun = {{name: threading.Event() for name in awaited.values()}}


def recorded(recipe, *more):
    output = run(recipe, *more)
    if recipe.target in awaited:
        begun[awaited[recipe.target]].wait({seconds})
    os.write(1, f"recorded {{recipe.target}}\\n".encode())
    return output


def replayed(own, trial, *more):
    os.write(1, f"replay of {{trial.recipe.target}}\\n".encode())
    if trial.recipe.target in begun:
        begun[trial.recipe.target].set()
    return replay(own, trial, *more)


recording.run, Replay.replay_safely = recorded, replayed
sys.exit(program.main(sys.argv[2:]))
""".format(seconds=SECONDS_AT_MOST)


@traced
@namespaces
class EarlyTest(ProjectTest):
    """Projects with several recipes."""

    replays = True

    def events(self, awaited: str = "") -> list[str]:
        """Records the project, where recipes are recorded until these replays begin; which recipes
        were recorded and replayed, in this order."""
        words = [awaited, "-C", str(self.folder), "-o", str(self.book)]
        done = subprocess.run(
            [sys.executable, "-c", TOLD, *words],
            env={**os.environ, "MKCHECK": MKCHECK, "PYTHONPATH": str(ROOT / "tools")},
            capture_output=True,
            text=True,
            check=False,
        )
        self.assertEqual(done.returncode, 0, done.stderr)
        return done.stdout.splitlines()

    def test_each_recipe_is_replayed_once_beside_the_recording(self) -> None:
        self.write(
            {
                "makefile": "c: b\n\tcp b c\nb: a\n\tcp a b\na: s\n\tcp s a\n",
                "s": "1\n",
            }
        )
        events = self.events("b:a c:b")
        self.assertEqual(
            sorted(events),
            [
                *("recorded a", "recorded b", "recorded c"),
                *("replay of a", "replay of b", "replay of c"),
            ],
        )
        self.assertLess(events.index("replay of a"), events.index("recorded b"))
        self.assertLess(events.index("replay of b"), events.index("recorded c"))

    def test_recipes_whose_folder_is_a_target_are_replayed_once(self) -> None:
        """A folder is no file that its recipe writes."""
        self.write(
            {
                "makefile": "c: o/b\n\tcp o/b c\no/b: s o\n\tcp s o/b\no: s\n\tmkdir -p o\n",
                "s": "1\n",
            }
        )
        events = self.events("o/b:o c:o/b")
        replayed = [one for one in events if one.startswith("replay of ")]
        self.assertEqual(sorted(replayed), ["replay of c", "replay of o", "replay of o/b"])

    def test_recipes_with_the_same_commands_write_the_same_files(self) -> None:
        """So what reads one of these is replayed once, also where the other recipe comes later."""
        self.write(
            {
                "makefile": (
                    "all: c d\nc: a\n\tcp a c\na b: s\n\tsleep 2; cp s a; cp s b\nd: b\n\tcp b d\n"
                ),
                "s": "1\n",
            }
        )
        events = self.events()
        recorded = [one for one in events if one.startswith("recorded ")]
        self.assertEqual(recorded, ["recorded a", "recorded c", "recorded b", "recorded d"])
        replayed = sorted(one for one in events if one.startswith("replay of "))
        self.assertEqual(replayed, [f"replay of {name}" for name in "abcd"])

    def test_a_recipe_that_looks_through_processes(self) -> None:
        """It may have seen a replay, so all is recorded once more, and then replayed."""
        self.write(
            {
                "makefile": "b: a\n\tsleep 1; ls /proc > /dev/null; cp a b\na: s\n\tcp s a\n",
                "s": "1\n",
            }
        )
        events = self.events()
        recorded = ["recorded a", "recorded b"]
        self.assertEqual([one for one in events if one in recorded], recorded * 2)
        self.assertEqual(events[-4:-2], recorded)
        self.assertEqual(sorted(events[-2:]), ["replay of a", "replay of b"])

    def test_a_folder_in_which_a_later_recipe_writes(self) -> None:
        """Its stamp is another one in each build, so a recipe that stores it is found."""
        self.write(
            {
                "makefile": (
                    "b: a\n\tsleep 2; echo > d/x; cp a b\na: s\n\tstat -c %Y d > a; cat s >> a\n"
                ),
                "s": "1\n",
                "d/keep": "",
            }
        )
        os.utime(self.folder / "d", (1_000_000_000, 1_000_000_000))
        outcome = self.record()
        self.assertTrue(outcome.lacks("a"), outcome.errors)
        self.assertIn("writes a with other contents", outcome.errors)

    def test_a_source_that_a_later_recipe_changes(self) -> None:
        self.write(
            {
                "makefile": (
                    "b: a\n\techo more >> r; cp a b; rm r\n"
                    "a: s\n\tsleep 1; cat s r > a; sleep 1\n"
                ),
                "s": "1\n",
                "r": "1\n",
            }
        )
        outcome = self.recorded()
        self.assertEqual(outcome.own("a"), ({"s", "r"}, {"a"}))

    def test_a_folder_whose_names_come_later(self) -> None:
        """What a later recipe makes there is a late file of the recipe that lists it."""
        self.write(
            {
                "makefile": "all: a d/b\na: s\n\tls d > a\nd/b: s\n\tsleep 1; cp s d/b\n",
                "s": "1\n",
                "d/keep": "",
            }
        )
        outcome = self.recorded()
        self.assertIn("d/b", outcome.own("a")[0])

    def test_a_temporary_file_of_one_name(self) -> None:
        """A replay that makes it would meet the recording of another recipe that does, so it begins
        when all is recorded."""
        name = f"/tmp/{self.scratch.name}.common"
        commands = f"echo $@ > {name}; sleep 1; cat {name} > $@; rm -f {name}"
        self.write(
            {
                "makefile": f"c: b\n\t{commands}\nb: a\n\t{commands}\na: s\n\t{commands}\n",
                "s": "1\n",
            }
        )
        outcome = self.recorded()
        self.assertEqual(outcome.own("c"), (set(), {"c"}))


if __name__ == "__main__":
    unittest.main()
