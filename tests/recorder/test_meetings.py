"""Recipes that never run side by side, and share a name elsewhere or an address: their replays take
turns."""

from __future__ import annotations

import os
import threading
import time
import unittest
from concurrent.futures import ThreadPoolExecutor

from mkcheck_tools.answers.graphs import Ancestors, Recipe
from mkcheck_tools.judge.footprints import Footprint
from mkcheck_tools.replay.meetings import Turns, meetings_of
from mkcheck_tools.replay.replays import Replay
from mkcheck_tools.replay.runs import Outcome
from mkcheck_tools.replay.versions import Store
from mkcheck_tools.replay.worlds import Effects, Trial, World
from mkcheck_tools.run.paths import Name, RealPath
from mkcheck_tools.run.places import Place
from recorder.project import ProjectTest, free_port, traced
from recorder.test_right import RightTest, namespaces
from waits import SECONDS_AT_MOST

PYTHON = "/usr/bin/python3"


def footprint(target: str, *scratch: str, ports: tuple[str, ...] = ()) -> Footprint:
    """The footprint of a recipe that makes these names and takes them away, and serves there."""
    return Footprint(Recipe(target), [], [], frozenset(map(Name, scratch)), ports=frozenset(ports))


def trial(target: str, *looked: str) -> Trial:
    """A recipe that looked at these names."""
    effects = Effects((), (), looked=tuple(map(Name, looked)))
    return Trial(Recipe(target), {}, {}, (), {}, (), frozenset(), 0.0, 0.0, effects=effects)


class MeetingsTest(unittest.TestCase):
    """What recipes share."""

    def test_names_elsewhere(self) -> None:
        found = [footprint("a", "/tmp/t", "/tmp/a1"), footprint("b", "/tmp/t"), footprint("c")]
        self.assertEqual(meetings_of(found, []), {"a": ("/tmp/t",), "b": ("/tmp/t",)})

    def test_a_name_at_which_another_recipe_looks(self) -> None:
        found = [footprint("a", "/tmp/t"), footprint("b"), footprint("c")]
        shared = meetings_of(found, [trial("a", "/tmp/t"), trial("b", "/tmp/t"), trial("c")])
        self.assertEqual(shared, {"a": ("/tmp/t",), "b": ("/tmp/t",)})

    def test_names_of_the_project_are_each_replays_own(self) -> None:
        self.assertEqual(meetings_of([footprint("a", "t"), footprint("b", "t")], []), {})

    def test_addresses(self) -> None:
        ports = ("the port 80", "the socket @s")
        found = [footprint("a", ports=ports), footprint("b", ports=ports[:1]), footprint("c")]
        self.assertEqual(meetings_of(found, []), {"a": ports[:1], "b": ports[:1]})


class TurnsTest(ProjectTest):
    """Who goes on beside whom."""

    def test_names_in_any_order(self) -> None:
        shared = {"a": ("x", "y"), "b": ("y",), "c": ("x",), "d": ("x", "y")}
        turns, beside, most = Turns(shared), dict.fromkeys("xy", 0), []

        def go_on(target: str) -> None:
            with turns.turn(target):
                for name in shared[target]:
                    beside[name] += 1
                most.append(max(beside.values()))
                time.sleep(0.001)
                for name in shared[target]:
                    beside[name] -= 1

        with ThreadPoolExecutor(8) as pool:
            list(pool.map(go_on, "abcd" * 20, timeout=SECONDS_AT_MOST))
        self.assertEqual((max(most), len(most)), (1, 80))

    def test_replays_take_turns_and_others_do_not(self) -> None:
        both = threading.Barrier(2)
        alone = threading.Lock()

        class Watched(Replay):
            """Replays that only look who is beside them."""

            def replay(self, trial: Trial, number: int, folders: frozenset[str]) -> Outcome:
                """Meets the other one, or has to be alone."""
                if trial.recipe.target in "ab":
                    assert alone.acquire(blocking=False)
                    time.sleep(0.05)
                    alone.release()
                else:
                    both.wait(SECONDS_AT_MOST)
                return Outcome(trial)

        own = Place.of(RealPath(str(self.folder)))
        world = World(own.folder, own.folder, Store(RealPath(str(self.scratch))), 0.0)
        trials = [trial(target) for target in "abcd"]
        replay = Watched(
            world,
            own.seen,
            RealPath(str(self.scratch / "replays")),
            os.environ,
            Ancestors(),
            meetings={"a": ("/tmp/t",), "b": ("/tmp/t",)},
        )
        with ThreadPoolExecutor(4) as pool:
            found = list(pool.map(lambda one: replay.replay_safely(one, 0, frozenset()), trials))
        self.assertEqual([outcome.broken for outcome in found], [""] * 4)


@traced
@namespaces
class BuildTest(RightTest):
    """Builds whose recipes would meet."""

    def rules(self, command: str) -> str:
        """Recipes that run this, each after the one before."""
        names = [f"o{number}" for number in range(6)]
        rules = (
            f"{name}: a {before}\n\t{command}; cat a > {name}\n"
            for name, before in zip(names, ["", *names])
        )
        return f"all: {names[-1]}\n" + "".join(rules)

    def test_a_name_in_the_folder_for_temporary_files(self) -> None:
        name = f"{self.scratch}/lock"
        self.yes({"makefile": self.rules(f"mkdir {name} && sleep 0.2 && rmdir {name}"), "a": ""})

    @unittest.skipUnless(os.path.exists(PYTHON), f"no {PYTHON}")
    def test_a_port(self) -> None:
        port = free_port()
        serving = f"{PYTHON} -IBc 'import socket, time; s = socket.socket();"
        serving += " s.setsockopt(socket.SOL_SOCKET, socket.SO_REUSEADDR, 1);"
        serving += f' s.bind(("127.0.0.1", {port})); s.listen(); time.sleep(0.2)\''
        self.yes({"makefile": self.rules(serving), "a": ""})


if __name__ == "__main__":
    unittest.main()
