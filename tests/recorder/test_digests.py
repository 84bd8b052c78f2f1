"""Large files elsewhere, as programs and their libraries are, are read once, and no recipe waits
for that."""

from __future__ import annotations

import os
import tempfile
import threading
import unittest
from pathlib import Path
from unittest import mock

from mkcheck_tools.answers.graphs import Recipe
from mkcheck_tools.replay import versions
from mkcheck_tools.replay.versions import LARGE, Store, Version, version_of
from mkcheck_tools.replay.worlds import UNREAD, Effects, World
from mkcheck_tools.run.paths import Name, RealPath

# Where each file counts as one that was written long ago.
SETTLED = mock.patch.object(versions, "SETTLING", -60_000_000_000)


class DigestsTest(unittest.TestCase):
    """A project and a large file beside it."""

    def setUp(self) -> None:
        folder = tempfile.TemporaryDirectory()
        self.addCleanup(folder.cleanup)
        self.scratch = Path(folder.name).resolve()
        for name in ("project", "copy"):
            (self.scratch / name).mkdir()
        self.large = RealPath(str(self.scratch / "large"))
        Path(self.large).write_bytes(bytes(LARGE))
        self.read: list[str] = []
        self.enterContext(SETTLED)
        bytes_of = versions.digest_of_bytes

        def counted(path: RealPath) -> str:
            self.read.append(path)
            return bytes_of(path)

        self.enterContext(mock.patch.object(versions, "digest_of_bytes", counted))

    def looked(self) -> World:
        """What stands in the project when a recipe has read the large file."""
        folders = [RealPath(str(self.scratch / name)) for name in ("project", "copy", "store")]
        world = World.of(folders[0], folders[1], Store(folders[2]))
        world.watching = True
        world.took(Recipe("a", ["cat large"]), Effects((Name(self.large),), ()), 0.0)
        return world

    def found(self, world: World) -> Version | None:
        """What stood at the large file, as far as that is known."""
        return world.trials[0].looks[Name(self.large)]

    def test_it_is_read_when_all_recipes_have_run(self) -> None:
        world = self.looked()
        self.assertEqual(self.read, [])
        world.read_rest()
        self.assertEqual(self.read, [self.large])
        self.assertEqual(self.found(world), version_of(self.large))

    def test_one_whose_bytes_are_known_needs_no_reading(self) -> None:
        known = version_of(self.large)
        self.assertEqual(self.found(self.looked()), known)
        self.assertEqual(self.read, [self.large])

    def test_one_that_changes_meanwhile_counts_as_another_one(self) -> None:
        world = self.looked()
        Path(self.large).write_bytes(bytes(LARGE + 1))
        world.read_rest()
        self.assertEqual(self.found(world), UNREAD)
        self.assertFalse(world.is_as_before(Name(self.large), self.found(world)))

    def test_one_that_goes_meanwhile_counts_as_another_one(self) -> None:
        world = self.looked()
        os.unlink(self.large)
        world.read_rest()
        self.assertFalse(world.is_as_before(Name(self.large), self.found(world)))

    def test_one_that_changed_just_before_is_read_at_once(self) -> None:
        """It may change once more and keep its stamp."""
        with mock.patch.object(versions, "SETTLING", 60_000_000_000):
            world = self.looked()
        self.assertEqual(self.read, [self.large])
        self.assertEqual(self.found(world), version_of(self.large))

    def test_two_that_want_a_digest_at_once_read_the_file_once(self) -> None:
        begun, goes_on = threading.Event(), threading.Event()
        bytes_of = versions.digest_of_bytes

        def slow(path: RealPath) -> str:
            begun.set()
            goes_on.wait()
            return bytes_of(path)

        found: list[str] = []
        with mock.patch.object(versions, "digest_of_bytes", slow):
            both = [
                threading.Thread(target=lambda: found.append(versions.digest_of(self.large)))
                for _ in range(2)
            ]
            for one in both:
                one.start()
            begun.wait()
            goes_on.set()
            for one in both:
                one.join()
        self.assertEqual(self.read, [self.large])
        self.assertEqual(len(found), 2)
        self.assertEqual(len(set(found)), 1)


if __name__ == "__main__":
    unittest.main()
