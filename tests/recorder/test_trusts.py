"""The ways in which mkcheck-import trusts recipes: `--trust alike:TARGET` and `kept:TARGET`."""

from __future__ import annotations

import os
import subprocess
import sys
import unittest

from mkcheck_tools.judge.trust import Trust
from mkcheck_tools.run import places
from recorder.project import MKCHECK, ROOT, traced
from recorder.test_joined import FAILING, TOLD
from recorder.test_update import UpdateTest

namespaces = unittest.skipUnless(places.namespace(), "no mount namespace is allowed")
# Recipes that failed run again: a line that mkcheck-import writes into makefiles.
AGAIN = "# Recipes that failed run again, whatever they left.\n"


class WordTest(unittest.TestCase):
    """The words of `--trust`."""

    def test_ways(self) -> None:
        trust = Trust.of(["a", "alike:b", "kept:c"])
        self.assertEqual(trust.targets, {"a", "b", "c"})
        self.assertEqual((trust.alike, trust.kept), ({"b"}, {"b", "c"}))


@traced
@namespaces
class TrustTest(UpdateTest):
    """Recordings with such recipes."""

    replays = True

    def runs(self, *words: str, told: str = TOLD) -> list[str]:
        """The target and the kind of each run of a replay, sorted."""
        done = subprocess.run(
            [sys.executable, "-c", told, "-C", str(self.folder), "-o", str(self.book), *words],
            env={**os.environ, "MKCHECK": MKCHECK, "PYTHONPATH": str(ROOT / "tools")},
            capture_output=True,
            text=True,
            check=False,
        )
        self.assertEqual(done.returncode, 0, done.stderr)
        return sorted(done.stdout.splitlines())

    def write_kept(self) -> None:
        """A recipe that writes its output only where that changes, beside one that isn't such."""
        makefile = "all: a b\na: s\n\tcmp -s s a || cp s a\nb: s\n\tcat s > b\n"
        self.write({"makefile": makefile, "s": "1\n"})

    def test_one_that_may_leave_its_output_runs_without_it_alone(self) -> None:
        self.write_kept()
        found = self.runs("--trust", "alike:a")
        self.assertEqual([one for one in found if one.startswith("a ")], ["a bare"])
        self.assertEqual(sorted({one for one in found if one[0] == "b"}), ["b again", "b damaged"])

    def test_it_has_what_it_needs_beside_its_reads(self) -> None:
        """The run without its output still finds files at which it only looks."""
        makefile = "a: s\n\ttest -e flag || exit 1; cmp -s s a || cp s a\n"
        self.write({"makefile": makefile, "s": "1\n", "flag": ""})
        self.assertEqual(self.recorded("--trust", "alike:a").own("a")[0], {"s", "flag"})

    def test_it_is_kept_by_updates(self) -> None:
        self.write_kept()
        self.assertEqual(self.count(self.update("--trust", "alike:a")), 2)
        self.assertEqual(self.count(self.update("--trust", "alike:a")), 0)
        self.write({"s": "2\n"})
        self.assertEqual(self.count(self.update("--trust", "alike:a")), 2)

    def test_it_has_all_replays_when_it_is_trusted_otherwise(self) -> None:
        self.write_kept()
        self.assertEqual(self.count(self.update("--trust", "alike:a")), 2)
        second = self.update("--trust", "a")
        self.assertEqual(self.count(second), 1)
        self.assertIn("trusted, and not shown to be right: the recipe of a, run", second.errors)
        self.assertEqual(self.count(self.update("--trust", "alike:a")), 1)

    def test_what_is_kept_is_told_again_and_not_recorded_again(self) -> None:
        makefile = "all: a b\na: s\n\tdate +%s%N > a; cat s >> a\nb: s\n\tcp s b\n"
        self.write({"makefile": makefile, "s": "1\n"})
        first = self.update("--trust", "kept:a")
        second = self.update("--trust", "kept:a")
        self.assertEqual((self.count(first), self.count(second)), (2, 0))
        for outcome in (first, second):
            self.assertIn("trusted, and not shown to be right: the recipe of a", outcome.errors)
        self.write({"s": "2\n"})
        self.assertEqual(self.count(self.update("--trust", "kept:a")), 2)

    def test_a_name_that_has_no_recipe(self) -> None:
        self.write_kept()
        outcome = self.record("--trust", "alike:x")
        self.assertEqual(
            outcome.errors, "mkcheck-record: --trust x: the goals reach no recipe of that name\n"
        )

    def test_no_write_fails_where_recipes_that_failed_run_again(self) -> None:
        makefile = "a: s\n\tcat s > a\n"
        self.write({"makefile": makefile, "s": "1\n"})
        self.assertEqual(self.runs(told=FAILING), ["a"])
        self.write({"makefile": AGAIN + makefile})
        self.assertEqual(self.runs(told=FAILING), [])


if __name__ == "__main__":
    unittest.main()
