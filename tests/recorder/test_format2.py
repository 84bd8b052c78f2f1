"""Long footprints: format 2, in which recipes share lists of files."""

from __future__ import annotations

import json
import os
import random
import subprocess
import tempfile
import unittest
from collections.abc import Sequence
from pathlib import Path
from typing import Any

from mkcheck_tools.book import formats
from mkcheck_tools.book.footprint_files import Footprints, Record, read_footprints
from mkcheck_tools.faults import Fault
from recorder.project import MKCHECK, ProjectTest

RECIPES, HEADERS = 70, 5000
checked = unittest.skipUnless(os.access(MKCHECK, os.X_OK), "no mkcheck")


def record(target: str, reads: list[str]) -> Record:
    """A record of a recipe that compiles."""
    return Record(target, [f"cc -c {target}"], reads, [target])


def footprints(
    records: list[Record], goals: list[str], sources: Sequence[str] = (), fixed: Sequence[str] = ()
) -> Footprints:
    """What a file holds with these records."""
    return Footprints(list(fixed), list(sources), {one.target: one for one in records}, goals)


def reads_of(book: dict[str, Any]) -> dict[str, set[str]]:
    """What each target reads by a text of format 2, as the format's page says."""
    (group,) = book["groups"]
    found = {}
    for one in group["records"]:
        names = [
            *one["reads"],
            *(name for called in one["shared"] for name in book["lists"][called]),
        ]
        assert len(names) == len(set(names)), one["target"]
        found[one["target"]] = set(names)
    return found


class SharingTest(unittest.TestCase):
    """Texts, without a recording."""

    def setUp(self) -> None:
        headers = [
            f"/usr/include/a/long/folder/name/header{number:05}.h" for number in range(HEADERS)
        ]
        self.records = [
            record(f"o{number}.o", [f"o{number}.c", *headers]) for number in range(RECIPES)
        ]

    def test_the_same_headers_for_each_recipe(self) -> None:
        self.assertGreater(len(formats.first(footprints(self.records, []))), 16_777_216)
        text = formats.text_of(footprints(self.records, ["o0.o"], ["o0.c"], ["/usr/"]))
        self.assertLess(len(text), 2_000_000)
        book = json.loads(text)
        self.assertEqual((book["format"], book["fixed"], book["sources"]), (2, ["/usr/"], ["o0.c"]))
        self.assertEqual(book["groups"][0]["goals"], ["o0.o"])
        self.assertEqual(reads_of(book), {one.target: set(one.reads) for one in self.records})
        lines = text.splitlines()
        self.assertEqual(len([line for line in lines if line.startswith('{"target":')]), RECIPES)

    def test_short_footprints_are_of_format_1(self) -> None:
        text = formats.text_of(footprints(self.records[:20], ["o0.o"]))
        self.assertEqual(json.loads(text)["format"], 1)

    def test_lists_of_any_shape(self) -> None:
        numbers = random.Random(7)
        names = [f"include/{number}.h" for number in range(200)]
        records = [
            record(f"o{at}", numbers.sample(names, numbers.randrange(200))) for at in range(40)
        ]
        text = formats.second(footprints(records, ["o1", "o2"]))
        self.assertLess(len(text), len(formats.first(footprints(records, []))))
        book = json.loads(text)
        self.assertEqual(reads_of(book), {one.target: set(one.reads) for one in records})

    def test_what_mkcheck_would_not_read(self) -> None:
        records = [
            record(f"o{at}", [f"{at}/" + "x" * 200 + str(number) for number in range(1000)])
            for at in range(100)
        ]
        with self.assertRaisesRegex(
            Fault, "mkcheck reads at most 16,777,216 of a file: record fewer goals"
        ):
            formats.text_of(footprints(records, []))

    def test_both_formats_are_read_as_they_were_written(self) -> None:
        read = Path(self.enterContext(tempfile.TemporaryDirectory()), "book")
        kept = footprints(self.records[:20], ["o0.o", "o1.o"], ["o0.c"], ["/usr/"])
        for text in (formats.first(kept), formats.second(kept)):
            read.write_text(text)
            found = read_footprints(str(read))
            self.assertEqual((found.fixed, found.sources), (["/usr/"], ["o0.c"]))
            self.assertEqual(list(found.records), [one.target for one in self.records[:20]])
            for one in found.records.values():
                self.assertEqual(set(one.reads), set(kept.records[one.target].reads))
        self.assertEqual(found.goals, ["o0.o", "o1.o"])
        self.assertEqual(len(read_footprints(str(read), ["o0.o", "o1.o"]).records), 20)
        with self.assertRaisesRegex(Fault, "can't be read as footprints"):
            read_footprints(str(read), ["other"])

    def test_names_of_lists(self) -> None:
        self.assertEqual(
            [formats.name_of(number) for number in (0, 9, 10, 35, 36, 36 * 36)],
            ["0", "9", "a", "z", "10", "100"],
        )
        self.assertEqual(len({formats.name_of(number) for number in range(5000)}), 5000)


@checked
class AnswerTest(ProjectTest):
    """mkcheck's answers over both formats."""

    def answers(self, text: str) -> tuple[int, str]:
        """What `check` says over these footprints."""
        book = Path(self.scratch, "book")
        book.write_text(text)
        done = subprocess.run(
            [MKCHECK, "check", "-b", str(book)], cwd=self.folder, capture_output=True, check=False
        )
        return done.returncode, done.stdout.decode()

    def test_the_answers_are_the_same(self) -> None:
        headers = [f"h{number}.h" for number in range(50)]
        goals = [f"o{number}.o" for number in range(10)]
        rules = "".join(
            f"{goal}: {' '.join(headers[at * 4:])}\n\tcc -c {goal}\n"
            for at, goal in enumerate(goals)
        )
        self.write({"makefile": f"all: {' '.join(goals)}\n{rules}"})
        for first in (0, 4):
            records = [
                record(goal, headers[at * 4 + first * (at == 9) - first :])
                for at, goal in enumerate(goals)
                if at
            ]
            records.insert(0, record(goals[0], headers))
            one = formats.first(footprints(records, [], headers))
            two = formats.second(footprints(records, ["all"], headers))
            self.assertEqual((json.loads(one)["format"], json.loads(two)["format"]), (1, 2))
            status, said = self.answers(one)
            other_status, other_said = self.answers(two)
            self.assertEqual(status, 0 if first == 0 else 1)
            self.assertEqual(
                (other_status, sorted(other_said.splitlines())), (status, sorted(said.splitlines()))
            )


if __name__ == "__main__":
    unittest.main()
