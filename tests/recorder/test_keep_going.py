"""A recording goes on where a recipe fails, and all failures are told at the end."""

from __future__ import annotations

import json
import os
import shutil
from pathlib import Path

from mkcheck_tools.book.answer_files import read_answer
from mkcheck_tools.faults import Fault
from recorder.project import ProjectTest, traced


def heads(errors: str) -> list[str]:
    """The errors, each by its first line, without what stands before it; warnings are left out."""
    front = "mkcheck-record: "
    lines = [line[len(front) :] for line in errors.splitlines() if line.startswith(front)]
    return [line for line in lines if not line.startswith("warning: ")]


@traced
class KeepGoingTest(ProjectTest):
    """Recipes that fail, and those that depend on them."""

    def test_all_failures_are_told(self) -> None:
        self.write(
            {
                "makefile": (
                    "all: a b c d\na:\n\techo one; false\nb: a\n\tcp a b\nc:\n\techo > c; echo x >"
                    " ../outside\nd: e\n\tcp e d\ne:\n\techo > e\n"
                )
            }
        )
        outcome = self.record()
        self.assertEqual(outcome.output, "")
        self.assertTrue(outcome.lacks("a", "b", "c"), outcome)
        self.assertEqual(outcome.own("d"), ({"e"}, {"d"}))
        first, second, third = heads(outcome.errors)
        self.assertEqual(first, "the recipe of a failed, status 1, at 'echo one; false'")
        self.assertEqual(second, "the recipe of b wasn't run, since it depends on one that failed")
        self.assertTrue(third.startswith("the recipe of c writes files outside the folder"), third)
        self.assertIn("\n\techo one; false\none\n", outcome.errors)

    def test_a_file_elsewhere_that_another_recipe_writes(self) -> None:
        """It isn't one that never changes."""
        other = self.scratch / "other"
        self.write({"makefile": f"all: a b\na:\n\techo > {other}\nb:\n\tcp {other} b\n"})
        _, second = heads(self.record().errors)
        told = "the recipe of b reads files outside the folder that the recipe of a writes: let"
        self.assertEqual(second, f"{told} both use files in the folder")

    def test_what_depends_by_other_names(self) -> None:
        self.write(
            {"makefile": "all: c\nc: mid\n\techo > c\nmid: b\nb: a\n\techo > b\na:\n\tfalse\n"}
        )
        outcome = self.record("-k")
        front = "wasn't run, since it depends on one that failed"
        self.assertEqual(
            heads(outcome.errors)[1:], [f"the recipe of b {front}", f"the recipe of c {front}"]
        )

    def test_the_option_changes_nothing(self) -> None:
        self.write({"makefile": "all: a b\na:\n\tfalse\nb:\n\tfalse\n"})
        said = [f"the recipe of {name} failed, status 1, at false" for name in "ab"]
        self.assertEqual(heads(self.record().errors), said)
        self.assertEqual(heads(self.record("-k").errors), said)

    def test_no_recipe_finds_what_one_left_that_failed(self) -> None:
        self.write({"makefile": "all: a b\na:\n\techo > half; false\nb:\n\tls > b\n"})
        outcome = self.record()
        self.assertTrue(outcome.lacks("a"), outcome)
        self.write({"makefile": "all: a b\na:\n\techo > half; false\nb:\n\tcat half > b\n"})
        self.assertTrue(self.record().lacks("a", "b"))

    def test_where_all_goes_well(self) -> None:
        self.write({"makefile": "all: a b\na:\n\techo > a\nb: a\n\tcp a b\n"})
        outcome = self.recorded("-k")
        self.assertEqual(outcome.own("b"), ({"a"}, {"b"}))

    def test_what_is_recorded_is_written_over_an_old_file(self) -> None:
        self.write({"makefile": "all: a b\na:\n\tfalse\nb:\n\techo > b\n"})
        self.book.write_text('{"format": 1}')
        self.assertEqual(self.record_plainly("-o", str(self.book)).status, 1)
        self.assertEqual(self.check(), ["no record a"])

    def test_an_answer_for_programs(self) -> None:
        answer = self.folder.parent / "answer.json"
        makefile = "all: a b c\na:\n\techo > a\nb: a\n\tfalse\nc:\n\tcd sub && $(MAKE)\n"
        self.write({"makefile": makefile, "sub/makefile": "x:\n\techo > x\n"})
        self.assertEqual(self.record("--answer", str(answer)).status, 1)
        found = read_answer(str(answer))
        self.assertEqual((found.status, found.written), (1, True))
        self.assertEqual((found.recipes, found.known, found.fault), (3, 0, ""))
        told = {one.target: (one.text.partition("\n")[0], one.make_in) for one in found.unrecorded}
        self.assertEqual(told["b"], ("the recipe of b failed, status 1, at false", None))
        text, folder = told["c"]
        self.assertTrue(
            text.startswith("the recipe of c starts make in sub: its build isn't"), text
        )
        self.assertEqual(folder, "sub")

    def test_an_answer_of_an_update(self) -> None:
        answer = self.folder.parent / "answer.json"
        self.write({"makefile": "all: a b\na: s\n\tcp s a\nb:\n\techo > b\n", "s": ""})
        words = ("--update", str(self.book), "--answer", str(answer))
        counts = []
        for text in ("1", "2", "2"):
            self.write({"s": text})
            self.assertEqual(self.record_plainly(*words).status, 0)
            found = read_answer(str(answer))
            counts.append((found.recipes, found.known, found.written))
        self.assertEqual(counts, [(2, 0, True), (2, 1, True), (2, 2, True)])

    def test_an_answer_of_a_fault(self) -> None:
        answer = self.folder.parent / "answer.json"
        self.write({"makefile": "a: b\n\tcp b a\n"})
        self.assertEqual(self.record("--answer", str(answer)).status, 2)
        found = read_answer(str(answer))
        self.assertEqual((found.status, found.written, found.unrecorded), (2, False, ()))
        self.assertIn("b", found.fault)

    def test_an_answer_that_cannot_be_read(self) -> None:
        for text in ("", "[]", '{"format":1}', '{"format":2}'):
            self.book.write_text(text)
            with self.assertRaises(Fault):
                read_answer(str(self.book))

    def test_standard_output_has_what_is_recorded(self) -> None:
        self.write({"makefile": "all: a b\na:\n\tfalse\nb:\n\techo > b\n"})
        outcome = self.record_plainly()
        self.assertEqual((outcome.status, outcome.counts, outcome.behind), (1, (1, 2), ()))
        (record,) = json.loads(outcome.output)["records"]
        self.assertEqual(record["target"], "b")

    def test_the_next_update_records_only_what_is_missing(self) -> None:
        text = "all: a b c\na: s\n\tcp s a; false\nb: s\n\tcp s b\nc: a\n\tcp a c\n"
        self.write({"makefile": text, "s": "1\n"})
        self.assertTrue(self.record().lacks("a", "c"))
        self.write({"makefile": text.replace("; false", "")})
        outcome = self.record_plainly("--update", str(self.book))
        self.assertEqual(outcome.status, 0, outcome.errors)
        said = "2 of 3 recipes were recorded, the others hadn't changed"
        self.assertEqual(heads(outcome.errors), [said])
        full = self.scratch / "full.json"
        self.record_plainly("-o", str(full))
        self.assertEqual(self.book.read_text(), full.read_text())


@traced
class ReplayedTest(ProjectTest):
    """Failures and replays together."""

    replays = True

    def test_what_replays_show_is_told_too(self) -> None:
        self.write({"makefile": "all: a b c\na:\n\tfalse\nb:\n\tdate +%s%N > b\nc:\n\techo > c\n"})
        outcome = self.record()
        self.assertTrue(outcome.lacks("a", "b"), outcome)
        self.assertEqual(outcome.own("c"), (set(), {"c"}))
        first, second = heads(outcome.errors)
        self.assertEqual(first, "the recipe of a failed, status 1, at false")
        self.assertTrue(second.startswith("the recipe of b, run "), second)


@traced
class WithoutNamespaceTest(ProjectTest):
    """Replays without a mount namespace: one at a time, at the path of the copy."""

    replays = True

    def path(self) -> dict[str, str]:
        """An environment in which `unshare` isn't found, and all else is."""
        tools = self.scratch / "tools"
        tools.mkdir(exist_ok=True)
        for folder in os.environ["PATH"].split(":"):
            for program in Path(folder).glob("*") if os.path.isdir(folder) else ():
                if (
                    program.name not in ("unshare", "make")
                    and not (tools / program.name).is_symlink()
                ):
                    (tools / program.name).symlink_to(program)
        return {"PATH": str(tools)}

    def test_a_replay(self) -> None:
        self.write(
            {"makefile": "all: a b\na:\n\tdate +%s%N > a\nb: s\n\tcp s b; pwd >> b\n", "s": ""}
        )
        words = ("--fixed", str(self.scratch / "tools"))
        outcome = self.record(*words, environment=self.path())
        self.assertTrue(outcome.lacks("a"), outcome)
        (head,) = heads(outcome.errors)
        self.assertTrue(head.startswith("the recipe of a, run in a folder that holds only"), head)
        outcome = self.record("--trust", "a", *words, environment=self.path())
        self.assertEqual(outcome.status, 0, outcome.errors)
        self.assertEqual(outcome.own("b"), ({"s"}, {"b"}))

    def test_in_place_nothing_is_replayed(self) -> None:
        self.write({"makefile": "a:\n\tdate +%s%N > a\n"})
        words = ("--in-place", "--fixed", str(self.scratch / "tools"))
        outcome = self.record(*words, environment=self.path())
        self.assertEqual(outcome.status, 0, outcome.errors)
        (said,) = heads(outcome.errors)
        self.assertTrue(
            said.startswith(
                "no recipe was run again, since that needs a mount namespace or a copy: "
            ),
            said,
        )
        self.assertTrue((self.folder / "a").exists())

    def test_the_tools_are_there(self) -> None:
        self.assertIsNone(shutil.which("unshare", path=self.path()["PATH"]))
        self.assertIsNotNone(shutil.which("strace", path=self.path()["PATH"]))
