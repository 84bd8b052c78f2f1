"""The answers of `check --json` as values: which findings each group stands for, and refusals."""

from __future__ import annotations

import json
import unittest
from collections.abc import Sequence
from pathlib import Path
from tempfile import TemporaryDirectory

from mkcheck_tools.answers.checkers import Reply
from mkcheck_tools.answers.findings import Answer, answer_of
from mkcheck_tools.answers.refusals import Refusal, Refused
from mkcheck_tools.faults import Fault

Value = dict[str, object]


def group(kind: str, targets: str, files: str = "", **more: object) -> Value:
    """The value of a group without a place; names stand between blanks."""
    value: Value = {"add": None, "do": "mend it", "place": None, "sentence": "it is wrong"}
    return {**value, "kind": kind, "targets": targets.split(), "files": files.split(), **more}


def no(findings: Sequence[str], groups: Sequence[Value], later: Sequence[Value] = ()) -> Answer:
    """The answer no with these findings and groups."""
    told = [{"number": at, "text": f"no {text}"} for at, text in enumerate(findings, 1)]
    value = {"answer": "no", "findings": told, "format": 1, "groups": groups, "later": later}
    return answer_of(Reply(1, json.dumps(value).encode()))


def line(file: str, number: int) -> Value:
    """The value of a place."""
    return {"file": file, "line": number}


def refused(text: str, name: str, sentence: str, **more: object) -> Refusal:
    """A refusal as it is read."""
    value: Value = {"answer": "refused", "format": 1, "name": name, "text": text}
    value |= {"argument": None, "names": [], "place": None, "word": None}
    value |= {"number": int(text.split()[1]), "sentence": sentence, **more}
    found = answer_of(Reply(2, json.dumps(value).encode())).refusal
    assert found is not None
    return found


def numbers(answer: Answer) -> list[list[int]]:
    """The numbers of the findings in each group."""
    return [[one.number for one in each.findings] for each in answer.groups]


class GroupsTest(unittest.TestCase):
    """Groups, by the table of the reference."""

    def test_a_finding_is_in_the_group_that_has_its_kind_target_and_file(self) -> None:
        answer = no(
            ["record a", "record b", "stale a x", "stale a y", "stale b x", "stale b z"],
            [
                group("record", "a b"),
                group("stale", "a", "x y"),
                group("stale", "b", "x z"),
            ],
        )
        self.assertEqual(numbers(answer), [[1, 2], [3, 4], [5, 6]])
        self.assertEqual(answer.ungrouped, [])

    def test_the_targets_of_two_writers_are_the_two_recipes(self) -> None:
        answer = no(
            ["writers a b x", "writers a b y", "writers b c x"],
            [group("writers", "a b", "x y"), group("writers", "b c", "x")],
        )
        self.assertEqual(numbers(answer), [[1, 2], [3]])

    def test_a_race_is_in_the_group_of_its_reader_and_its_file(self) -> None:
        answer = no(
            ["race m.o p.c p.c", "race m.o p.c p.h", "stale m.o p.c", "stale m.o p.h"],
            [
                group("race", "m.o", "p.c", add="m.o: p.c\n", do=None),
                group("race", "m.o", "p.h", add="m.o: p.c\n", do=None),
                group("stale", "m.o", "p.c", add="m.o: p.c\n", do=None),
                group("stale", "m.o", "p.h", add="m.o: p.c\n", do=None),
            ],
        )
        self.assertEqual(numbers(answer), [[1], [2], [3], [4]])
        self.assertEqual(answer.groups[1].lacks(answer.findings[1]), "p.c")

    def test_a_race_and_a_stale_read_may_be_in_one_group(self) -> None:
        answer = no(
            ["race m.o v.h v.h", "stale m.o v.h", "stale m.o w.h"],
            [
                group("race", "m.o", "v.h", add="m.o: v.h\n", do=None, also=["stale"]),
                group("stale", "m.o", "w.h", add="m.o: w.h\n", do=None),
            ],
        )
        self.assertEqual(numbers(answer), [[1, 2], [3]])
        self.assertFalse(answer.hides)

    def test_unknown_files_with_a_maker_are_apart(self) -> None:
        answer = no(
            ["unknown a v.h", "unknown a w.h", "unknown b v.h"],
            [
                group("unknown", "a b", "v.h", add="a b: v.h\n", do=None),
                group("unknown", "a", "w.h"),
            ],
        )
        self.assertEqual(numbers(answer), [[1, 3], [2]])
        lacks = [answer.groups[at].lacks(answer.findings[0]) for at in (0, 1)]
        self.assertEqual(lacks, ["v.h", ""])

    def test_a_loose_name_with_two_writers_is_in_the_group_with_the_line(self) -> None:
        """To depend on the one writer would close a cycle, and to depend on the other one not."""
        answer = no(
            ["loose v p", "loose v q"],
            [group("loose", "v", "v"), group("loose", "v", "v", add="v: q\n", do=None)],
        )
        self.assertEqual(numbers(answer), [[1], [2]])

    def test_a_finding_that_no_group_has_is_told(self) -> None:
        answer = no(["stale a x", "frob a x"], [group("stale", "a", "x")])
        self.assertEqual([one.text for one in answer.ungrouped], ["no frob a x"])

    def test_lines_to_add(self) -> None:
        """Targets and prerequisites of all lines, each once; those of special targets are none."""
        answer = no(
            ["stale a x", "stale b x", "target t"],
            [
                group("stale", "a b", "x", add="a b: x y\na b: y z\n", do=None),
                group("target", "t", add=".PHONY: t\n", do=None),
            ],
        )
        self.assertEqual(answer.groups[0].adds, ("a b: x y", "a b: y z"))
        self.assertEqual(answer.groups[0].missing(), ["x", "y", "z"])
        self.assertEqual(answer.groups[1].adds, (".PHONY: t",))
        self.assertEqual(answer.groups[1].missing(), [])

    def test_races_and_stale_reads_alone_hide_nothing(self) -> None:
        self.assertFalse(no(["stale a x"], [group("stale", "a", "x")]).hides)
        answer = no(["record a"], [group("record", "a")], [group("stale", "b", "y")])
        self.assertTrue(answer.hides)
        self.assertEqual([one.kind for one in answer.later], ["stale"])

    def test_what_is_no_finding(self) -> None:
        for text in ("race a b", "stale a", "record a b", "record"):
            with self.assertRaisesRegex(Fault, "a line that no finding has"):
                no([text], [])

    def test_members_that_no_tool_asks_for(self) -> None:
        """More members are no fault, since the form stays the same then."""
        answer = no(["stale a x"], [group("stale", "a", "x", findings=[1], column=3)])
        self.assertEqual(numbers(answer), [[1]])

    def test_members_of_another_kind(self) -> None:
        for key, value in (
            ("files", "x"),
            ("targets", [1]),
            ("add", 1),
            ("place", {"file": "makefile", "line": True}),
        ):
            name = "line" if key == "place" else key
            with self.assertRaisesRegex(Fault, f"in which {name} is no "):
                no(["stale a x"], [{**group("stale", "a", "x"), key: value}])


class RefusalsTest(unittest.TestCase):
    """Refusals: the place, the names and the word that is no name."""

    def test_at_a_line(self) -> None:
        said = "a.mk:7: NotALine (25): no line"
        found = refused("refused 25 a.mk:7", "NotALine", said, place=line("a.mk", 7))
        self.assertEqual((found.file, found.line), ("a.mk", 7))
        self.assertEqual((found.names, found.sentence), ((), said))
        self.assertTrue(found.is_of_file)

    def test_with_the_word_that_is_no_name(self) -> None:
        said = "m:1: BadName (27): a: b: it is no name: no"
        found = refused("refused 27 m:1", "BadName", said, place=line("m", 1), word="a: b")
        self.assertEqual((found.names, found.bad_name), ((), "a: b"))
        said = "m:1: ArchiveMember (28): l(m): it is a member"
        other = refused("refused 28 m:1", "ArchiveMember", said, place=line("m", 1), word="l(m)")
        self.assertEqual((other.word, other.bad_name), ("l(m)", ""))

    def test_with_names_at_a_line(self) -> None:
        said = "m:1: IncludeMissing (32): x.mk: it isn't there"
        place = line("m", 1)
        found = refused("refused 32 m:1 x.mk", "IncludeMissing", said, place=place, names=["x.mk"])
        self.assertEqual((found.file, found.line, found.names), ("m", 1, ("x.mk",)))

    def test_names_that_look_like_a_place(self) -> None:
        for number, name in ((38, "NoFile"), (27, "BadMakefileName")):
            for file in ("d:5", "goal:1", "operand:1"):
                said = f"{name} ({number}): {file}: it isn't there"
                found = refused(f"refused {number} {file}", name, said, names=[file])
                self.assertEqual((found.file, found.line, found.names), (None, None, (file,)))

    def test_without_a_place(self) -> None:
        said = "Cycle (42): a b a: they form a cycle"
        found = refused("refused 42 a b a", "Cycle", said, names=["a", "b", "a"])
        self.assertEqual((found.file, found.names), (None, ("a", "b", "a")))
        self.assertFalse(found.is_of_file)

    def test_the_name_that_is_missing(self) -> None:
        found = refused("refused 41 a", "NoRule", "NoRule (41): a: nothing makes it", names=["a"])
        self.assertEqual(Refused(found).missing, "a")
        with self.assertRaisesRegex(Fault, "in which names is no list of a name"):
            refused("refused 41 a", "NoRule", "NoRule (41): a: nothing makes it")

    def test_of_a_word_of_the_command_line(self) -> None:
        for text, name, kind in (
            ("refused 27 goal:2", "BadGoal", "goal"),
            ("refused 11 operand:2", "BadMacroName", "operand"),
        ):
            argument = {"kind": kind, "number": 2}
            found = refused(text, name, f"{kind}:2: {name}: it is no name", argument=argument)
            self.assertEqual((found.file, found.line, found.names), (kind, 2, ()))
            self.assertEqual((found.is_of_word, found.is_of_file), (True, False))
            self.assertEqual(found.shown("makefile"), "")

    def test_of_a_word_of_another_kind(self) -> None:
        with self.assertRaisesRegex(Fault, "in which kind is no goal or operand"):
            argument = {"kind": "option", "number": 1}
            refused("refused 27 option:1", "BadGoal", "it is no name", argument=argument)

    def test_a_makefile_that_is_called_like_such_a_word(self) -> None:
        said = "operand:1: NotALine (25): no line"
        found = refused("refused 25 operand:1", "NotALine", said, place=line("operand", 1))
        self.assertEqual((found.is_of_word, found.is_of_file), (False, True))

    def test_members_that_are_missing_or_of_another_kind(self) -> None:
        for key, value, kind in (("names", "a", "list"), ("word", 1, "text"), ("number", "1", "n")):
            with self.assertRaisesRegex(Fault, f"in which {key} is no {kind}"):
                refused("refused 25 m:1", "NotALine", "", **{key: value})

    def test_its_line(self) -> None:
        """The line of the makefile or of a file below its folder; none of another file, which may
        be none of the project's. What doesn't show is a question mark."""
        said = "NotALine (25): no line"
        with TemporaryDirectory() as folder:
            for name in ("m", "../above", f"{folder}/m"):
                place = line(name, 2)
                found = refused(f"refused 25 {name}:2", "NotALine", said, place=place)
                path = Path(folder, "in", name)
                path.parent.mkdir(exist_ok=True)
                path.write_bytes(b"a:\n\tx\x1b\xe2\x80\xaey \n")
                shown = found.shown("m", f"{folder}/in")
                self.assertEqual(shown, "\tx??y " if name == "m" else "")
                self.assertEqual(found.shown(name, f"{folder}/in"), "\tx??y ")
            far = refused("refused 25 m:9", "NotALine", said, place=line("m", 9))
            self.assertEqual(far.shown("m", f"{folder}/in"), "")
