"""Notes: what the recorder knows and footprints can't say."""

from __future__ import annotations

import json
import os
import re
import unittest

from mkcheck_tools.book.note_files import read_notes
from mkcheck_tools.book.paths import path_of_notes
from mkcheck_tools.judge.notes import QUIET, Kind
from mkcheck_tools.run import places
from recorder.project import ROOT, ProjectTest, traced

DATED = "all: a b\na:\n\tdate +%F > a\nb: s\n\tcp s b\n"


class TableTest(unittest.TestCase):
    """The table of docs/FORMATS.md."""

    def test_it_has_just_the_kinds_of_the_recorder(self) -> None:
        text = (ROOT / "docs" / "FORMATS.md").read_text(encoding="utf-8")
        text = text[text.index("\n## Notes\n") :]
        rows = re.findall(r"(?m)^\| `([a-z-]+)` \| (doubt|hint) \| (.*) \|$", text)
        self.assertEqual(rows, [(kind.word, kind.weight, kind.about) for kind in Kind])


@traced
class NotesTest(ProjectTest):
    """Notes beside footprints."""

    def words(self) -> list[tuple[str, str, str]]:
        """Target, kind and weight of each note, but for those that most recipes have."""
        noted = read_notes(str(self.book))
        self.assertEqual(noted.missing, "")
        notes = [note for note in noted.notes if note.kind not in QUIET]
        return [(note.target, note.kind.word, note.kind.weight) for note in notes]

    def test_they_are_written_also_where_there_is_none(self) -> None:
        self.write({"makefile": "a: s\n\tcp s a\n", "s": ""})
        self.recorded("--no-replay")
        self.assertEqual(self.words(), [("", "unreplayed", "doubt")])
        if places.namespace():
            self.replays = True
            self.recorded()
            self.assertEqual(self.words(), [])
            text = (self.scratch / "book.json.notes").read_text()
            self.assertEqual(json.loads(text)["format"], 1)

    def test_a_recipe_that_an_update_keeps_keeps_its_notes(self) -> None:
        self.write({"makefile": "all: a b\na: s\n\tcp -p s a; cat t > c\nb: s\n\tcp s b\n"})
        self.write({"s": "1\n", "t": "2\n"})
        os.utime(self.folder / "s", (1, 1))
        for _ in range(2):
            outcome = self.record_plainly("--update", str(self.book))
            self.assertEqual(outcome.status, 0, outcome.errors)
            self.assertIn(("a", "stamp", "doubt"), self.words())
        self.assertIn("0 of 2 recipes were recorded", outcome.errors)

    def test_an_update_records_what_was_asked_for_before(self) -> None:
        self.write({"makefile": "a: s\n\tcp s a\nb: s\n\t$(CP) s b\n", "s": ""})
        self.recorded("--no-replay", "--trust", "b", "CP=cp", "b")
        outcome = self.record_plainly("--no-replay", "--update", str(self.book))
        self.assertEqual(outcome.status, 0, outcome.errors)
        self.assertIn("as before: --trust b CP=cp b\n", outcome.errors)
        records = json.loads(self.book.read_text())["records"]
        self.assertEqual([one["target"] for one in records], ["b"])

    def test_a_doubt_is_an_error_where_that_is_asked_for(self) -> None:
        self.write({"makefile": "a: s\n\tcp s a\n", "s": ""})
        outcome = self.record("--strict")
        self.assertEqual(outcome.status, 1)
        self.assertIn("mkcheck-record: --strict: there is a doubt, told above\n", outcome.errors)
        self.assertEqual(outcome.own("a"), ({"s"}, {"a"}))
        if places.namespace():
            self.replays = True
            self.assertEqual(self.record("--strict").status, 0)

    @unittest.skipUnless(places.namespace(), "no mount namespace is allowed")
    def test_trust_is_a_doubt(self) -> None:
        self.replays = True
        self.write({"makefile": "all: a b\na:\n\tdate +%s%N > a\nb: s\n\tcp s b\n", "s": ""})
        self.recorded("--trust", "a", "--trust", "b")
        self.assertEqual(
            self.words(), [("a", "trusted", "doubt"), ("b", "trusted-needlessly", "hint")]
        )

    @unittest.skipUnless(places.namespace(), "no mount namespace is allowed")
    def test_a_recipe_without_a_record_has_no_notes(self) -> None:
        self.replays = True
        self.write({"makefile": DATED.replace("date +%F", "date +%F%N"), "s": ""})
        self.assertTrue(self.record().lacks("a"))
        self.assertEqual(self.words(), [])
        self.write({"makefile": DATED})
        self.recorded()
        self.assertEqual(self.words(), [("a", "date", "doubt")])

    def test_they_are_no_part_of_the_project(self) -> None:
        self.write({"makefile": "a:\n\tls -a > a\n"})
        self.book = self.folder / "book.json"
        self.book.write_text("")
        self.recorded()
        first = self.book.read_text()
        self.assertTrue(os.path.exists(path_of_notes(str(self.book))))
        self.record_plainly("-o", str(self.book))
        self.assertEqual(self.book.read_text(), first)
