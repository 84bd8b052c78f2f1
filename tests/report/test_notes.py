"""Notes of the recording: what an answer, a page and a log show of them."""

from __future__ import annotations

import json

from mkcheck_tools.book.note_files import text_of_notes
from mkcheck_tools.judge.notes import Kind, Note
from report.project import RACE, Checked, ReportTest
from report.schema import wrong_parts

NOTES = (
    Note("main.o", Kind.DATE, "the recipe of main.o writes today's date"),
    Note("", Kind.ENVIRONMENT, "the environment sets <CFLAGS>"),
    Note("prog", Kind.GIT, "the recipe of prog reads git's state"),
)


class NotesTest(ReportTest):
    """A build that is right, as far as its footprints say."""

    def right(self, *notes: Note) -> None:
        """Writes the build, and the notes beside its footprints."""
        self.race()
        self.write("makefile", RACE.replace("main.o: main.c", "main.o: main.c version.h"))
        book = (self.folder / "B").read_text()
        self.write("B.notes", text_of_notes(book, notes))

    def answer(self) -> str:
        """The answer in one line."""
        outcome = self.report("-o", "page.html")
        self.assertEqual(outcome.status, 0, outcome.errors)
        return outcome.errors.strip()

    def test_a_yes_with_doubts_says_how_many(self) -> None:
        self.right(*NOTES)
        self.assertTrue(self.answer().endswith("reads, with 2 doubts"), self.answer())
        self.right(NOTES[0])
        self.assertTrue(self.answer().endswith("reads, with 1 doubt"))
        self.right(NOTES[2])
        self.assertTrue(self.answer().endswith("reads"))

    def test_the_page_shows_each_note(self) -> None:
        self.right(*NOTES)
        self.answer()
        page = Checked((self.folder / "page.html").read_text())
        self.assertEqual(page.wrong, [])
        for note in NOTES:
            self.assertIn(note.text, page.text)
        self.assertIn("with 2 doubts", page.text)

    def test_a_log_has_each_note_at_the_rule_of_its_target(self) -> None:
        self.right(*NOTES)
        outcome = self.report("--sarif")
        log = json.loads(outcome.output)
        self.assertEqual((outcome.status, wrong_parts(log)), (0, []))
        (run,) = log["runs"]
        self.assertEqual(run["properties"], {"doubts": 2, "notes": 3})
        found = [
            (
                one["ruleId"],
                one["level"],
                one["properties"]["weight"],
                one["locations"][0]["physicalLocation"]["region"]["startLine"],
            )
            for one in run["results"]
        ]
        self.assertEqual(
            found,
            [
                ("date", "note", "doubt", 5),
                ("environment", "note", "doubt", 1),
                ("git", "note", "hint", 1),
            ],
        )
        rules = run["tool"]["driver"]["rules"]
        for result in run["results"]:
            self.assertEqual(rules[result["ruleIndex"]]["id"], result["ruleId"])

    def test_notes_of_other_footprints_are_no_notes_of_these(self) -> None:
        self.right(*NOTES)
        self.write("B", (self.folder / "B").read_text() + "\n")
        self.assertTrue(
            self.answer().endswith(
                "reads; doubts aren't known (B.notes belongs to other footprints)"
            ),
            self.answer(),
        )

    def test_notes_that_cannot_be_read(self) -> None:
        self.right()
        for text in ("", "[]", '{"format":1}', '{"format":1,"book":"","notes":[{"kind":"none"}]}'):
            self.write("B.notes", text)
            outcome = self.report("-o", "page.html")
            self.assertEqual(outcome.status, 2)
            self.assertIn("B.notes can't be read as notes: record again", outcome.errors)
