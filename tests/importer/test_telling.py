"""Tests of the lines that say how far an import is."""

from __future__ import annotations

import io
import threading
import unittest

from mkcheck_tools.imports.questions import Questions
from mkcheck_tools.imports.telling import Far, Telling, Times


class TellingTest(unittest.TestCase):
    """Lines for texts with counts."""

    def told(
        self,
        word: str,
        text: str,
        seconds: float,
        of_part: float | None = None,
        silent: float = 0.0,
    ) -> str:
        """The line that a step prints when it, and the present part of it, have taken these
        seconds, and nothing more was heard of it for `silent` ones."""
        stream = io.StringIO()
        times = Times(seconds, seconds if of_part is None else of_part, silent)
        Telling(stream).progress(word, text, times)
        return stream.getvalue()

    def test_which_build_it_is(self) -> None:
        front = "mkcheck-import: building"
        self.assertEqual(self.told("build", "[2/8]", 10.0), f"{front}, 0:10, 2 of 8, 0:30 left\n")
        for word, name in (("second", "second"), ("third", "third")):
            line = f"{front} a {name} time, 0:10, 8 of 8\n"
            self.assertEqual(self.told("build", f"[{word} 8/8]", 10.0), line)

    def test_time_left_of_a_part(self) -> None:
        """The first build took two minutes; it says nothing of the second one."""
        line = "mkcheck-import: building a second time, 2:10, 2 of 8, 0:30 left\n"
        self.assertEqual(self.told("build", "[second 2/8]", 130.0, 10.0), line)

    def test_parts_of_a_step(self) -> None:
        stream, texts = io.StringIO(), iter(["[9/9]", "[second 1/2]", "[second 1/2]"])
        ended = threading.Event()

        def look() -> str:
            text = next(texts, "")
            if not text:
                ended.set()
            return text

        Telling(stream, apart=0.2).during("build", look, ended.wait)
        self.assertRegex(
            stream.getvalue(), r"building a second time, \d+:\d\d, 1 of 2, \d+:\d\d left\n"
        )

    def test_commands_of_a_whole_that_is_not_known(self) -> None:
        line = "mkcheck-import: building, 0:10, 9 so far\n"
        self.assertEqual(self.told("build", "[9/0]", 10.0), line)
        self.assertEqual(self.told("build", "[0/0]", 10.0), "mkcheck-import: building, 0:10\n")

    def test_questions_that_make_is_asked(self) -> None:
        front = "mkcheck-import: asking make what it would do, 0:30"
        questions = Questions()
        self.assertEqual(self.told("build", questions.text(), 30.0), f"{front}\n")
        questions.known, questions.asked = 8, 2
        line = f"{front}, 2 of 8, 1:30 left\n"
        self.assertEqual(self.told("build", questions.text(), 30.0), line)
        questions.asked = 9
        self.assertEqual(self.told("build", questions.text(), 30.0), f"{front}, 9 so far\n")

    def test_replays_where_writes_fail(self) -> None:
        text = "[replay 8/8] a.o\n[failing 1/2] a.o\n"
        line = "mkcheck-import: replaying where writes fail, 0:10, 1 of 2, 0:10 left\n"
        self.assertEqual(self.told("record", text, 10.0), line)

    def test_replays_with_no_other_beside_them(self) -> None:
        text = "[replay 8/8] a.o\n[alone 1/3 0:20 left] a.o goes on\n"
        front = "mkcheck-import: replaying alone what differed, 0:10, 1 of 3"
        self.assertEqual(self.told("record", text, 10.0), f"{front}, 0:20 left, a.o goes on\n")

    def test_a_recipe_that_goes_on(self) -> None:
        """Who waits for a long recipe is told for which one."""
        text = "[1/9] a.o: cc\n[7/9 0:41 left] test/regress.o goes on, 3:10\n"
        line = "mkcheck-import: recording, 3:20, 7 of 9, 0:41 left, test/regress.o goes on\n"
        self.assertEqual(self.told("record", text, 200.0), line)
        text += "[8/9 0:12 left] b.o: cc\n"
        line = "mkcheck-import: recording, 3:30, 8 of 9, 0:12 left\n"
        self.assertEqual(self.told("record", text, 210.0), line)

    def test_an_estimate_that_is_old(self) -> None:
        """The recorder tells something every ten seconds, as long as it goes on."""
        front, text = "mkcheck-import: recording, 5:00, 7 of 9", "[7/9 0:27 left] a.o: cc\n"
        self.assertEqual(self.told("record", text, 300.0, silent=30.0), f"{front}, 0:27 left\n")
        line = f"{front}, nothing more for 1:10\n"
        self.assertEqual(self.told("record", text, 300.0, silent=70.0), line)
        # This estimate is of this moment.
        front = "mkcheck-import: building, 1:00, 2 of 8"
        self.assertEqual(self.told("build", "[2/8]", 60.0, silent=50.0), f"{front}, 3:00 left\n")

    def test_replays_that_are_ended(self) -> None:
        text = "[9/9] a.o: cc\n[early 1/3 0:20 left] a replay that began early goes on\n"
        line = (
            "mkcheck-import: ending replays, to record all once more, 0:10, 1 of 3, 0:20 left, a"
            " replay that began early goes on\n"
        )
        self.assertEqual(self.told("record", text, 10.0), line)

    def test_runs_behind_the_replays(self) -> None:
        front = "mkcheck-import: replaying"
        for part, name in (
            ("alike", "each of those that are alike"),
            ("folders", "with the folders of other recipes"),
        ):
            text = f"[replay 8/8] a.o\n[{part} 1/2 0:20 left] a.o\n"
            line = f"{front} {name}, 0:10, 1 of 2, 0:20 left\n"
            self.assertEqual(self.told("record", text, 10.0), line)

    def test_recipes_that_the_importer_runs_again(self) -> None:
        far, texts = Far(), []
        for _ in far.each("tried", ["a", "b"], str.upper):
            texts.append(self.told("translate", far.text(), 10.0))
        front = "mkcheck-import: trying recipes again, 0:10"
        lines = [f"{front}, 0 of 2, A goes on\n", f"{front}, 1 of 2, 0:10 left, B goes on\n"]
        self.assertEqual(texts, lines)
        self.assertEqual(far.text(), "")


if __name__ == "__main__":
    unittest.main()
