"""Tests of how many questions make is asked after a build."""

from __future__ import annotations

import math
import unittest

from mkcheck_tools.imports.asking import ASKED_AT_MOST, Asking
from mkcheck_tools.imports.database import Database
from mkcheck_tools.imports.gnumake import Make, Start
from mkcheck_tools.imports.questions import Questions
from mkcheck_tools.imports.transcripts import Transcript


class QuestionsTest(unittest.TestCase):
    """There are no more than take as long as some builds."""

    def asked(self, count: int, questions: Questions) -> tuple[list[str], list[str]]:
        """The goals for which make is asked, where there are so many, and what is said of them."""
        goals = [f"g{number}" for number in range(count)]
        base = Database(values={"MAKECMDGOALS": " ".join(goals)})
        make = Make(1, goals, "/", {}, Transcript(base), 0, "")
        starts: list[Start] = []

        def run(start: Start) -> list[Make]:
            starts.append(start)
            questions.asked += 1
            return []

        asking = Asking(Start("make", "/", tuple(goals)), "/", [make], "make", {}, run, questions)
        asking.ask()
        return [start.words[-1] for start in starts], list(asking.sentences)

    def test_all_are_asked_in_time(self) -> None:
        questions = Questions()
        questions.begin(0.0)
        self.assertEqual(self.asked(3, questions), (["g0", "g1", "g2"], []))
        self.assertEqual(questions.text(), "[asked 3/3]")

    def test_one_goal_is_all(self) -> None:
        self.assertEqual(self.asked(1, Questions()), ([], []))

    def test_no_more_than_there_is_time_for(self) -> None:
        goals, sentences = self.asked(3, Questions(limit=-math.inf))
        self.assertEqual(goals, ["g0"])
        self.assertEqual(
            sentences,
            [
                "there are 3 goals, and whether make has the same commands for each of them alone"
                " was asked for 1, since that took as long as some builds: import fewer at a time"
            ],
        )

    def test_no_more_than_some(self) -> None:
        count = ASKED_AT_MOST + 1
        goals, sentences = self.asked(count, Questions())
        self.assertEqual(len(goals), ASKED_AT_MOST)
        self.assertEqual(
            sentences,
            [
                f"there are {count} goals, and whether make has the same commands for each of them"
                f" alone was asked for {ASKED_AT_MOST}: import fewer at a time"
            ],
        )


if __name__ == "__main__":
    unittest.main()
