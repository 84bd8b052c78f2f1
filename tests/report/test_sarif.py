"""SARIF: the schema, the places, and the fixes, which are applied."""

from __future__ import annotations

import json
import subprocess
import unittest.mock
from typing import Any

from mkcheck_tools import VERSION
from mkcheck_tools.report import sarif
from pages.links import leads_nowhere
from report.project import HIDING, MKCHECK, RACE, ROOT, ReportTest
from report.schema import wrong_parts


class SarifTest(ReportTest):
    """What `--sarif` writes."""

    def sarif(self, status: int, *words: str) -> dict[str, Any]:
        """The run of a log, which is as the schema has it."""
        outcome = self.report("--sarif", *words)
        self.assertEqual(outcome.status, status, outcome.errors)
        log = json.loads(outcome.output)
        self.assertEqual(wrong_parts(log), [])
        run: dict[str, Any] = log["runs"][0]
        rules = run["tool"]["driver"]["rules"]
        for result in run["results"]:
            self.assertEqual(rules[result["ruleIndex"]]["id"], result["ruleId"])
        return run

    @staticmethod
    def line_of(location: dict[str, Any]) -> tuple[str, int]:
        """File and line of a location."""
        place = location["physicalLocation"]
        return place["artifactLocation"]["uri"], place["region"]["startLine"]

    def test_race(self) -> None:
        """A result at line 5; the recipe that writes version.h stands in line 3."""
        self.race()
        run = self.sarif(1)
        self.assertEqual([one["ruleId"] for one in run["results"]], ["race"])
        self.assertEqual(len(run["tool"]["driver"]["rules"]), 12)
        for rule in run["tool"]["driver"]["rules"]:
            self.assertIn(f"`no {rule['id']} ", rule["help"]["text"])
        for result in run["results"]:
            self.assertEqual(list(map(self.line_of, result["locations"])), [("makefile", 5)])
            self.assertEqual(list(map(self.line_of, result["relatedLocations"])), [("makefile", 3)])
            self.assertIn("main.o", result["message"]["text"])
        self.assertEqual(run["invocations"], [{"executionSuccessful": True, "exitCode": 1}])

    def test_tool(self) -> None:
        """Its version, and where its readers are led, once the repository has an address."""
        self.race()
        driver = self.sarif(1)["tool"]["driver"]
        self.assertEqual(driver["version"], VERSION)
        self.assertEqual(driver["semanticVersion"], VERSION)
        self.assertNotIn("informationUri", driver)
        with unittest.mock.patch.object(sarif, "HOME", "https://mkcheck.example"):
            found = sarif.driver(
                f"mkcheck {VERSION} (proved)", [sarif.rule("race", "", "", "error")]
            )
        self.assertEqual(found["informationUri"], "https://mkcheck.example")
        base, _, page = found["rules"][0]["helpUri"].partition("/docs/")
        self.assertEqual(base, "https://mkcheck.example")
        self.assertFalse(leads_nowhere(ROOT / "docs" / "FINDINGS.md", page))

    def test_fixes_mend(self) -> None:
        """The makefile with a fix is right, however the makefile ends."""
        ends = ("", "# more", "# more \\", "X = a \\\n", "\n\n")
        for end in ends:
            self.race()
            text = RACE + end
            self.write("makefile", text)
            fix = self.sarif(1)["results"][0]["fixes"][0]
            change = fix["artifactChanges"][0]
            self.assertEqual(change["artifactLocation"]["uri"], "makefile")
            self.write("makefile", changed(text, change["replacements"]))
            done = subprocess.run(
                [MKCHECK, "check", "-b", "B"], cwd=self.folder, capture_output=True, check=False
            )
            self.assertEqual(done.stdout[:4], b"yes ", (end, done.stdout))

    def test_hidden(self) -> None:
        """A race and a stale read that another finding hides are a note at line 5, with a fix."""
        self.build(*HIDING)
        results = self.sarif(1)["results"]
        levels = [(one["ruleId"], one["level"]) for one in results]
        self.assertEqual(levels, [("record", "warning"), ("race", "note")])
        for result in results[1:]:
            self.assertEqual(list(map(self.line_of, result["locations"])), [("makefile", 5)])
            change = result["fixes"][0]["artifactChanges"][0]
            inserted = change["replacements"][0]["insertedContent"]["text"]
            self.assertEqual(inserted, "\nmain.o: version.h")
        prints = [one["partialFingerprints"]["mkcheckGroup/v1"] for one in results]
        self.assertEqual(len(set(prints)), 2)

    def test_yes(self) -> None:
        """A yes has no results."""
        self.race()
        self.write("makefile", RACE.replace("main.o: main.c", "main.o: main.c version.h"))
        self.assertEqual(self.sarif(0)["results"], [])

    def test_refusal(self) -> None:
        """A refusal is a result at its line."""
        self.race()
        self.write("makefile", "all: a.o\n%.o: %.c\n")
        run = self.sarif(2)
        self.assertEqual(run["results"][0]["ruleId"], "BadName")
        said = run["results"][0]["message"]["text"]
        self.assertTrue(said.endswith(" (refused 27 makefile:2)\n%.o: %.c"), said)
        self.assertEqual(list(map(self.line_of, run["results"][0]["locations"])), [("makefile", 2)])
        self.assertFalse(run["invocations"][0]["executionSuccessful"])

    def test_refusal_without_line(self) -> None:
        """A word of the command line is at no line of a file, so line 1 of the makefile stands."""
        self.race()
        run = self.sarif(2, "(x)")
        self.assertEqual(list(map(self.line_of, run["results"][0]["locations"])), [("makefile", 1)])

    def test_names(self) -> None:
        """A file's name is a reference: percent signs for what a reference can't hold."""
        self.race()
        (self.folder / "makefile").rename(self.folder / "a#ü%.mk")
        run = self.sarif(1, "-f", "a#ü%.mk")
        place = run["results"][0]["locations"][0]["physicalLocation"]["artifactLocation"]
        self.assertEqual(place["uri"], "a%23%C3%BC%25.mk")

    def test_file(self) -> None:
        """With -o it goes to a file."""
        self.race()
        outcome = self.report("--sarif", "-o", "log.sarif")
        self.assertEqual((outcome.status, outcome.output), (1, ""))
        log = json.loads((self.folder / "log.sarif").read_text())
        self.assertEqual(wrong_parts(log), [])


class SchemaTest(ReportTest):
    """The schema that the tests use finds what is wrong."""

    def test_finds(self) -> None:
        """A log without version, a result without message, a line 0, an unknown property."""
        self.assertEqual(wrong_parts({"runs": []}), ["log has no version"])
        log = {"version": "2.1.0", "runs": [{"tool": {"driver": {"name": "x"}}, "results": [{}]}]}
        self.assertEqual(wrong_parts(log), ["log.runs[0].results[0] has no message"])
        self.assertEqual(wrong_parts({"startLine": 0}, "region"), ["log.startLine is below 1"])
        self.assertEqual(wrong_parts({"text": "a", "more": 1}, "message"), ["log has more"])


def changed(text: str, replacements: list[dict[str, Any]]) -> str:
    """A text after replacements."""
    for one in replacements:
        region = one["deletedRegion"]
        spots = []
        for end in ("start", "end"):
            lines = text.split("\n")
            line, column = region[f"{end}Line"], region[f"{end}Column"]
            assert line <= len(lines) and column <= len(lines[line - 1]) + 1
            spots.append(sum(len(other) + 1 for other in lines[: line - 1]) + column - 1)
        text = text[: spots[0]] + one["insertedContent"]["text"] + text[spots[1] :]
    return text
