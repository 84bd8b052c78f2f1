"""Builds for the tests of mkcheck-report, and what it wrote of them."""

from __future__ import annotations

import json
import os
import subprocess
import sys
import tempfile
import unittest
from collections.abc import Sequence
from dataclasses import dataclass
from html.parser import HTMLParser
from pathlib import Path

ROOT = Path(__file__).resolve().parents[2]
REPORT = ROOT / "bin" / "mkcheck-report"
MKCHECK = os.path.abspath(os.environ.get("MKCHECK", ROOT / "bin" / "mkcheck"))
VOID = frozenset({"meta", "input", "br", "link", "circle", "rect", "path", "polygon"})

RACE = """\
prog: version.h main.o
\tcc -o prog main.o
version.h: version.txt
\tsed 's/.*/#define VERSION "&"/' version.txt > version.h
main.o: main.c
\tcc -c main.c
"""
RACE_BOOK = [
    (
        "version.h",
        ["""sed 's/.*/#define VERSION "&"/' version.txt > version.h"""],
        ["/usr/bin/sed", "version.txt"],
        ["version.h"],
    ),
    ("main.o", ["cc -c main.c"], ["/usr/bin/cc", "main.c", "version.h"], ["main.o"]),
    ("prog", ["cc -o prog main.o"], ["/usr/bin/cc", "main.o"], ["prog"]),
]
RACE_SOURCES = ["main.c", "version.txt"]
# The same build, with a recipe that has no record.
HIDING = (RACE.replace("main.o\n", "main.o q\n", 1) + "q:\n\tmk\n", RACE_BOOK, RACE_SOURCES)


@dataclass(frozen=True)
class Outcome:
    """What mkcheck-report left: its status, and its two texts."""

    status: int
    output: str
    errors: str


class Checked(HTMLParser):
    """Reads a page, and finds elements that aren't closed, and links to elsewhere."""

    def __init__(self, text: str) -> None:
        super().__init__(convert_charrefs=True)
        self.open: list[str] = []
        self.wrong: list[str] = []
        self.links: list[str] = []
        self.ids: list[str] = []
        self.tags: list[str] = []
        self.words: list[str] = []
        self.inserted: list[str] = []
        self.feed(text)
        self.close()
        self.wrong += [f"<{tag}> isn't closed" for tag in self.open]

    def handle_starttag(self, tag: str, attrs: list[tuple[str, str | None]]) -> None:
        """An element begins."""
        self.tags.append(tag)
        known = dict(attrs)
        is_named = known.get("role") == "img" and known.get("aria-label")
        if tag == "svg" and not is_named and known.get("aria-hidden") != "true":
            self.wrong.append("an <svg> has no role and name")
        for name, value in attrs:
            if name in ("src", "href", "xlink:href", "action", "data"):
                self.links.append(value or "")
            if name == "id":
                self.ids.append(value or "")
        if tag not in VOID:
            self.open.append(tag)

    def handle_startendtag(self, tag: str, attrs: list[tuple[str, str | None]]) -> None:
        """An element without content."""
        self.tags.append(tag)

    def handle_endtag(self, tag: str) -> None:
        """An element ends."""
        if not self.open or self.open.pop() != tag:
            self.wrong.append(f"</{tag}> ends another element")

    def handle_data(self, data: str) -> None:
        """A text."""
        if self.open and self.open[-1] not in ("style", "script"):
            self.words.append(data)
        if self.open and self.open[-1] == "ins":
            self.inserted.append(data)

    @property
    def text(self) -> str:
        """All that can be read."""
        return "\n".join(self.words)


class ReportTest(unittest.TestCase):
    """A test with a folder of its own."""

    def setUp(self) -> None:
        """Makes the folder."""
        room = tempfile.TemporaryDirectory(prefix="mkcheck-report-")
        self.addCleanup(room.cleanup)
        self.folder = Path(os.path.realpath(room.name))

    def write(self, name: str, text: str) -> Path:
        """Writes a file."""
        path = self.folder / name
        path.parent.mkdir(parents=True, exist_ok=True)
        path.write_text(text, encoding="utf-8")
        return path

    def build(self, makefile: str, records: Sequence[Sequence[object]], sources: list[str]) -> None:
        """Writes `makefile`, and footprints `B`, in which `/usr/` is fixed."""
        self.write("makefile", makefile)
        keys = ("target", "commands", "reads", "writes")
        book = {
            "format": 1,
            "fixed": ["/usr/"],
            "sources": sources,
            "records": [dict(zip(keys, record)) for record in records],
        }
        self.write("B", json.dumps(book))

    def race(self) -> None:
        """Writes the build of the README, in which main.o doesn't name version.h."""
        self.build(RACE, RACE_BOOK, RACE_SOURCES)

    def large(self) -> None:
        """Writes 120 objects that read 120 headers, and a program that reads 96 of these, none of
        which is listed: 120 * 120 + 96 findings."""
        number = range(120)
        headers = [f"h{one}.h" for one in number]
        objects = [f"o{one}.o" for one in number]
        rules = [f"o{one}.o: c{one}.c\n\tcc -c c{one}.c\n" for one in number]
        makefile = f"prog: {' '.join(objects)}\n\tcc -o prog\n{''.join(rules)}"
        records = [
            (f"o{one}.o", [f"cc -c c{one}.c"], [f"c{one}.c", *headers], [f"o{one}.o"])
            for one in number
        ]
        records.append(("prog", ["cc -o prog"], [*objects, *headers[:96]], ["prog"]))
        self.build(makefile, records, [*headers, *(f"c{one}.c" for one in number)])

    def report(self, *words: str, book: str = "B", program: str = MKCHECK, **more: str) -> Outcome:
        """Runs mkcheck-report."""
        environment = {**os.environ, "MKCHECK": program, **more}
        done = subprocess.run(
            [sys.executable, "-B", str(REPORT), "-b", book, *words],
            cwd=self.folder,
            env=environment,
            stdin=subprocess.DEVNULL,
            capture_output=True,
            check=False,
        )
        return Outcome(done.returncode, done.stdout.decode("utf-8"), done.stderr.decode("utf-8"))

    def page(self, status: int, *words: str, **more: str) -> Checked:
        """The page that mkcheck-report wrote, which has to be whole and to need nothing else."""
        outcome = self.report(*words, **more)
        self.assertEqual(outcome.status, status, outcome.errors)
        self.raw = (self.folder / "report.html").read_text(encoding="utf-8")
        page = Checked(self.raw)
        self.assertEqual(page.wrong, [])
        self.assertEqual([link for link in page.links if not link.startswith("#")], [])
        self.assertEqual(len(page.ids), len(set(page.ids)))
        self.assertNotIn("Findings in no group", page.text)
        for far in ("http://", "https://", "@import", "url("):
            self.assertNotIn(far, self.raw.replace("http://www.w3.org/", ""))
        return page

    def fault(self, *words: str, **more: str) -> str:
        """The one sentence of a fault, which leaves no report."""
        outcome = self.report(*words, **more)
        self.assertEqual((outcome.status, outcome.output), (2, ""), outcome.errors)
        self.assertEqual(outcome.errors.count("\n"), 1, outcome.errors)
        self.assertTrue(outcome.errors.startswith("mkcheck-report: "), outcome.errors)
        self.assertFalse((self.folder / "report.html").exists())
        return outcome.errors[len("mkcheck-report: ") : -1]
