"""Pages in headless Chromium, at two widths, light and dark."""

from __future__ import annotations

import shutil
import unittest
from typing import Any

from report import browser
from report.project import ReportTest

WIDTHS = (1280, 390)
# A deep build, with long names, a race, and stale reads of a source and of a written file.
LONG = "a_directory_with_a_long_name/and_another_one_in_it/a_header_with_a_long_name_too.h"
MAKEFILE = """\
.PHONY: all
all: lib/gen.h prog
prog: obj/main.o obj/util.o obj/a_module_with_quite_a_long_name.o
\tcc -o prog obj/main.o obj/util.o obj/a_module_with_quite_a_long_name.o
obj/main.o: src/main.c
\tcc -o obj/main.o -c src/main.c
obj/util.o: src/util.c
\tcc -o obj/util.o -c src/util.c
obj/a_module_with_quite_a_long_name.o: src/m.c
\tcc -o obj/a_module_with_quite_a_long_name.o -c src/m.c
lib/gen.h: gen.in
\tsed s/a/b/ gen.in > lib/gen.h
"""
SOURCES = ["src/main.c", "src/util.c", "src/m.c", "gen.in", LONG]
OBJECTS = ["obj/main.o", "obj/util.o", "obj/a_module_with_quite_a_long_name.o"]


def records() -> list[tuple[str, list[str], list[str], list[str]]]:
    """What the recipes read and write."""
    link = f"cc -o prog {' '.join(OBJECTS)}"
    found = [
        ("prog", [link], OBJECTS, ["prog"]),
        ("lib/gen.h", ["sed s/a/b/ gen.in > lib/gen.h"], ["gen.in"], ["lib/gen.h"]),
    ]
    for one, source in zip(OBJECTS, SOURCES):
        found.append((one, [f"cc -o {one} -c {source}"], [source, LONG, "lib/gen.h"], [one]))
    return found


@unittest.skipUnless(browser.program(), "no Chromium")
class BrowserTest(ReportTest):
    """What a reader sees."""

    def check(self, dark: bool) -> dict[int, dict[str, Any]]:
        """Measures the page that is there, in which nothing may overlap or be cut off."""
        found = browser.measured(self.folder / "report.html", WIDTHS, dark)
        self.assertEqual(set(found), set(WIDTHS))
        for width, one in found.items():
            self.assertEqual(one["wrong"], [], (width, dark))
            self.assertLessEqual(one["wide"], width)
            bright = brightness(one["behind"])
            self.assertTrue(bright < 60 if dark else bright > 200, one["behind"])
        return found

    def test_no(self) -> None:
        """A no, light and dark. Where graphs are too wide there are lists."""
        self.build(MAKEFILE, records(), SOURCES)
        page = self.page(1)
        self.assertIn("no race obj/main.o lib/gen.h lib/gen.h", page.text)
        for dark in (False, True):
            found = self.check(dark)
            self.assertGreater(found[390]["lists"], 0)
            if shutil.which("dot"):
                self.assertGreater(found[1280]["graphs"], 0)
                self.assertEqual(found[1280]["lists"], 0)

    def test_print(self) -> None:
        """By the rules for print, taken for the screen, all is unfolded, nothing is cut off, and
        no field or button is left."""
        self.build(MAKEFILE, records(), SOURCES)
        self.page(1)
        page = self.folder / "report.html"
        text = page.read_text(encoding="utf-8").replace("@media print", "@media all")
        page.write_text(text.replace("<details>", "<details open>"), encoding="utf-8")
        found = browser.measured(page, (1280,), False)[1280]
        self.assertEqual((found["wrong"], found["inputs"], found["buttons"]), ([], 0, 0))
        self.assertEqual(found["scrolled"], [])

    def test_yes(self) -> None:
        """A yes: the script puts a field above the ways."""
        self.build("b: a\n\tcp a b\n", [("b", ["cp a b"], ["a"], ["b"])], ["a"])
        self.page(0)
        self.assertEqual(self.check(False)[390]["inputs"], 1)

    def test_refusal(self) -> None:
        """A refusal, with a long line."""
        self.race()
        self.write("makefile", f"all: {'x' * 3000}?\n")
        self.page(2)
        self.check(True)

    def test_large(self) -> None:
        """14,496 findings open within three seconds of a processor."""
        self.large()
        self.page(1)
        self.check(False)
        self.assertLess(browser.seconds_to_open(self.folder / "report.html"), 3)


def brightness(colour: str) -> float:
    """How bright a colour `rgb(R, G, B)` is, up to 255."""
    parts = colour[colour.index("(") + 1 : -1].split(",")
    return sum(float(part) for part in parts[:3]) / 3
