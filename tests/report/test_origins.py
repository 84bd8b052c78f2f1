"""Places of a translated makefile, as the original ones have them."""

from __future__ import annotations

import json

from mkcheck_tools.report.origins import Origins
from report.project import ReportTest

ORIGINAL = "x.o: x.c\n\tcc -c x.c\n"
TRANSLATED = """\
all: a.o sub/x.o
.PHONY: all
a.o: a.c
\tcc -c a.c
sub/x.o: sub/x.c
\tcd sub && cc -c x.c
"""
RECORDS = [
    ("a.o", ["cc -c a.c"], ["a.c", "h.h"], ["a.o"]),
    ("sub/x.o", ["cd sub && cc -c x.c"], ["sub/x.c", "sub/x.h", "h.h"], ["sub/x.o"]),
]


def node(makefile: str | None, line: int | None, folder: str, name: str) -> dict[str, object]:
    """An entry of map.json."""
    return {
        "makefile": makefile,
        "line": line,
        "folder": folder,
        "name": name,
        "stands_for": name,
        "kind": "file",
    }


class OriginsTest(ReportTest):
    """An import whose translation lies in a folder `T`."""

    def setUp(self) -> None:
        super().setUp()
        self.build(TRANSLATED, RECORDS, ["a.c", "h.h", "sub/x.c", "sub/x.h"])
        (self.folder / "T").mkdir()
        (self.folder / "makefile").rename(self.folder / "T" / "makefile")
        self.write("Makefile", "all: a.o\n\t$(MAKE) -C sub\n%.o: %.c\n\tcc -c $<\n")
        self.write("sub/Makefile", ORIGINAL)
        nodes = {
            "all": node("Makefile", 2, ".", "all"),
            "a.o": node("Makefile", 4, ".", "a.o"),
            "sub/x.o": node("sub/Makefile", 2, "sub", "x.o"),
            "a.c": node(None, None, ".", "a.c"),
            "sub/x.c": node(None, None, ".", "sub/x.c"),
        }
        self.write("T/map.json", json.dumps({"tool": "GNU Make 4.3", "nodes": nodes}))

    def test_a_page(self) -> None:
        """Places, lines to add and the marked words are those of the original makefiles. In a
        pattern rule no word is marked, since other targets don't need it."""
        page = self.page(1, "-f", "T/makefile")
        text = page.text
        self.assertEqual([sorted(one.split()) for one in page.inserted], [["../h.h", "x.h"]])
        self.assertIn("Makefile:3:", text)
        self.assertIn("sub/Makefile:1:", text)
        self.assertNotIn("T/makefile:", text)
        self.assertIn("a.o: h.h", text)
        self.assertRegex(text, r"x\.o: (x\.h \.\./h\.h|\.\./h\.h x\.h)")
        self.assertNotIn("sub/x.o: sub/x.h", text)
        self.assertNotIn("mkcheck repair prints them", text)

    def test_a_log(self) -> None:
        """Locations and fixes."""
        outcome = self.report("-f", "T/makefile", "--sarif")
        results = json.loads(outcome.output)["runs"][0]["results"]
        places = [one["locations"][0]["physicalLocation"] for one in results]
        found = {(one["artifactLocation"]["uri"], one["region"]["startLine"]) for one in places}
        self.assertEqual(found, {("Makefile", 3), ("sub/Makefile", 1)})
        changes = [
            change for one in results for fix in one["fixes"] for change in fix["artifactChanges"]
        ]
        inserted = {
            (change["artifactLocation"]["uri"], each["insertedContent"]["text"])
            for change in changes
            for each in change["replacements"]
        }
        self.assertIn(("Makefile", "\na.o: h.h"), inserted)
        self.assertEqual({uri for uri, _ in inserted}, {"Makefile", "sub/Makefile"})

    def test_what_is_no_map(self) -> None:
        """Another file of that name says nothing."""
        for text in ("[]", "{", '{"nodes": {"a": 1}}', '{"nodes": {"a": {"x": 1}}}'):
            self.write("T/map.json", text)
            self.assertIsNone(Origins.beside(str(self.folder / "T" / "makefile")))
        self.assertIsNone(Origins.beside(str(self.folder / "makefile")))
