"""The answer that an import leaves for other programs."""

from __future__ import annotations

import json
import unittest
from typing import Any

from importer.make_folder import MakeFolderTest, can_judge

PATTERN = """\
all: prog
prog: a.o b.o
\tcat $^ > $@
%.o: %.c
\tcat $< common.h > $@
"""


@can_judge
class ToldTest(MakeFolderTest):
    """`answer.json`, which `mkcheck-audit` reads."""

    def told(self) -> dict[str, Any]:
        """What it holds."""
        found: dict[str, Any] = json.loads((self.folder / ".mkcheck/answer.json").read_text())
        return found

    def test_a_sentence_has_its_targets_files_and_lines_to_add(self) -> None:
        self.write({"Makefile": PATTERN, "a.c": "1\n", "b.c": "2\n", "common.h": "3\n"})
        answer = self.imported()
        told = self.told()
        mends = [
            {
                "makefile": "Makefile",
                "line": 5,
                "words": ["common.h"],
                "takes_all": "",
                "targets": ["a.o", "b.o"],
            }
        ]
        self.assertEqual(
            told["findings"],
            [
                {
                    "kind": "stale",
                    "makefile": "Makefile",
                    "line": 5,
                    "sentence": "a.o and b.o aren't made again when common.h changes",
                    "targets": ["a.o", "b.o"],
                    "files": ["common.h"],
                    "mends": mends,
                }
            ],
        )
        self.assertIn(told["findings"][0]["sentence"], answer.output)
        self.assertEqual((told["status"], told["recipes"]), (1, 3))

    def test_a_recipe_that_takes_all_prerequisites_is_told(self) -> None:
        self.write({"Makefile": "prog: a\n\tcat $^ > $@; cat b >> $@\n", "a": "1\n", "b": "2\n"})
        self.imported()
        (mend,) = self.told()["findings"][0]["mends"]
        self.assertEqual((mend["targets"], mend["words"]), (["prog"], ["b"]))
        self.assertEqual(mend["takes_all"], "$^")

    def test_an_import_without_a_change_gives_it_again(self) -> None:
        self.write({"Makefile": PATTERN, "a.c": "1\n", "b.c": "2\n", "common.h": "3\n"})
        self.imported()
        before = self.told()
        self.imported(keep=True)
        self.assertEqual(self.told(), before)

    def test_a_build_that_fails_leaves_none(self) -> None:
        self.write({"Makefile": "a:\n\ttouch $(CURDIR)/a\n"})
        self.imported()
        self.write({"Makefile": "a:\n\t: $(CURDIR); false\n"})
        self.imported(keep=True)
        self.assertFalse((self.folder / ".mkcheck/answer.json").exists())


if __name__ == "__main__":
    unittest.main()
