"""Recipes at which a build from nothing fails, since another recipe makes later what they read."""

from __future__ import annotations

import unittest

from importer.make_folder import MakeFolderTest, can_judge
from importer.ninja_folder import NinjaFolderTest
from importer.ninja_folder import can_judge as can_judge_ninja


@can_judge
class MakeTest(MakeFolderTest):
    """Builds of GNU make: as they are they fail, and with the lines of the answer they don't."""

    def mended(self, finding: str, lines: str) -> None:
        """The answer has a finding, names no question, and advises these lines."""
        self.assertNotEqual(self.make(self.copied("fails")).returncode, 0)
        answer = self.imported(replay=True)
        self.assertEqual(answer.status, 1, answer.output + answer.errors)
        self.assertIn(finding, answer.output)
        self.assertRegex(answer.errors, r"record .* (\d+) of \1 recipes")
        self.assertNotIn("Not judged", answer.output)
        self.assertTrue(answer.output.rstrip().endswith(lines.replace("\n", "\n    ")))
        self.mend(lines + "\n")

    def test_a_generated_header(self) -> None:
        self.write(
            {
                "Makefile": "prog: a.o b.o gen.h\n\tcc -o $@ a.o b.o\na.o: a.c\n\tcc -c a.c\n"
                "b.o: b.c\n\tcc -c b.c\ngen.h: gen.in\n\tcp gen.in $@\n",
                "gen.in": "#define G 0\n",
                "a.c": '#include "gen.h"\nint main(void) { return G; }\n',
                "b.c": '#include "gen.h"\nint b = G;\n',
            }
        )
        self.mended(
            "Makefile:4: the recipe of a.o reads gen.h, and make may begin it before the recipe of"
            " gen.h (Makefile:8) has written that",
            "a.o b.o: gen.h",
        )

    def test_one_lacks_what_another_one_makes_that_lacks_something(self) -> None:
        self.write(
            {
                "Makefile": "all: a b c\na:\n\tcat b > a\nb:\n\tcat c > b\nc: in\n\tcp in c\n",
                "in": "",
            }
        )
        self.mended("the recipe of a reads b, and make may begin it", "a: b\nb: c")

    def test_a_program_that_is_made_later(self) -> None:
        self.write(
            {
                "Makefile": "all: out gen\nout:\n\t./gen > out\ngen: gen.sh\n\tcp gen.sh gen\n",
                "gen.sh": "#!/bin/sh\necho x\n",
            }
        )
        self.mended("the recipe of out reads gen, and make may begin it", "out: gen")

    def test_a_file_of_a_make_below(self) -> None:
        """Its rule stands elsewhere."""
        self.write(
            {
                "Makefile": "all: out sub\nout:\n\tcat sub/gen > out\nsub:\n\t$(MAKE) -C sub\n"
                ".PHONY: sub\n",
                "sub/Makefile": "gen:\n\techo > gen\n",
            }
        )
        answer = self.imported()
        self.assertEqual(answer.status, 1, answer.output + answer.errors)
        self.assertIn("Makefile:3: the recipe of out reads sub/gen, and make may", answer.output)
        self.assertNotIn("Not judged", answer.output)

    def test_a_recipe_that_fails_all_the_same(self) -> None:
        """That another target is named isn't why it fails."""
        self.write({"Makefile": "all: a b\na:\n\techo b; exit 3\nb:\n\techo > b\n"})
        answer = self.imported()
        self.assertEqual(answer.status, 2)
        self.assertIn("the build failed at the recipe of a (Makefile:3)", answer.errors)

    def test_a_folder_that_is_made_later(self) -> None:
        """Footprints have no folders, so this is no finding."""
        self.write(
            {"Makefile": "all: a d/x\na:\n\ttouch d/y a # x\nd/x:\n\tmkdir d && echo > d/x\n"}
        )
        answer = self.imported()
        self.assertEqual(answer.status, 4, answer.output + answer.errors)
        self.assertIn("Makefile:3: a build from nothing fails at the recipe of a", answer.output)
        self.assertIn("; let a need d/x", answer.output)


@can_judge_ninja
class NinjaTest(NinjaFolderTest):
    """Builds of ninja."""

    def test_a_generated_header(self) -> None:
        self.write(
            {
                "build.ninja": "rule cc\n  command = cc -MMD -MF $out.d -c $in -o $out\n"
                "  depfile = $out.d\n  deps = gcc\nrule gen\n  command = echo > $out\n"
                "build a.o: cc a.c\nbuild gen.h: gen\nbuild all: phony a.o gen.h\ndefault all\n",
                "a.c": '#include "gen.h"\n',
            }
        )
        self.assertNotEqual(self.ninja(folder=self.copied("fails")).returncode, 0)
        answer = self.answer(replay=True)
        self.assertEqual(answer.findings, ["no race a.o gen.h gen.h"])
        self.assertIn(
            "build.ninja:7: the recipe of a.o reads gen.h, and ninja may begin it before the recipe"
            " of gen.h (build.ninja:8) has written that",
            answer.text,
        )
        self.assertIn("Add to build.ninja:\n    build a.o: .. | gen.h", answer.text)
        self.assertEqual(answer.problems, [])

    def test_a_folder_that_is_made_later(self) -> None:
        """What `ninja -n` makes doesn't hide that: it makes the folders of outputs."""
        self.write(
            {
                "build.ninja": "rule a\n  command = echo > d/y && echo > a\nrule x\n"
                "  command = echo > d/x\nbuild a: a\nbuild d/x: x\n"
                "build all: phony a d/x\ndefault all\n"
            }
        )
        answer = self.answer()
        self.assertEqual(len(answer.problems), 3)
        self.assertIn("build.ninja:5: the recipe of a failed", answer.problems[0])


if __name__ == "__main__":
    unittest.main()
