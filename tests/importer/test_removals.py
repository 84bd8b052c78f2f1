"""Recipes that take files away before others make them, as where a build begins with `rm -f`."""

from __future__ import annotations

import unittest

from importer.make_folder import MakeFolderTest, can_judge

CLEAN = ".PHONY: all clean\nclean:\n\trm -rf a b *.tmp sub/x\n"


@can_judge
class RemovalTest(MakeFolderTest):
    """What they take away, and who makes it."""

    def test_what_needs_the_removal_is_made_again(self) -> None:
        """A removal of a file that isn't there yet hides no race."""
        self.write(
            {
                "Makefile": "all: a b c\na: in begin\n\tcp in a\nb: in begin\n\tcp in b\n"
                f"c: c.in\n\tcat a c.in > c\nbegin: clean\n\ttouch begin\n{CLEAN}",
                "in": "in\n",
                "c.in": "c\n",
            }
        )
        answer = self.imported()
        self.assertEqual(answer.findings, ["no race c a a", "no stale c a"])
        self.try_answer(answer)
        self.mend("c: a\n")

    def test_a_make_that_begins_behind_it(self) -> None:
        """That one looks for its targets when they are gone."""
        self.write(
            {
                "Makefile": f"all: clean\n\t$(MAKE) -C sub\n{CLEAN}",
                "sub/Makefile": "x: in\n\tcp in x\n",
                "sub/in": "in\n",
            }
        )
        answer = self.imported()
        self.assertEqual(answer.status, 0, answer.output + answer.errors)
        self.try_answer(answer)

    def test_a_make_that_looks_at_another_file(self) -> None:
        """`x` is there, so its recipe doesn't run again, and `a` stays away."""
        self.write(
            {
                "Makefile": f"all: clean\n\t$(MAKE) -C sub\n{CLEAN}".replace(" sub/x", ""),
                "sub/Makefile": "x: in\n\tcp in ../a; cp in x\n",
                "sub/in": "in\n",
            }
        )
        answer = self.imported()
        self.assertIn("both write a; let only one of them do so", answer.output)
        built = self.built()
        self.assertFalse((built / "a").exists())

    SETTINGS = (
        "prog: in begin\n\tcp in prog\nbegin: first\n\ttouch begin\nfirst: {}\n"
        "\t$(MAKE) -C sub\n\techo a >> settings\n\techo b >> settings\n"
        "distclean:\n\trm -f settings* prog\n.PHONY: first distclean\n"
    )

    def test_a_recipe_that_adds_to_what_was_taken_away(self) -> None:
        """It never finds its output, so it is right that it depends on that."""
        self.write(
            {
                "Makefile": self.SETTINGS.format("distclean"),
                "in": "in\n",
                "sub/Makefile": "x: y\n\tcp y x\n",
                "sub/y": "y\n",
            }
        )
        for keep in (False, True):
            answer = self.imported(replay=True, keep=keep)
            self.assertEqual(answer.status, 0, answer.output + answer.errors)
            self.assertNotIn("trust", answer.output)
        self.assertIn("0 of 5 recipes", answer.errors)
        built = self.built()
        self.assertEqual((built / "settings").read_text(), "a\nb\n")

    def test_a_recipe_that_adds_to_what_is_there(self) -> None:
        self.write(
            {
                "Makefile": self.SETTINGS.format(""),
                "in": "in\n",
                "sub/Makefile": "x: y\n\tcp y x\n",
                "sub/y": "y\n",
            }
        )
        answer = self.imported(replay=True)
        self.assertIn("the recipe of first, run where its own outputs are", answer.output)
        self.assertEqual((self.built() / "settings").read_text(), "a\nb\na\nb\n")

    def test_order_alone(self) -> None:
        """Make sees the old file before it is taken away, and doesn't make it again."""
        self.write({"Makefile": f"all: a\na: in | clean\n\tcp in a\n{CLEAN}", "in": "in\n"})
        answer = self.imported()
        self.assertIn("both write a; let only one of them do so", answer.output)
        built = self.copied("twice")
        for _ in range(2):
            self.assertEqual(self.make(built).returncode, 0)
        self.assertFalse((built / "a").exists())

    def test_nothing_orders_them(self) -> None:
        self.write({"Makefile": f"all: a clean\na: in\n\tcp in a\n{CLEAN}", "in": "in\n"})
        answer = self.imported()
        self.assertIn("both write a; let only one of them do so", answer.output)

    def test_a_file_that_a_first_build_alone_makes(self) -> None:
        """The settings that it leaves keep later ones from making it again."""
        self.write(
            {
                "Makefile": "prog: in begin\n\tcat in sub/x > prog\n-include settings\nbegin:\n"
                "\t@touch begin\nifneq ($(DONE),yes)\nbegin: first\nendif\nfirst:\n"
                "\trm -f settings\n\t$(MAKE) -C sub\n\techo DONE=yes > settings\n.PHONY: first\n",
                "in": "in\n",
                "sub/Makefile": "x: y\n\tcp y x\n",
                "sub/y": "y\n",
            }
        )
        answer = self.imported()
        self.assertIn(
            "Makefile:2: the recipe of prog reads sub/x, which the recipe of sub/x makes in a first"
            " build and in no later one, so it stays as it is when what it is made from changes",
            answer.output,
        )
        self.assertIn("no: 1 finding (5 recipes, ", answer.output)
        built = self.built()
        self.assertFalse(self.rebuilds(built, ["sub/y"], ["prog", "sub/x"]))


if __name__ == "__main__":
    unittest.main()
