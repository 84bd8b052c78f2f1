"""Names of the translated makefile in what is told."""

from __future__ import annotations

import unittest

from importer.make_folder import MakeFolderTest, can_judge
from mkcheck_tools.imports.builds import Build, Node
from mkcheck_tools.imports.known_names import KnownNames
from mkcheck_tools.imports.plain import names_of


class ReplaceTest(unittest.TestCase):
    """Sentences of the recorder and of mkcheck."""

    def test_parts_and_targets_of_other_makes(self) -> None:
        build = Build("/p", goals=["a", "a@commands", "a@commands.2", "b@make2", "c@d", "e f"])
        for name in build.goals:
            build.nodes[name] = Node(name, piece_of="a" if "commands" in name else "")
        build.nodes["b@make2"].known_as = "b"
        known = KnownNames.of(build, names_of(build))
        for text, told in {
            "the recipe of a@commands, as that of a@commands.2.": "the recipe of a, as that of a.",
            "(b@make2) and 'c@d'": "(b) and 'c@d'",
            "e@20f: x@y": "e f: x@y",
        }.items():
            self.assertEqual(known.replace(text), told)


@can_judge
class TrustTest(MakeFolderTest):
    """What an answer says of a part can be given to `--trust`."""

    def test_a_recipe_that_starts_a_make_too(self) -> None:
        self.write(
            {
                "Makefile": "all:\n\t$(MAKE) -C sub\n\tcat more >> log\n.PHONY: all\n",
                "more": "more\n",
                "sub/Makefile": "x: in\n\tcp in x\n",
                "sub/in": "in\n",
            }
        )
        answer = self.imported(replay=True)
        self.assertIn("the recipe of all, run where its own outputs are", answer.output)
        self.assertIn("give --trust all to take the recipe as it is", answer.output)
        self.assertNotIn("@", answer.output)
        answer = self.imported("--trust", "all", replay=True)
        self.assertIn("trusted, and not shown to be right: the recipe of all,", answer.output)
        self.assertNotIn("@", answer.output)


if __name__ == "__main__":
    unittest.main()
