"""A makefile that starts make in its own folder, as Automake's `all: all-recursive` does."""

from __future__ import annotations

from importer.make_folder import Answer, MakeFolderTest, can_judge

# What another folder makes is needed, for which `make -n` would fail.
MAKEFILE = (
    "all:\n"
    "\t$(MAKE) all-recursive\n"
    "all-recursive:\n"
    "\tfor d in low . high; do test $$d = . && t=own || t=all;"
    " (cd $$d && $(MAKE) $$t) || exit 1; done\n"
    "own: a\n"
    "a: s\n"
    "\tcp s a\n"
    ".PHONY: all all-recursive own\n"
)


@can_judge
class AgainTest(MakeFolderTest):
    """Makes of one folder know the same rules, and each runs some."""

    def setUp(self) -> None:
        super().setUp()
        self.write(
            {
                "Makefile": MAKEFILE,
                "s": "s\n",
                "low/Makefile": "all: b\nb: c\n\tcp c b\n.PHONY: all\n",
                "low/c": "c\n",
                "high/Makefile": "all: d\nd: ../a ../low/b\n\tcat ../a ../low/b > d\n.PHONY: all\n",
            }
        )

    def imported_right(self, *words: str) -> Answer:
        """The import, whose answer is a yes for each recipe."""
        answer = self.imported("--no-replay", *words)
        self.assertEqual(answer.status, 0, answer.output + answer.errors)
        self.assertEqual(sorted(answer.records), ["a", "all-recursive@commands", "high/d", "low/b"])
        self.try_answer(answer)
        return answer

    def test_real_build(self) -> None:
        self.assertIn("--build was given", self.imported_right("--build").log)

    def test_what_make_would_do(self) -> None:
        self.assertNotIn("real build", self.imported_right().log)
