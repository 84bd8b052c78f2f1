"""Builds that write outside of the project: nothing is written there, and the answer says so."""

from __future__ import annotations


from importer.make_folder import MakeFolderTest, can_judge
from importer.ninja_folder import has_ninja
from outside import assert_untouched, folder_outside

WRITES = ", since it writes outside of the project, which an import doesn't allow:\n"


class OutsideTestCase(MakeFolderTest):
    """A folder beside the tests, which stays as it is."""

    def setUp(self) -> None:
        super().setUp()
        self.outside = folder_outside(self)

    def refused(self, sentence: str, *words: str) -> None:
        """An import that isn't judged, and says why."""
        answer = self.imported(*words)
        self.assertIn(answer.status, (2, 4), answer.output + answer.errors)
        self.assertIn(sentence, answer.output + answer.errors)
        assert_untouched(self, self.outside)


@can_judge
class MakeOutsideTest(OutsideTestCase):
    """Builds of GNU make."""

    def test_recipe(self) -> None:
        for command in (f"cp a {self.outside}/new", f"echo > {self.outside}/there"):
            self.write({"Makefile": f"x: a\n\t{command}\n\tcp a x\n", "a": "a\n"})
            self.refused(WRITES)
            self.refused(
                "\nlet it write in the project or in the folders for temporary files, or import"
                " goals that don't need it\n"
            )

    def test_recipe_that_goes_on(self) -> None:
        self.write({"Makefile": f"x: a\n\t-rm {self.outside}/there\n\tcp a x\n", "a": "a\n"})
        self.refused("the recipe of x writes files outside the folder")

    def test_reading(self) -> None:
        line = f"$(shell mkdir {self.outside}/new)\n"
        self.write({"Makefile": f"{line}x: a\n\tcp a x\n", "a": "a\n"})
        self.refused(
            f"    make writes {self.outside}/new when it reads its makefiles, which is outside of"
            " the project and was refused here, so the build may do something else without an"
            " import; let it write in the project alone\n"
        )

    def test_reading_of_a_make_below(self) -> None:
        line = f"v := $(shell echo > {self.outside}/there)\n"
        self.write({"Makefile": "all:\n\t$(MAKE) -C sub\n.PHONY: all\n"})
        self.write({"sub/Makefile": f"{line}x: a\n\tcp a x\n", "sub/a": "a\n"})
        self.refused(f"    make writes {self.outside}/there when it reads its makefiles")

    def test_temporary_files(self) -> None:
        command = "t=$$(mktemp) && cp a $$t && cp $$t x && rm $$t"
        self.write({"Makefile": f"$(shell echo > /dev/null)\nx: a\n\t{command}\n", "a": "a\n"})
        answer = self.imported()
        self.assertEqual(answer.status, 0, answer.output + answer.errors)


@can_judge
@has_ninja
class NinjaOutsideTest(OutsideTestCase):
    """Builds of ninja."""

    def test_command(self) -> None:
        text = f"rule copy\n  command = cp $in {self.outside}/new && cp $in $out\n"
        self.write({"build.ninja": f"{text}build x: copy a\n", "a": "a\n"})
        self.refused("the recipe of x writes files outside the folder, which no footprint can name")
