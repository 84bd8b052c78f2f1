"""Builds that fail: the message has the command that failed and the lines that say why."""

from __future__ import annotations

import unittest

from importer.make_folder import MakeFolderTest, can_judge, has_make
from importer.ninja_folder import has_ninja
from mkcheck_tools.imports.failing import excerpt, failure_of_ninja

# A script that prints 100 lines, an error, and 100 more lines.
CONFIGURE = """#!/bin/sh
for i in $(seq 100); do echo "checking for error_$i.h... yes" >&2; done
echo "configure: error: no libfoo" >&2
for i in $(seq 100); do echo "checking for late$i... yes" >&2; done
exit 3
"""
HAS_ALL = "@LOG@ has all that was printed"
MIDDLE = [
    "(97 lines left out, see @LOG@)",
    *(f"checking for error_{number}.h... yes" for number in (98, 99, 100)),
    "configure: error: no libfoo",
    *(f"checking for late{number}... yes" for number in range(1, 12)),
]


class FailingTest(MakeFolderTest):
    """Folders whose build fails."""

    def failed(self, *words: str) -> list[str]:
        """The lines of the message on a build that fails."""
        answer = self.imported(*words)
        self.assertEqual((answer.status, answer.output), (2, ""))
        front = "mkcheck-import: the build failed"
        self.assertEqual(answer.errors.count(front), 1, answer.errors)
        lines = answer.errors[answer.errors.index(front) :].splitlines()
        self.log = answer.log.splitlines()
        return [line.replace(str(self.folder / ".mkcheck/import.log"), "@LOG@") for line in lines]


@has_make
class MakeFailingTest(FailingTest):
    """Builds of GNU make."""

    def test_the_output_of_the_command_that_failed(self) -> None:
        """What others printed isn't there, though it looks like an error."""
        self.write(
            {
                "Makefile": "all: a b c\na:\n\t@echo a: error: not this >&2; echo > a\n"
                "b:\n\techo > b\n\t@echo said; echo warned >&2; exit 7\nc:\n\techo > c\n",
            }
        )
        self.assertEqual(
            self.failed(),
            [
                "mkcheck-import: the build failed at the recipe of b (Makefile:5), so it can't be"
                " recorded:",
                "\techo said; echo warned >&2; exit 7",
                "said",
                "warned",
                "make: *** [Makefile:6: b] Error 7",
                "mend it until `make` in the project's folder succeeds, and import again",
                HAS_ALL,
            ],
        )
        self.assertNotIn("a: error: not this", self.log)

    def test_error_in_the_middle(self) -> None:
        self.write({"Makefile": "config.h: configure\n\t./configure\n", "configure": CONFIGURE})
        self.assertEqual(
            self.failed(),
            [
                "mkcheck-import: the build failed at the recipe of config.h (Makefile:2), so it"
                " can't be recorded:",
                "\t./configure",
                *MIDDLE,
                "(85 lines left out, see @LOG@)",
                *(f"checking for late{number}... yes" for number in (97, 98, 99, 100)),
                "make: *** [Makefile:2: config.h] Error 3",
                "mend it until `make` in the project's folder succeeds, and import again",
                HAS_ALL,
            ],
        )
        self.assertIn("checking for late50... yes", self.log)

    def test_make_below(self) -> None:
        """An earlier make that failed, which `-` allows, isn't the reason."""
        self.write(
            {
                "Makefile": "all:\n\t-$(MAKE) -C one\n\tfor d in two; do $(MAKE) -C $$d || exit 1;"
                " done\n",
                "one/Makefile": "x:\n\techo one: error >&2; false\n",
                "two/Makefile": "x: y\n\tcp y x\ny:\n\techo two: error >&2; false\n",
            }
        )
        lines = self.failed()
        self.assertIn("at the recipe of two/y (two/Makefile:4)", lines[0])
        self.assertEqual(lines[2:4], ["two: error", "make[1]: *** [Makefile:4: y] Error 1"])
        self.assertNotIn("one", "\n".join(lines))

    def test_makefile_below_that_cannot_be_read(self) -> None:
        self.write({"Makefile": "all:\n\t$(MAKE) -C sub\n", "sub/Makefile": "x: y\ny y\n"})
        lines = self.failed()
        self.assertIn("the build failed at make in sub, so it can't be recorded:", lines[0])
        self.assertEqual(lines[1], "Makefile:2: *** missing separator.  Stop.")

    def test_make_that_goes_on(self) -> None:
        """With -k the last command isn't the one that failed."""
        self.write(
            {
                "Makefile": "MAKEFLAGS += -k\nall: x y\nx:\n\t@echo x: error >&2; false\n"
                "y:\n\techo > y\n",
            }
        )
        lines = self.failed()
        self.assertEqual(lines[1:3], ["x: error", "make: *** [Makefile:4: x] Error 1"])

    def test_one_shell(self) -> None:
        """The output can't be told from the commands, so both are shown as printed."""
        self.write({"Makefile": ".ONESHELL:\nx:\n\techo said\n\techo error: it >&2\n\tfalse\n"})
        lines = self.failed()
        self.assertEqual(lines[1:5], ["echo said", "echo error: it >&2", "false", "said"])
        self.assertEqual(lines[5:7], ["error: it", "make: *** [Makefile:3: x] Error 1"])

    def test_a_recipe_sees_no_marks(self) -> None:
        """What a make below says is handed on as it is, though the importer adds lines to it."""
        self.write(
            {
                "Makefile": "x:\n\t$(MAKE) -s -C sub 2> x; printf 'no newline\\n' | cmp - x\n",
                "sub/Makefile": "all:\n\t@printf 'no ' >&2\n\t@echo newline >&2\n",
            }
        )
        answer = self.imported("--only", "translate", "--build")
        self.assertIn(answer.status, (0, 4), answer.errors)
        self.assertNotIn("failed", answer.output + answer.errors)

    def test_commands_of_many_lines(self) -> None:
        lines = "".join(f"echo {number} && \\\n\t" for number in range(20))
        self.write({"Makefile": f"x:\n\t{lines}false\n"})
        found = self.failed()
        self.assertEqual(found[1], "\techo 0 && \\")
        self.assertEqual(found[5], "\t(17 more lines, see @LOG@)")
        self.assertIn("\techo 19 && \\", self.log)

    @can_judge
    def test_a_recipe_that_fails_by_the_recorder_alone(self) -> None:
        """It runs without what make hands down."""
        self.write(
            {
                "Makefile": "all: a b\na:\n\techo > a\n"
                'b:\n\ttest "$$MAKELEVEL" || { echo no level >&2; exit 3; }; echo > b\n',
            }
        )
        answer = self.imported()
        self.assertEqual(answer.status, 4, answer.output + answer.errors)
        self.assertRegex(
            answer.output,
            r"the recipe of b failed, status 3, at .*; its last lines, of all in"
            r" \S+/import\.log:\n(?: {8}.*\n)* {8}no level\n",
        )
        self.assertIn("\nno level\n", answer.log)


@has_make
@has_ninja
class NinjaFailingTest(FailingTest):
    """Builds of ninja."""

    def test_the_first_command_that_failed(self) -> None:
        self.write(
            {
                "build.ninja": "rule r\n  command = sh $in $out\nbuild a: r good\n"
                "build b: r bad\nbuild c: r bad\nbuild d: r good\ndefault a b c d\n",
                "good": "echo error: not this; echo > $1\n",
                "bad": "echo said; echo $1 is bad >&2; exit 7\n",
            }
        )
        lines = self.failed()
        self.assertEqual(lines[6:], [HAS_ALL])
        self.assertRegex(lines[0], "failed at the command of [bc], so it can't be recorded:$")
        name = lines[1][-1]
        other = "b" if name == "c" else "c"
        self.assertEqual(
            lines[1:],
            [
                f"\tsh bad {name}",
                "said",
                f"{name} is bad",
                f"(1 more failed: {other})",
                "mend it until `ninja` in the project's folder succeeds, and import again",
                HAS_ALL,
            ],
        )

    def test_error_in_the_middle(self) -> None:
        self.write(
            {
                "build.ninja": "rule r\n  command = ./configure\nbuild x: r\n",
                "configure": CONFIGURE,
            }
        )
        lines = self.failed()
        self.assertEqual(lines[1:18], ["\t./configure", *MIDDLE])
        self.assertEqual(lines[18], "(84 lines left out, see @LOG@)")
        self.assertEqual(lines[23], "checking for late100... yes")

    def test_console(self) -> None:
        """A command of the pool `console` prints before ninja says that it failed."""
        command = "echo said; echo wrong >&2; false"
        text = f"rule r\n  command = {command}\n  pool = console\nbuild x: r\n"
        self.write({"build.ninja": text})
        self.assertEqual(self.failed()[2:4], ["said", "wrong"])


class LinesTest(unittest.TestCase):
    """Which lines are shown."""

    def test_few(self) -> None:
        lines = [f"line {number}" for number in range(20)]
        self.assertEqual(excerpt(lines, "log"), lines)

    def test_no_error(self) -> None:
        """Where no line looks like an error, the last ones are shown."""
        lines = [f"line {number}" for number in range(30)]
        self.assertEqual(excerpt(lines, "log"), ["(10 lines left out, see log)", *lines[10:]])

    def test_one_line(self) -> None:
        lines = ["main.c:1: error: this", *(f"line {number}" for number in range(20))]
        found = [*lines[:15], "(1 line left out, see log)", *lines[16:]]
        self.assertEqual(excerpt(lines, "log"), found)

    def test_preferred(self) -> None:
        """A line that says `error:` is preferred to one that only may be one."""
        lines = ["checking whether it failed... no"] * 30
        lines += ["cc: fatal error: no input files", *["more"] * 30]
        self.assertEqual(excerpt(lines, "log")[4], "cc: fatal error: no input files")

    def test_ninja_below_ninja(self) -> None:
        inner = "[1/2] false\nFAILED: y \nfalse\nno luck\nninja: build stopped: x.\n"
        outer = f"[1/3] a\n[2/3] ninja -C d\nFAILED: [code=1] x \nninja -C d\n{inner}"
        end = "[3/3] false\nFAILED: z \nfalse\nninja: build stopped: x.\n"
        found = failure_of_ninja(outer + end, "")
        self.assertEqual((found.what, found.commands), ("the command of x", ["ninja -C d"]))
        self.assertEqual(found.lines, inner.splitlines())
        self.assertEqual(found.others, "(1 more failed: z)")


if __name__ == "__main__":
    unittest.main()
