"""Dyndep files are read as ninja reads them."""

from __future__ import annotations

from importer.ninja_folder import NinjaFolderTest, has_ninja
from mkcheck_tools.imports.ninja_dyndeps import Addition, read_dyndeps
from mkcheck_tools.imports.ninja_text import NinjaFault

VERSION = "ninja_dyndep_version = 1\n"
ACCEPTED: dict[str, Addition] = {
    VERSION + "build out: dyndep\n": Addition(),
    "# c\n\n" + VERSION + "build out | a b/../c: dyndep | d$ e\n": Addition(["a", "c"], ["d e"]),
    "ninja_dyndep_version = 1.0-x\nbuild out: dyndep\n  restat = 1\n": Addition(restat=True),
}
REFUSED = (
    "",
    "build out: dyndep\n",
    VERSION,
    "ninja_dyndep_version = 2\nbuild out: dyndep\n",
    VERSION + "build out: other\n",
    VERSION + "build out out2: dyndep\n",
    VERSION + "build out: dyndep in\n",
    VERSION + "build out: dyndep || in\n",
    VERSION + "build out: dyndep\nbuild out: dyndep\n",
    VERSION + "build out: dyndep\n  command = x\n",
    VERSION + "x = 1\nbuild out: dyndep\n",
)


class DyndepTest(NinjaFolderTest):
    """What is read of a dyndep file."""

    def test_accepted(self) -> None:
        """The outputs and inputs, and `restat`."""
        for text, expected in ACCEPTED.items():
            with self.subTest(text):
                self.assertEqual(read_dyndeps("dd", text), {"out": expected})

    def test_refused(self) -> None:
        """Other texts are faults, or don't mention the output."""
        for text in REFUSED:
            with self.subTest(text):
                try:
                    found = read_dyndeps("dd", text)
                except NinjaFault as fault:
                    self.assertRegex(str(fault), "^dd:[0-9]+: ")
                else:
                    self.assertNotIn("out", found)

    @has_ninja
    def test_ninja_says_the_same(self) -> None:
        """Ninja takes and refuses the same texts."""
        rule = "rule r\n  command = touch $out a c\nbuild out: r || dd\n  dyndep = dd\n"
        for text in (*ACCEPTED, *REFUSED):
            with self.subTest(text):
                self.write({"build.ninja": rule, "dd": text, "d e": ""})
                self.assertEqual(self.ninja("-n").returncode == 0, text in ACCEPTED)
