"""Dependency files are read as ninja reads them."""

from __future__ import annotations

from importer.ninja_folder import NinjaFolderTest, has_ninja
from mkcheck_tools.imports.depfiles import DepfileFault, read_depfile
from mkcheck_tools.imports.ninja_files import canonical

# The text of a dependency file of `out`, and the prerequisites that it names.
TEXTS: dict[str, list[str]] = {
    "out: a b\n": ["a", "b"],
    "out: a \\\n  b \\\r\n c\n": ["a", "b", "c"],
    "out: a\nout: b\n": ["a", "b"],
    "out: a b\na:\nb:\n": ["a", "b"],
    "out: a a b a\n": ["a", "b"],
    "out: a\\ b c\\#d e$$f g\\:h\n": ["a b", "c#d", "e$f", "g:h"],
    "out: a\\\\ b\n": ["a\\\\", "b"],
    "out: a\\\\\\ b\n": ["a\\ b"],
    "out : a\n": ["a"],
    "out: a": ["a"],
    "out:\n": [],
    "out: C:/x a~b (c) d[e] f{g}\n": ["C:/x", "a~b", "(c)", "d[e]", "f{g}"],
    "out: dir/../a ./b //c\n": ["dir/../a", "./b", "//c"],
    "out: é\n": ["é"],
    "": [],
}
REFUSED = ["a b c\n", "out:a\n", "out: a\na: b\n"]


class DepfileTest(NinjaFolderTest):
    """What is read of a dependency file."""

    def test_prerequisites(self) -> None:
        """Each text gives the prerequisites that stand beside it."""
        for text, expected in TEXTS.items():
            with self.subTest(text):
                self.assertEqual(read_depfile(text).prerequisites, expected)

    def test_refused(self) -> None:
        """A text without a target, and a prerequisite that has prerequisites, are faults."""
        for text in REFUSED:
            with self.subTest(text), self.assertRaises(DepfileFault):
                read_depfile(text)

    @has_ninja
    def test_ninja_reads_the_same(self) -> None:
        """What ninja notes after it built with each text is what was read of it."""
        lines = ["rule r\n  command = cp text$n d$n && touch $out\n  depfile = d$n\n  deps = gcc\n"]
        files, expected = {}, {}
        for number, text in enumerate(TEXTS):
            lines.append(f"build out{number}: r\n  n = {number}\n")
            files[f"text{number}"] = text
            expected[f"out{number}"] = read_depfile(text).prerequisites
        self.write({"build.ninja": "".join(lines), **files})
        built = self.ninja()
        self.assertEqual(built.returncode, 0, built.stdout)
        mine = {name: [canonical(path) for path in paths] for name, paths in expected.items()}
        self.assertEqual(mine, self.discovered())

    @has_ninja
    def test_ninja_refuses_the_same(self) -> None:
        """What is a fault stops ninja too."""
        for text in REFUSED:
            with self.subTest(text):
                rule = "rule r\n  command = cp text d && touch $out\n  depfile = d\n  deps = gcc\n"
                self.write({"build.ninja": rule + "build out: r\n", "text": text})
                self.assertNotEqual(self.ninja().returncode, 0)
