"""Ninja files are read as ninja reads them: its commands are compared, its refusals too."""

from __future__ import annotations

from importer.ninja_folder import NinjaFolderTest, has_ninja
from mkcheck_tools.imports.ninja_files import Edge, Manifest, canonical, quoted, read_manifest
from mkcheck_tools.imports.ninja_text import NinjaFault

RULE = "rule r\n  command = run $in to $out\n"

# Manifests that ninja takes, each with the files that belong to it.
ACCEPTED: dict[str, dict[str, str]] = {
    "values of a build line don't see each other, paths do": {
        "build.ninja": "x = 1\nrule r\n  command = echo $x $y ${x}.$z $in $out\n"
        "y = $x.2\n"
        "build a b: r c d | e || f |@ g\n  x = 5\n  z = $x\n"
        "build $x$y/o$ ut$:a: r in$ put a$$b\nbuild k: r l\n  d = m\nbuild n$d: r o$d\n  d = p\n"
        "build g: phony c\nbuild e f: phony\n"
    },
    "lines go on behind an escaped newline": {
        "build.ninja": "rule r\n  command = one$\n     two $\n   three\n"
        "build a $\n  b: $\n r $\n   c\n"
    },
    "rules are expanded late, and see in and out": {
        "build.ninja": "flags = -O\nrule r\n  description = d $out of $in\n"
        "  command = cc $flags $own $description '$in_newline'\n"
        "build a: r b c\nflags = -g\nbuild d: r e\n  own = -W\n"
    },
    "a variable of the file goes before the rule's, save where the build line has a block": {
        "build.ninja": "description = file\nrule r\n  command = cc $description $depfile\n"
        "  description = rule\nbuild a: r x\nbuild b: r x\n  z = 1\n"
    },
    "include shares the scope, subninja has one of its own": {
        "build.ninja": "v = top\nw = w0\nrule r\n  command = echo $v $w $out\n"
        "rule inner\n  command = outer $out\n"
        "include one.ninja\nsubninja two.ninja\nbuild z: r a\nbuild y: inner\n",
        "one.ninja": "w = w1\nbuild i: r\n",
        "two.ninja": "v = two\nrule inner\n  command = inner $out $v\n"
        "build s: r\nbuild t: inner | s\n",
    },
    "names of included files have variables": {
        "build.ninja": RULE + "part = sub/more\nsubninja $part.ninja\n",
        "sub/more.ninja": "include sub/last.ninja\nbuild b: r a\n",
        "sub/last.ninja": "build c: r b\n",
    },
    "paths are made canonical": {
        "build.ninja": RULE + "build ./a/../b//c: r ../x/./y /p//q/../r x/ ../../z //s .\n"
        "build d: r b/c a/..\n"
    },
    "comments and blanks": {
        "build.ninja": "# c\nrule r\n  # inside\n  command = echo $v hi # not\n   # more\n"
        "build a: r   b\n  v = 1\n  # z\n    w = 2\n   \nbuild c: r\n"
    },
    "lines that end in a carriage return": {
        "build.ninja": "rule r\r\n  command = echo $\r\n   $in\r\n\r\n"
        "build a: r b\r\n  x = 1\r\n"
    },
    "what the shell would see is quoted": {
        "build.ninja": RULE + "build a+b@c=d%e'f: r x,y ~z $$q (p) *w a_b-c.d/e {f} [g] !h é\n"
    },
    "pools": {
        "build.ninja": "pool one\n  depth = 1\np = one\nrule r\n  command = x $out\n"
        "  pool = $p\nbuild a: r\nbuild b: r\n  pool = console\nbuild c: r\n  pool =\n"
    },
    "a name that stands for itself": {
        "build.ninja": RULE + "build a: phony a b || a\nbuild c: r a\n"
    },
    "a rule named phony in a scope of its own": {
        "build.ninja": "subninja s.ninja\n",
        "s.ninja": "rule phony\n  command = real $out\nbuild a: phony\nbuild b: phony a\n",
    },
    "keywords as names": {
        "build.ninja": "rule build\n  command = q $default $out\ndefault_x = 1\nrule.x = 2\n"
        "build build: build rule\n  default = 3 $default_x ${rule.x}\n"
    },
    "dots end a short reference": {
        "build.ninja": "a.b = 1\na = 2\na-b = 3\nrule r\n  command = $a.b ${a.b} $a-b ${a}-b\n"
        "build x: r\n"
    },
    "marks within a value are text": {
        "build.ninja": "a = b : c | d || e =\nrule r\n  command = $a\nbuild x: r\n"
    },
    "only implicit outputs": {"build.ninja": RULE + "build | b: r a\nbuild c: r b\n"},
    "default goals": {
        "build.ninja": RULE + "build a: r x\nbuild b: r x\nbuild c: r x\ndefault b\ndefault a b\n"
    },
    "nothing": {"build.ninja": ""},
}

# Manifests that ninja refuses.
REFUSED: dict[str, str] = {
    "a tab": "rule r\n\tcommand = x\n",
    "no newline at the end": RULE + "build a: r",
    "a rule without a command": "rule r\n  depfile = x\n",
    "a variable that no rule has": "rule r\n  command = x\n  other = 3\n",
    "an indented line alone": "  x = 3\n",
    "an indented line behind an empty one": RULE + "build a: r\n\n  v = 3\n",
    "an escape that there isn't": "rule r\n  command = $%\nbuild a: r\n",
    "an unknown rule": "build a: q\n",
    "an unknown pool": "rule r\n  command = x\n  pool = nope\nbuild a: r\n",
    "a second rule of a name": RULE + RULE,
    "a second pool of a name": "pool p\n  depth = 1\npool p\n  depth = 2\n",
    "a pool without a depth": "pool p\n",
    "half a response file": "rule r\n  command = x\n  rspfile = q\n",
    "an empty path": "rule r\n  command = x\nbuild $q: r\n",
    "an output twice": RULE + "build a: r\nbuild b | a: r\n",
    "an output twice in a line": RULE + "build a a: r\n",
    "default without a name": RULE + "build b: r a\ndefault\n",
    "default of an unknown name": RULE + "build b: r a\ndefault c\n",
    "a colon within a path": RULE + "build a: r b:c\n",
    "no output": RULE + "build : r a\n",
    "an escape at the end": "a = $",
    "a byte 0": "rule r\n  command = a\0b\n",
    "a file that isn't there": "include nope\n",
    "text behind a rule's name": "rule r s\n  command = x\n",
}


def commands_of(manifest: Manifest) -> list[str]:
    """The commands of all build lines that the goals reach, each behind those that it needs."""
    found: list[str] = []
    seen: set[int] = set()

    def visit(edge: Edge) -> None:
        if id(edge) in seen:
            return
        seen.add(id(edge))
        for path in edge.inputs + edge.order_only:
            if path in manifest.maker:
                visit(manifest.maker[path])
        if not edge.is_phony:
            found.append(edge.value("command"))

    for path in manifest.roots():
        if path in manifest.maker:
            visit(manifest.maker[path])
    return found


class GrammarTest(NinjaFolderTest):
    """What is read of a manifest."""

    @has_ninja
    def test_commands_are_those_of_ninja(self) -> None:
        """Ninja's list of commands is that of the manifest as it was read."""
        for about, files in ACCEPTED.items():
            with self.subTest(about):
                self.write(files)
                shown = self.ninja("-t", "commands")
                self.assertEqual(shown.returncode, 0, shown.stderr)
                commands = commands_of(read_manifest(str(self.folder)))
                self.assertEqual("".join(f"{one}\n" for one in commands), shown.stdout)

    def test_what_ninja_refuses_is_refused(self) -> None:
        """Each faulty manifest is a fault with a file and a line."""
        for about, text in REFUSED.items():
            with self.subTest(about):
                self.write({"build.ninja": text})
                with self.assertRaisesRegex(NinjaFault, r"^\S+:[0-9]+: [^\n]+$"):
                    read_manifest(str(self.folder))

    @has_ninja
    def test_ninja_refuses_it(self) -> None:
        """The faulty manifests are those that ninja refuses."""
        for about, text in REFUSED.items():
            with self.subTest(about):
                self.write({"build.ninja": text})
                self.assertNotEqual(self.ninja("-t", "commands").returncode, 0)

    def test_kinds_of_inputs_and_outputs(self) -> None:
        """Each list of a build line is kept apart, and the line is known."""
        self.write({"build.ninja": RULE + "\nbuild a b | c: r d | e || f g |@ h\n"})
        edge = read_manifest(str(self.folder)).edges[0]
        self.assertEqual((edge.file, edge.line), ("build.ninja", 4))
        self.assertEqual((edge.explicit_outputs, edge.implicit_outputs), (["a", "b"], ["c"]))
        self.assertEqual((edge.explicit_inputs, edge.implicit_inputs), (["d"], ["e"]))
        self.assertEqual((edge.order_only, edge.validations), (["f", "g"], ["h"]))
        self.assertEqual(edge.value("command"), "run d to a b")

    def test_lines_of_faults(self) -> None:
        """A fault names the line on which it is."""
        self.write({"build.ninja": "# one\nx = $\n  two\nbuild a: nope b\n"})
        with self.assertRaisesRegex(NinjaFault, "^build.ninja:4: there is no rule nope$"):
            read_manifest(str(self.folder))

    def test_files_that_include_each_other(self) -> None:
        """They are a fault, and not an endless loop."""
        self.write({"build.ninja": "include other.ninja\n", "other.ninja": "include build.ninja\n"})
        with self.assertRaisesRegex(NinjaFault, "include each other"):
            read_manifest(str(self.folder))

    def test_variables_that_need_each_other(self) -> None:
        """They are a fault where they are used."""
        rule = "rule r\n  command = $depfile\n  depfile = $command\n"
        self.write({"build.ninja": rule + "build a: r\n"})
        edge = read_manifest(str(self.folder)).edges[0]
        with self.assertRaisesRegex(NinjaFault, "command -> depfile -> command"):
            edge.value("command")

    def test_roots(self) -> None:
        """The goals are those of default lines, else what no build line takes."""
        lines = "build a: r x\nbuild b: r a\nbuild c: r y || d\nbuild d: r z\n"
        self.write({"build.ninja": RULE + lines})
        self.assertEqual(read_manifest(str(self.folder)).roots(), ["b", "c"])
        self.write({"build.ninja": RULE + "build a: r x\nbuild b: r a\ndefault a\n"})
        self.assertEqual(read_manifest(str(self.folder)).roots(), ["a"])

    def test_paths(self) -> None:
        """Paths are compared without `.`, doubled slashes and steps back."""
        paths = {"./a": "a", "a//b/": "a/b", "a/../b": "b", "../a": "../a", "//a": "/a"}
        for path, expected in paths.items():
            self.assertEqual(canonical(path), expected)

    def test_quotes(self) -> None:
        """In commands a path is quoted where it has a byte that the shell could see."""
        paths = {"a/b+c-d_e.f": "a/b+c-d_e.f", "a b": "'a b'", "a'b": "'a'\\''b'", "a=b": "'a=b'"}
        for path, expected in paths.items():
            self.assertEqual(quoted(path), expected)
