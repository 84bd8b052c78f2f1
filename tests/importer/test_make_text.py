"""What GNU make prints, and how it is read: the data base, marked commands, prefixes, words."""

from __future__ import annotations

import os
import shutil
import subprocess
import tempfile
import unittest
from pathlib import Path
from types import SimpleNamespace
from typing import Any

from mkcheck_tools.faults import Failure, failure_of
from mkcheck_tools.imports.builds import Build, Command, Kind, Node, Origin, Setting, path_name
from mkcheck_tools.imports.database import Database, read_database
from mkcheck_tools.imports.gnumake import WRAPPER, Make, is_harmless, options_of
from mkcheck_tools.imports.judging import sentence
from mkcheck_tools.imports.ordering import Order
from mkcheck_tools.imports.plain import makefile, quoted, shell_text
from mkcheck_tools.imports.recursion import is_only_makes, without_makes
from mkcheck_tools.imports.rereading import is_same_to_shell
from mkcheck_tools.imports.saving import build_of_text, text_of_build
from mkcheck_tools.imports.transcripts import BEGINNING, MARK, prefix_of, read_transcript
from mkcheck_tools.imports.translating import Translation
from mkcheck_tools.imports.trying import Said, Trial
from mkcheck_tools.imports.views import Subject
from mkcheck_tools.judge.refusals import started_make
from mkcheck_tools.run.paths import RealPath, SeenPath
from mkcheck_tools.run.places import Place
from waits import SECONDS_AT_MOST

A_FUNCTION = "a function, as $(if ..) or $(shell ..), or a computed name"

# As GNU make 4.3 prints it, shortened.
BASE = """
# Make data base, printed on Sat Nov 28 12:08:49 2026

# Variables

# makefile
CURDIR := /tmp/x
# makefile (from 'Makefile', line 1)
Q = -@
# default
.DEFAULT_GOAL := prog

# Files

prog: a.o my file | obj
#  Implicit rule search has not been done.
#  Implicit/static pattern stem: ''
#  File does not exist.
#  File has been updated.
#  Successfully updated.
# automatic
# @ := prog
#  recipe to execute (from 'Makefile', line 3):
\tcc -o $@ \\
\t  $^
\t$(Q)touch $@

# makefile (from 'Makefile', line 7)
a.o: MODE = fast
a.o: a.c
#  Implicit rule search has been done.
#  Also makes: a.lst a.o
#  File is an intermediate prerequisite.
#  recipe to execute (built-in):
\t$(COMPILE.c) $<

# Not a target:
a.c:
#  Implicit rule search has been done.
#  Last modified 2026-11-28 12:14:30.247766465
#  File has been updated.
#  Successfully updated.

# Not a target:
my file:
#  Implicit rule search has been done.

log:: one
#  Phony target (prerequisite of .PHONY).
#  recipe to execute (from 'sub.mk', line 9):
\techo one

log:: two
#  Phony target (prerequisite of .PHONY).

# Not a target:
.c.o:
#  Builtin rule
#  recipe to execute (built-in):
\t$(COMPILE.c) $<

# files hash-table stats:
"""


def mark(target: str, member: str = "") -> str:
    """The mark in front of a command."""
    return "\t".join([MARK, target, member, "/bin/sh", "-c", "default"]) + "\n"


class DatabaseTest(unittest.TestCase):
    """The data base of `make -p`."""

    def test_rules(self) -> None:
        base = read_database(BASE)
        prog = base.rules["prog"][0]
        self.assertEqual((prog.needs, prog.order_only), (["a.o", "my file"], ["obj"]))
        self.assertEqual(prog.recipe, ["\tcc -o $@ \\\n\t  $^", "\t$(Q)touch $@"])
        self.assertEqual((prog.makefile, prog.line), ("Makefile", 3))
        self.assertTrue(prog.is_target and prog.is_done and prog.has_recipe)
        a = base.rules["a.o"][0]
        self.assertEqual((a.also_makes, a.makefile, a.line), (["a.lst"], "", None))
        self.assertTrue(a.is_intermediate and not a.is_done)
        self.assertEqual([(macro.name, macro.line) for macro in a.macros], [("MODE", 7)])
        self.assertFalse(base.rules["a.c"][0].is_target)
        self.assertEqual([rule.needs for rule in base.rules["log"]], [["one"], ["two"]])
        self.assertTrue(all(rule.is_phony and rule.double_colon for rule in base.rules["log"]))
        self.assertNotIn(".c.o", base.rules)
        self.assertEqual(base.values["CURDIR"], "/tmp/x")


class TranscriptTest(unittest.TestCase):
    """Commands after their marks."""

    def commands(self, text: str, base: str = BASE) -> dict[str, list[tuple[str, bool]]]:
        """The commands of each target, and whether their failure is ignored."""
        found = read_transcript((text + base).encode(), []).base.rules
        return {
            name: [(one.text, one.ignored) for rule in rules for one in rule.commands]
            for name, rules in found.items()
            if any(rule.commands for rule in rules)
        }

    def test_commands(self) -> None:
        text = (
            mark("a.o") + mark("a.o") + "cc a.c\n" + mark("prog") + "cc -o prog \\\n  a.o\nsaid\n"
            "no newline" + mark("prog") + "touch prog\n" + mark("log") + "make: Nothing to do.\n"
        )
        self.assertEqual(
            self.commands(text),
            {
                "a.o": [("cc a.c", False)],
                "prog": [("cc -o prog \\\n  a.o", False), ("touch prog", True)],
            },
        )

    def test_trace(self) -> None:
        text = mark("prog") + "Makefile:3: target 'prog' does not exist\n" + mark("prog") + "cc\n"
        self.assertEqual(self.commands(text), {"prog": [("cc", False)]})

    def test_last_beginning(self) -> None:
        """A make that has remade its makefiles begins anew."""
        before = f"{BEGINNING}\n" + mark("a.o") + f"old\n{BEGINNING}\n"
        self.assertEqual(self.commands(before + mark("a.o") + "new\n"), {"a.o": [("new", False)]})

    def test_what_a_recipe_prints_is_no_end(self) -> None:
        base = "# Make data base, printed on x\n# Finished Make data base on x\n"
        text = mark("a.o") + f"cc\n{base}" + mark("a.o") + "ld\n"
        self.assertEqual(self.commands(text), {"a.o": [("cc", False), ("ld", False)]})

    def test_member(self) -> None:
        self.assertEqual(self.commands(mark("l.a", "m.o") + "ar\n"), {"l.a(m.o)": [("ar", False)]})

    def test_no_base(self) -> None:
        self.assertFalse(read_transcript(b"make: *** missing separator\n", []).is_whole)

    def test_prefixes(self) -> None:
        values = {"Q": "@", "DASH": "-$(Q)", "CMD": "-cmd", "X": "x"}
        for line, prefix in (
            ("\t@-x", "\t@-"),
            ("\t $(DASH)x", "\t -@"),
            ("$(CMD) x", "-"),
            ("$(X)-y", ""),
            ("$(NONE)-y", "-"),
            ("$Q+x", "@+"),
        ):
            with self.subTest(line):
                self.assertEqual(prefix_of(line, values), prefix)


class AdviceTest(unittest.TestCase):
    """What the recorder advises by options of its own."""

    def test_make_in_a_recipe(self) -> None:
        for folder, said in (
            ("/p/lib", "import that folder by itself (mkcheck-import -C lib), and here goals that"),
            ("/p", "its build isn't judged here; import its goals by themselves, and here goals"),
        ):
            place = Place(RealPath("/p"), SeenPath("/p"))
            failure = failure_of(started_make("x", "make", SeenPath(folder), place), "x")
            self.assertIn("--opaque", failure.text)
            text = sentence(failure, "log")
            self.assertIn(said, text)
            self.assertNotIn("--opaque", text)
            self.assertNotIn("mkcheck-record", text)

    def test_other_reasons(self) -> None:
        failure = Failure("x", "the recipe of x differs\n\tline 1 was 3")
        wanted = "the recipe of x differs\n        line 1 was 3"
        self.assertEqual(sentence(failure, "log"), wanted)


class ConditionTest(unittest.TestCase):
    """Lines of makefiles that compare a macro whose value comes from a file."""

    def place(self, text: str, value: str = "V = 1\nW = x$(V)", *others: str) -> str:
        """Where a makefile compares `V` or `W`, which have these values, and others with other
        contents of a file."""

        def said(values: str) -> Said:
            pairs = dict(line.split(" = ") for line in values.splitlines())
            make: Any = SimpleNamespace(base=Database(values=pairs))
            return Said([make], [])

        with tempfile.TemporaryDirectory() as folder:
            Path(folder, "Makefile").write_text(text)
            trial = Trial(folder, {"Makefile"}, set(), lambda _: [], lambda *_: "")
            trial.__dict__["before"] = [said(value), said(value)]
            return trial.conditional([said(one) for one in others or ("V = 2\nW = x$(V)",)])

    def decides(self, what: str, *lines: str) -> None:
        """Each of these lines is told as what decides."""
        for line in lines:
            self.assertEqual(self.place(f"\n{line}\nx:\n"), f"Makefile:2: {what}", line)

    def test_conditions(self) -> None:
        self.decides("a condition", "ifeq ($(V),1)", "else ifneq (${V}, 2)", "ifdef W")
        self.decides("an include line", "include $(V).mk", "-include a \\\n $(W).mk")
        self.decides(
            A_FUNCTION,
            "F = $(if $V,a)",
            "F = $(filter 1,$(W))",
            "F = $(words $(V)) $(G)",
            "F = $(suffix $(V))",
            "F = $(F_$(V))",
            "\techo $(shell test $(V) = 1)",
        )

    def test_plain_uses(self) -> None:
        for line in (
            "F = $(V) $(subst 1,2,$(W)) $(patsubst %,a,$(V))",
            "\techo $$($(SED) -n $(V)) | $(F)",
            "V := $(shell cat file)",
            "ifeq ($(F),1)",
            "F = $(if $(G),a)",
        ):
            self.assertEqual(self.place(f"\n{line}\nx:\n"), "", line)

    def test_emptiness(self) -> None:
        """That a macro is empty was tried, where it was."""
        tried = "V = 1\nW = 1", "V = \nW = 2"
        for line in ("ifeq ($(V),)", "ifneq (,$(V)) # it is there", 'ifeq "$(V)" ""', "ifdef V"):
            self.assertEqual(self.place(f"\n{line}\nx:\n", *tried), "", line)
            self.decides("a condition", line)
        for line in ("ifeq ($(W),)\n", "ifeq ($(V),1)\n"):
            self.assertEqual(self.place(line, *tried), "Makefile:1: a condition")


class WordsTest(unittest.TestCase):
    """The words of makes, and commands that start makes."""

    def test_options(self) -> None:
        words = ["-C", "sub", "all", "-f", "x.mk", "A=b", "-kj4", "--", "goal"]
        self.assertEqual(options_of(words), ["-C sub", "-f x.mk", "A=b", "-kj4"])
        self.assertEqual(
            [word for word in options_of(words) if not is_harmless(word)], ["-f x.mk", "A=b"]
        )

    def test_only_makes(self) -> None:
        for text, is_only, rest in (
            ("W -C lib", True, ": -C lib"),
            ("cd lib && W all", True, "cd lib && : all"),
            ("cd lib; A='b c' make x || exit 1", True, "cd lib; A='b c' : x || exit 1"),
            ("(cd x; W)", True, "(cd x; :)"),
            ("echo make; W", True, "echo make; :"),
            ("W && cp a b", False, ": && cp a b"),
            ("cp a b; W", False, "cp a b; :"),
            ("for d in a b; do W -C $d; done", False, "for d in a b; do : -C $d; done"),
            ("W | tee log", False, ": | tee log"),
            ("W > log", False, ": > log"),
            ("W & W", False, ": & :"),
            ("v=`W version`", False, "v=`W version`"),
            ("remake x", False, "remake x"),
        ):
            with self.subTest(text):
                text = text.replace("W", "/tmp/bin/make")
                rest = rest.replace("W", "make")
                self.assertEqual(is_only_makes(text, "/tmp/bin/make"), is_only)
                self.assertEqual(without_makes(text, "/tmp/bin/make"), rest)

    def test_path_name(self) -> None:
        for folder, text, name in (
            ("/p", "a", "a"),
            ("/p", "./sub/../a", "a"),
            ("/p/sub", "../a", "a"),
            ("/p/sub", "/p/sub/b", "sub/b"),
            ("/p", "../q/a", "/q/a"),
            ("/p", "//usr/a", "/usr/a"),
            ("/p", "/pa", "/pa"),
            ("/p/sub", "..", "."),
        ):
            self.assertEqual(path_name("/p", folder, text), name)


class TranslationTest(unittest.TestCase):
    """What GNU make 4.3 doesn't have, by the text of a newer one."""

    def translated(self, version: str, serial: str = "") -> str:
        """The translation of a build in which `.WAIT` stands among prerequisites."""
        text = (
            f"# Make data base, printed on x\nMAKE_VERSION := {version}\nCURDIR := /p\n"
            ".DEFAULT_GOAL := all\n\n# Files\n\n"
            "all: a b .WAIT c\n#  Phony target (prerequisite of .PHONY).\n"
            "#  Successfully updated.\n\n"
            "# Not a target:\na:\n#  x\n\n# Not a target:\nb:\n#  x\n\n"
            "# Not a target:\nc:\n#  x\n\n# Not a target:\n.WAIT:\n#  x\n\n"
            f"{serial}# files hash-table stats:\n"
        )
        transcript = read_transcript(text.encode(), [])
        make = Make(1, [], "/p", {"A": "b"}, transcript, 0, "")
        subject = Subject("/p", [make], {"a", "b", "c"}, None, "make", {}, {})
        build = Translation(subject, {"A": "b"}).translate()
        self.assertEqual(build.problems, [])
        lines = makefile(build, later=False).splitlines()
        return next(line for line in lines if line.startswith("all:"))

    def test_wait(self) -> None:
        self.assertEqual(self.translated("4.4.1"), "all: a b .WAIT c")
        self.assertEqual(self.translated("4.3"), "all: a b .WAIT@ c")

    def test_serial_targets(self) -> None:
        """`.NOTPARALLEL` with prerequisites holds for these alone, as GNU make 4.4 has it."""
        serial = ".NOTPARALLEL: all\n#  x\n\n"
        self.assertEqual(self.translated("4.4", serial), "all: a .WAIT b .WAIT c")
        serial = ".NOTPARALLEL: other\n#  x\n\n"
        self.assertEqual(self.translated("4.4", serial), "all: a b .WAIT c")
        # Before, its prerequisites say nothing, and all of the make is serial.
        self.assertEqual(self.translated("4.3", serial), "all: a .WAIT b .WAIT .WAIT@ .WAIT c")


class WriterTest(unittest.TestCase):
    """The plain makefile."""

    def test_shells(self) -> None:
        plain = Setting("sub", exports=(("A", "b c"),), unset=("B",))
        front = "cd sub; unset B; export A='b c'; "
        for command, setting, text in (
            (Command("cc a.c"), plain, front + "cc a.c"),
            (Command("a; b"), plain, front + "set +e; a; b"),
            (Command("a; b", ignored=True), plain, front + "a; b"),
            (Command("a; b"), Setting(shell=("/bin/sh", "-ec")), "a; b"),
            (Command("a 'b'"), Setting(shell=("bash", "-c")), "exec bash -c 'a '\"'\"'b'\"'\"''"),
            (Command("a \\\n b"), Setting(), "set +e; a \\\n b"),
            (
                Command("a\nb 'c'"),
                Setting(),
                "exec /bin/sh -c \"$(printf '%s\\n' a 'b '\"'\"'c'\"'\"'')\"",
            ),
        ):
            self.assertEqual(shell_text(command, setting), text)
        self.assertEqual(quoted("a\nb c"), "\"$(printf '%s\\n' a 'b c')\"")

    def build(self) -> Build:
        """A build with all that a node can have."""
        build = Build("/p", "GNU make 4.3", goals=["all", "b c"])
        build.nodes = {
            "all": Node("all", Kind.PHONY, groups=[["x"], ["y"]], order_only=["out"], late=["h"]),
            "b c": Node("b c", first_only=["h"], groups=[["h", "x"]], origin=Origin("M", 3)),
            "x": Node("x", commands=[Command("cc $x")], setting=Setting("sub"), varies=True),
            "y": Node("y", groups=[["x", "x"]]),
            "out": Node("out", Kind.ORDER),
        }
        return build

    def test_makefile(self) -> None:
        text = makefile(self.build(), later=False).splitlines()
        self.assertEqual(
            text[1:],
            [
                ".POSIX:",
                ".SUFFIXES:",
                ".PHONY: all",
                ".PHONY: goals@",
                "goals@: all b@20c",
                "all: all@order x .WAIT y",
                "all@order: out",
                "b@20c: h x",
                "x:",
                "\t: $?",
                "\tcd sub; set +e; cc $$x",
                "y: x",
                "out:",
            ],
        )
        text = makefile(self.build(), later=True).splitlines()
        self.assertIn("all: all@order x .WAIT y h", text)
        self.assertIn("b@20c: x", text)

    def test_saved(self) -> None:
        build = self.build()
        build.configured, build.made = {"a", "b"}, {"x\udc80"}
        self.assertEqual(build_of_text(text_of_build(build)), build)


class OrderTest(unittest.TestCase):
    """What is always done before what."""

    def test_groups(self) -> None:
        build = Build("/p", goals=["all"])
        needs: dict[str, list[list[str]]] = {
            "all": [["a", "b"], ["c"]],
            "a": [["x"]],
            "b": [["y"]],
            "c": [["d", "y"]],
            "d": [[]],
            "x": [[]],
            "y": [[]],
        }
        for name, groups in needs.items():
            build.nodes[name] = Node(name, groups=groups)
        order = Order(build)
        before = {
            later: {name for name in build.nodes if name != later and order.is_before(name, later)}
            for later in build.nodes
        }
        self.assertEqual(before["a"], {"x"})
        self.assertEqual(before["x"], set())
        self.assertEqual(before["c"], {"a", "b", "x", "y", "d"})
        self.assertEqual(before["d"], {"a", "b", "x", "y"})
        # It is wanted by b too, which waits for nothing.
        self.assertEqual(before["y"], set())


class WrapperTest(unittest.TestCase):
    """The script that stands for make."""

    def setUp(self) -> None:
        self.scratch = Path(tempfile.mkdtemp(prefix="import-test-")).resolve()
        self.addCleanup(shutil.rmtree, self.scratch)
        text = WRAPPER.replace("@SCRATCH@", str(self.scratch)).replace("@MARK@", "")
        (self.scratch / "make").write_text(text.replace("@MAKE@", f"sh {self.scratch}/tool"))
        (self.scratch / "tool").write_text("env\n")
        (self.scratch / "count").write_text("0")
        (self.scratch / "top.out").touch()

    def start(self, **more: str) -> subprocess.CompletedProcess[str]:
        """Starts it, with a tool in place of make that tells its environment."""
        return subprocess.run(
            ["/bin/sh", str(self.scratch / "make")],
            env={**os.environ, "MKIMPORT_OUT": str(self.scratch / "top.out"), **more},
            capture_output=True,
            text=True,
            timeout=SECONDS_AT_MOST,
            check=False,
        )

    def test_it_ends_where_it_can_write_nothing(self) -> None:
        """A lock can't be made, as on a disk that is full, though the mode of the folder allows
        it."""
        (self.scratch / "lock").touch()
        done = self.start()
        text = f"mkcheck-import: a recipe starts make where {self.scratch} can't be written\n"
        self.assertEqual((done.returncode, done.stderr), (2, text))

    def test_variables_stay_as_they_are(self) -> None:
        names = ("D", "n", "s", "t", "f", "at", "up", "own", "above")
        self.start(**dict.fromkeys(names, "1 2"))
        lines = (self.scratch / "1.out").read_text().splitlines()
        self.assertEqual([name for name in names if f"{name}=1 2" not in lines], [])


class QuotedTest(unittest.TestCase):
    """Commands that only quote some words otherwise."""

    def test_the_same(self) -> None:
        for one, other in (
            ("cc -DX='' a.c", "cc -DX= a.c"),
            ("cc '-DX=1' \"a.c\" b", "cc -DX=1 a.c b"),
            ("printf '%b\\n' \"\\033[1;2m\" 1>&2;cc -g -DX='' a", ""),
        ):
            self.assertTrue(is_same_to_shell(one, other or one.replace("''", "")), one)

    def test_others(self) -> None:
        for one, other in (
            ("cc -DX=1 a", "cc -DX=2 a"),
            ("cc '' a", "cc a"),
            ("cc '*' a", "cc * a"),
            ("cc '$x' a", "cc $x a"),
            ("'A=b' cc", "A=b cc"),
            ("x; 'A=b' cc", "x; A=b cc"),
            (">x 'A=b' cc", ">x A=b cc"),
            ("2>&1 'A=b' cc", "2>&1 A=b cc"),
            ("if 'A=b' cc", "if A=b cc"),
            ("A=1 'B=2' cc", "A=1 B=2 cc"),
            ("cc `x 'A=b'`", "cc `x A=b`"),
            ("cc \"a 'b' c\"", "cc \"a b c\""),
        ):
            self.assertFalse(is_same_to_shell(one, other), one)
