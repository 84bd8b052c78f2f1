"""Makes that recipes start, and macros by which makes differ."""

from __future__ import annotations

import os
import shutil
import subprocess
import unittest

from mkcheck_tools.trace.tracing import flags_of
from recorder.project import OF_MAKE, Environment, ProjectTest, compiled, traced

GNU = "GNU Make" in os.popen("make --version 2>/dev/null").read()
SUB = {"sub/makefile": "x: y\n\tcp y x\n", "sub/y": ""}


@traced
class SubMakeTest(ProjectTest):
    """A make that a recipe starts is refused, unless the recipe is taken as opaque."""

    def said(self, makefile: str, files: dict[str, str]) -> str:
        """What is said of a project that is refused."""
        self.write({"makefile": makefile, **files})
        outcome = self.record()
        self.assertTrue(outcome.is_refused, outcome.errors)
        return outcome.errors

    def in_sub(self, name: str) -> str:
        """What is said of the recipe of all, which starts a make in sub."""
        return (
            f"mkcheck-record: the recipe of all starts {name} in sub: its build isn't judged here;"
            " record that folder by itself (mkcheck-record -C sub), or give --opaque all to take"
            " it as one recipe\n"
        )

    @unittest.skipUnless(shutil.which("make"), "no make")
    def test_each_way_to_start_one(self) -> None:
        for way in (
            "$(MAKE) -C sub",
            "cd sub && make",
            "+cd sub && $(MAKE)",
            "make -s -C sub; :",
            "(cd sub; exec make)",
            "sh -c 'make --directory=sub'",
            "cd sub && env A=1 make",
        ):
            self.assertEqual(self.said(f"all:\n\t{way}\n", SUB), self.in_sub("make"), way)
            shutil.rmtree(self.folder / "sub")

    @unittest.skipUnless(shutil.which("make"), "no make")
    def test_one_is_ended_as_it_begins_to_work(self) -> None:
        mark = self.scratch / "mark"
        sub = {"sub/makefile": f"x: y\n\tsleep 120; echo > {mark}; cp y x\n", "sub/y": ""}
        self.assertEqual(self.said("all:\n\t$(MAKE) -C sub\n", sub), self.in_sub("make"))
        self.assertFalse(mark.exists())

    @unittest.skipUnless(shutil.which("make"), "no make")
    def test_one_over_a_makefile_that_the_recipe_writes_elsewhere_is_a_part_of_it(self) -> None:
        """`gcc -flto=auto` runs such a make."""
        self.write(
            {
                "makefile": (
                    "out: in\n\tf=`mktemp` && printf 'all:\\n\\tcat in > out\\n' > $$f &&"
                    " make -s -f $$f && rm $$f\n"
                ),
                "in": "",
            }
        )
        self.assertEqual(self.recorded().own("out"), ({"in"}, {"out"}))
        makefile = "out: in\n\techo 'all:;cp in out' > t.mk; make -s -f t.mk\n"
        self.assertIn("the recipe of out starts make in the folder", self.said(makefile, {}))

    @unittest.skipUnless(shutil.which("make") and shutil.which("gcc"), "no make, or no gcc")
    def test_gcc_that_links_in_parallel(self) -> None:
        self.write(
            {
                "makefile": "p: a.c b.c\n\tgcc -O2 -flto=auto -o p a.c b.c\n",
                "a.c": "int b(void);\nint main(void) { return b(); }\n",
                "b.c": "int b(void) { return 0; }\n",
            }
        )
        self.assertEqual(self.recorded().own("p"), ({"a.c", "b.c"}, {"p"}))

    @unittest.skipUnless(shutil.which("make"), "no make")
    def test_one_in_the_same_folder(self) -> None:
        said = self.said("all:\n\tmake x\nx:\n\techo > x\n", {})
        self.assertEqual(
            said,
            (
                "mkcheck-record: the recipe of all starts make in the folder itself: its build"
                " isn't judged here; name its goals on the command line of mkcheck-record, or give"
                " --opaque all to take it as one recipe\n"
            ),
        )

    def test_others_that_build(self) -> None:
        for name in ("gmake", "bmake", "ninja", "samu", "make-4.4"):
            said = self.said(
                f"all:\n\tcd sub && ../bin/{name}\n",
                {f"bin/{name}": "#!/bin/sh\necho > x\n", **SUB},
            )
            self.assertEqual(said, self.in_sub(name))

    def test_programs_that_only_sound_so(self) -> None:
        self.write(
            {
                "makefile": "out:\n\tbin/automake && bin/cmake && bin/makeinfo\n",
                **{
                    f"bin/{name}": "#!/bin/sh\necho >> out\n"
                    for name in ("automake", "cmake", "makeinfo")
                },
            }
        )
        self.assertEqual(self.recorded().own("out")[1], {"out"})

    @unittest.skipUnless(shutil.which("make"), "no make")
    def test_an_opaque_one(self) -> None:
        self.write({"makefile": "all: b\nb: sub/y\n\tcd sub && make && cp x ../b\n", **SUB})
        outcome = self.recorded("--opaque", "b")
        self.assertEqual(outcome.own("b"), ({"sub/makefile", "sub/y"}, {"sub/x", "b"}))
        outcome = self.record("--opaque", "c")
        self.assertEqual(
            (outcome.status, outcome.errors),
            (2, "mkcheck-record: --opaque c: the goals reach no recipe of that name\n"),
        )

    @unittest.skipUnless(shutil.which("make"), "no make")
    def test_operands_reach_an_opaque_one(self) -> None:
        self.write(
            {
                "makefile": "out:\n\tcd sub && make\n",
                "sub/makefile": "X = own\nall: ; cat $(X) > ../out; echo '$(Y)' > y\n",
                "sub/own": "",
                "sub/other": "",
            }
        )
        outcome = self.recorded("--opaque", "out", "X=other", "Y=a \\ $$(X) b")
        self.assertEqual(outcome.own("out")[0], {"sub/makefile", "sub/other"})
        for word, value in (
            ("X=1", "X=1"),
            ("X=a b", "X=a\\ b"),
            ("X=$(Y)\\", "X=$$(Y)\\\\"),
        ):
            self.assertEqual(flags_of(dict([word.split("=")])), value)
        self.assertEqual(flags_of({"X": "1", "Y": "2"}), "X=1 Y=2")


@traced
class MacroTest(ProjectTest):
    """SHELL, the environment, and the default compiler."""

    @unittest.skipUnless(os.access("/bin/bash", os.X_OK), "no /bin/bash")
    def test_a_shell_of_the_makefile(self) -> None:
        self.write(
            {
                "makefile": (
                    'SHELL = /bin/bash\nout: a b\n\tcat {a,b} > out; test -n "$$BASH_VERSION"\n'
                ),
                "a": "",
                "b": "",
            }
        )
        told = (
            "the makefile sets SHELL to /bin/bash, so commands are run by it, as GNU make does;"
            " other makes run them by /bin/sh"
        )
        words = ("--make",) if shutil.which("make") else ()
        # Without SHELL or HOME bash looks for its user in /etc/passwd at its start.
        environments: tuple[Environment, ...] = (
            {"SHELL": "/bin/sh", "HOME": "/"},
            {"SHELL": None, "HOME": "/"},
            {"SHELL": "/bin/sh", "HOME": None},
            {"SHELL": None, "HOME": None},
        )
        for named in environments:
            outcome = self.recorded(*words, environment=named)
            self.assertEqual(outcome.own("out"), ({"a", "b"}, {"out"}))
            self.assertEqual(outcome.warnings(), [told], named)

    def test_the_variable_of_that_name(self) -> None:
        self.write({"makefile": "out:\n\tcat $${SHELL-none} > out\n", "one": "", "none": ""})
        words = ("--make",) if shutil.which("make") else ()
        for operands in ((), ("SHELL=/bin/sh",)):
            for value, read in (("one", "one"), (None, "none")):
                outcome = self.recorded(*words, *operands, environment={"SHELL": value})
                self.assertEqual(outcome.own("out"), ({read}, {"out"}))
                self.assertEqual(outcome.warnings(), [], (operands, value))

    def test_a_shell_that_is_not_there(self) -> None:
        self.write({"makefile": "SHELL = /no/such/shell\nout:\n\techo > out\n"})
        outcome = self.record()
        self.assertEqual(
            (outcome.status, outcome.errors),
            (
                2,
                (
                    "mkcheck-record: the makefile sets SHELL to /no/such/shell,"
                    " which isn't there: give SHELL=/bin/sh, to mkcheck too\n"
                ),
            ),
        )
        self.assertEqual(self.recorded("SHELL=/bin/sh").warnings(), [])

    def test_options_of_the_makefile(self) -> None:
        values: tuple[tuple[str, list[str]], ...] = (
            ("-k", ["-k in MAKEFLAGS, by which GNU make goes on with other targets"]),
            ("ik", ["-i in MAKEFLAGS, by which", "-k in MAKEFLAGS, by which"]),
            ("-r", ["-r in MAKEFLAGS, by which GNU make leaves out its default rules; give -r"]),
            ("-j 8 --keep-going", ["--keep-going in MAKEFLAGS, by which GNU make goes on"]),
            ("-I inc", ["-I in MAKEFLAGS: what make does by that isn't judged here"]),
            ("--never-heard", ["--never-heard in MAKEFLAGS: what make does by that isn't"]),
            ("-s X=1", ["X=1 in MAKEFLAGS: what make does by that isn't judged here"]),
            ("-j8 -s --no-print-directory --output-sync=target -j 4 -l 2", []),
            ("", []),
        )
        for value, told in values:
            self.write({"makefile": f"MAKEFLAGS = {value}\nout: a\n\tcp a out\n", "a": ""})
            outcome = self.recorded()
            self.assertEqual(len(outcome.warnings()), len(told), outcome.errors)
            for warning, begin in zip(outcome.warnings(), told):
                self.assertTrue(warning.startswith(f"the makefile sets {begin}"), warning)
        self.write({"makefile": "MAKEFLAGS = -r\nout: a\n\tcp a out\n", "a": ""})
        self.assertEqual(self.recorded("-r").warnings(), [])

    def test_options_by_which_nothing_is_made(self) -> None:
        for value, option, what in (
            ("-t", "-t", "touches targets and doesn't run their commands"),
            ("sn", "-n", "prints commands and doesn't run them"),
            ("-j 4 --dry-run", "--dry-run", "prints commands and doesn't run them"),
            ("-q", "-q", "runs no command"),
            ("--old-file=a", "--old-file", "takes files for old ones that aren't"),
            ("-W a", "-W", "takes files for new ones that aren't"),
        ):
            self.write({"makefile": f"MAKEFLAGS += {value}\nout: a\n\tcp a out\n", "a": ""})
            outcome = self.record()
            self.assertEqual((outcome.status, outcome.book), (2, None), outcome.errors)
            begin = f"mkcheck-record: the makefile sets {option}"
            self.assertTrue(outcome.errors.startswith(begin), outcome.errors)
            end = f"in MAKEFLAGS, by which GNU make {what}: take it out\n"
            self.assertTrue(outcome.errors.endswith(end), outcome.errors)

    def test_built_in_rules_of_gnu_make(self) -> None:
        for source, origin in (
            ("p.c", "p.y"),
            ("d/l.c", "d/l.l"),
            ("x.info", "x.texi"),
            ("t.out", "t"),
            ("program", "program.cc"),
            ("o.o", "o.S"),
        ):
            rule = f"all: {source}\n\tcat {source} > all\n"
            told = (
                f"GNU make makes {source} from {origin} by a built-in rule, which mkcheck doesn't"
                f" have: {source} counts as a source here; write that rule into the makefile, or"
                " give -r to make, to mkcheck and to mkcheck-record"
            )
            suffixes = ".SUFFIXES:\n.SUFFIXES: .c .o\n"
            for text, words, warnings in (
                (rule, (), [told]),
                (f"{source}: h\n{rule}", (), [told]),
                (rule, ("-r",), []),
                (suffixes + rule, (), [told] if source == "t.out" else []),
                (f"{source}: {origin}\n\tcp {origin} {source}\n{rule}", ("all",), []),
            ):
                self.write({"makefile": text, source: "", origin: "", "h": ""})
                self.assertEqual(self.recorded(*words).warnings(), warnings, (text, words))
                if GNU:
                    self.assertEqual(self.runs_a_rule(origin, *words), bool(warnings), text)
            (self.folder / origin).unlink()
            self.write({"makefile": rule})
            self.assertEqual(self.recorded().warnings(), [])

    @compiled
    def test_macros_of_built_in_rules(self) -> None:
        """GNU make's rule may read a file that the rule of POSIX doesn't."""
        code = '#ifdef LONG\n#include "n.h"\n#endif\nint main(void) {return 0;}\n'
        self.write({"p.c": code, "n.h": "#define N 2\n"})
        rule = ".c.o:\n\t$(CC) $(CPPFLAGS) -c $<\n"
        for macro, target, front, rules, told in (
            ("CPPFLAGS = -DLONG", "p.o", "the makefile", "", True),
            ("CPPFLAGS = -DLONG", "p.o", "the makefile", rule, False),
            ("CPPFLAGS = $(shell echo -DLONG)", "p.o", "the makefile", "", True),
            ("LDLIBS = -lm", "p", "the makefile", "", True),
            ("LDLIBS = -lm", "p.o", "the makefile", "", False),
            ("LDFLAGS = -lm", "p", "the makefile", "", False),
            ("CPPFLAGS=-DLONG", "p.o", "the environment", "", True),
        ):
            name, value = macro.replace(" ", "").split("=")
            value = "-DLONG" if "$" in value else value
            given = {name: value} if front == "the environment" else {}
            own = "" if given else f"{macro}\n"
            self.write({"makefile": f"CC = cc\n{own}all: {target}\n{target}: p.c\n{rules}"})
            said = [
                f"{front} sets {name}, which GNU make uses in its own rule for {target}, and the"
                " default rule of POSIX and mkcheck doesn't: write that rule, with its command,"
                " into the makefile"
            ]
            outcome = self.recorded("all", environment=given)
            self.assertEqual(outcome.warnings(), said if told else [], (macro, target))
            if GNU:
                done = subprocess.run(
                    ["make", "-n"],
                    cwd=self.folder,
                    env={**{one: os.environ[one] for one in os.environ.keys() - OF_MAKE}, **given},
                    capture_output=True,
                    text=True,
                    check=True,
                )
                uses = value in done.stdout
                self.assertEqual(uses, told or rules != "" or name == "LDFLAGS", done.stdout)
        self.write({"makefile": "CC = cc\nCPPFLAGS = -DLONG\np.o: p.c\n\t$(CC) -c p.c\n"})
        self.assertEqual(self.recorded("-r").warnings(), [])

    def test_macros_by_which_gnu_make_reads_otherwise(self) -> None:
        for text, told in (
            (".SHELLFLAGS = -e -u -c", "the makefile sets .SHELLFLAGS to -e -u -c, by which GNU"),
            (".SHELLFLAGS = -ec", ""),
            (".RECIPEPREFIX = >", "the makefile sets .RECIPEPREFIX: for GNU make a line that"),
            (".EXTRA_PREREQS = b", "the makefile sets .EXTRA_PREREQS, by which GNU make lets all"),
        ):
            self.write({"makefile": f"{text}\nout: a\n\tcp a out\n", "a": ""})
            said = self.recorded().warnings()
            self.assertEqual([one[: len(told)] for one in said], [told] if told else [], text)

    def runs_a_rule(self, origin: str, *words: str) -> bool:
        """Whether make would run more than the recipes of the makefile, where a file is newer than
        the others."""
        for path in self.folder.iterdir():
            os.utime(path, (1e9, 1e9))
        os.utime(self.folder / origin)
        done = subprocess.run(
            ["make", "-n", *words],
            cwd=self.folder,
            env={name: value for name, value in os.environ.items() if name not in OF_MAKE},
            capture_output=True,
            text=True,
            check=False,
        )
        own = ("cat ", "cp ", "make: ")
        return not all(line.startswith(own) for line in done.stdout.splitlines())

    def test_macros_of_the_environment(self) -> None:
        self.write(
            {
                "makefile": (
                    "OWN = own\nLATE ?= own\nout: $(LIST)\n\techo $(WORD) $(OWN) $(LATE) > out\n"
                ),
                "b": "",
            }
        )
        given = {"WORD": "w # $(OWN)", "OWN": "other", "LATE": "other", "LIST": "b", "NONE": "x"}
        outcome = self.record(environment=given)
        told = [warning.split(",")[0] for warning in outcome.warnings()]
        self.assertEqual(
            sorted(told),
            [f"the makefile uses the macro {name}" for name in ("LATE", "LIST", "WORD")],
        )
        self.assertIn('give WORD="$WORD" to both as an operand', outcome.errors)
        self.assertEqual(outcome.own("out"), (set(), {"out"}))
        outcome = self.record("WORD=x", "LATE=x", "LIST=", environment=given)
        self.assertEqual((outcome.status, outcome.warnings()), (0, []))

    def test_macros_of_the_environment_that_rules_have(self) -> None:
        self.write({"makefile": "all: a.o\n", "a.c": "int a;\n"})
        if shutil.which("c17") is None:
            outcome = self.record()
            self.assertEqual((outcome.status, outcome.book), (2, None))
            self.assertEqual(
                outcome.errors,
                (
                    "mkcheck-record: the recipe of a.o starts c17, the default compiler of POSIX,"
                    " which isn't there: give CC=cc, to mkcheck too\n"
                ),
            )
        self.write({"cc": "#!/bin/sh\necho > a.o\n"})
        outcome = self.record("CC=./cc", environment={"CFLAGS": "-g"})
        (told,) = outcome.warnings()
        self.assertTrue(
            told.startswith(
                "the makefile uses the macro CFLAGS, which the environment sets: makes take"
            )
        )

    def test_commands_are_those_that_mkcheck_shows(self) -> None:
        self.write({"makefile": "out:\n\techo '$(WORD)' > out; cat out; exit 3\n"})
        outcome = self.record(environment={"WORD": "set"})
        self.assertTrue(
            outcome.errors.endswith("\techo '' > out; cat out; exit 3\n"), outcome.errors
        )


if __name__ == "__main__":
    unittest.main()
