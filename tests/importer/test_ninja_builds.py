"""Each construct of ninja: its translation, its answer, and what ninja itself does."""

from __future__ import annotations

import os
import unittest

from importer.ninja_folder import NinjaFolderTest, can_judge, has_ninja
from mkcheck_tools.faults import Fault
from mkcheck_tools.run.places import namespace
from waits import wait_for_later_stamps

COPY = "rule copy\n  command = cat $in $more > $out\n"
# A compiler of one line: it copies its input and the files named in it, and writes a depfile.
COMPILE = """rule compile
  command = cat $in $$(cat $in) > $out; echo "$out: $in $$(cat $in)" > $out.d
  depfile = $out.d
"""


@can_judge
class InputsTest(NinjaFolderTest):
    """Kinds of inputs and outputs."""

    def test_kinds_of_inputs(self) -> None:
        """Explicit and implicit inputs are ways; order-only ones only give order."""
        self.write(
            {
                "build.ninja": COPY
                + "build a: copy s\nbuild b: copy s\nbuild c: copy s\n"
                + "build o: copy a | b || c\n  more = b c\n",
                "s": "s\n",
            }
        )
        answer = self.answer()
        self.assertEqual(
            answer.makefile,
            "o: o@order a b\n"
            "\tset +e; cat a b c > o\n"
            "o@order: c\n"
            "a: s\n\tset +e; cat s  > a\n"
            "b: s\n\tset +e; cat s  > b\n"
            "c: s\n\tset +e; cat s  > c\n",
        )
        self.assertEqual(answer.findings, ["no stale o c"])
        self.try_answer(answer)

    def test_yes(self) -> None:
        """Where all that is read is named, the answer is yes, and each way is true."""
        self.write(
            {
                "build.ninja": COPY
                + "build a: copy s\nbuild b: copy s\nbuild c: copy t\n"
                + "build o: copy a | b c\n  more = b c\n",
                "s": "s\n",
                "t": "t\n",
            }
        )
        answer = self.answer()
        self.assertEqual(answer.later[0].split(" ")[:3], ["yes", "4", "recipes"])
        sources = [way[:2] for way in answer.ways if way[2] == "source"]
        self.assertEqual(sources, [["a", "s"], ["b", "s"], ["c", "t"]])
        self.try_answer(answer)

    def test_undeclared(self) -> None:
        """A generated file that no input names is a race, and stale."""
        self.write(
            {
                "build.ninja": COPY + "build c: copy s\nbuild o: copy a\n  more = c\n",
                "s": "s\n",
                "a": "a\n",
            }
        )
        answer = self.answer()
        self.assertIn("Add to build.ninja:\n    build o: .. | c\n", answer.text)
        self.assertEqual(answer.findings, ["no race o c c", "no stale o c"])
        self.try_answer(answer)

    def test_several_outputs(self) -> None:
        """One recipe makes all outputs of a line, implicit ones too."""
        self.write(
            {
                "build.ninja": "rule two\n  command = cat $in | tee a b > c\n"
                + COPY
                + "build a b | c: two s\nbuild x: copy b\nbuild y: copy c\n",
                "s": "s\n",
            }
        )
        answer = self.answer()
        self.assertEqual(
            answer.makefile,
            ".PHONY: goals@\n"
            "goals@: a x y\n"
            "a: s\n\tset +e; cat s | tee a b > c\n"
            "x: b\n\tset +e; cat b  > x\n"
            "y: c\n\tset +e; cat c  > y\n"
            "b: a\n"
            "c: a\n",
        )
        self.assertEqual(answer.findings, [])
        self.assertEqual(len(answer.ways), 3)
        self.assertNotIn("GNU make looks", answer.text)
        self.try_answer(answer)

    def test_dyndep(self) -> None:
        """What a dyndep file says counts as if the manifest said it."""
        rules = "rule both\n  command = cat $in > $out; cat $in > $out.mod\n" + COPY
        lines = "build b: copy s || dd\n  dyndep = dd\n  more = a.mod\nbuild a: both s || dd\n"
        self.write(
            {
                "build.ninja": rules + lines + "  dyndep = dd\nbuild dd: copy t\n",
                "s": "s\n",
                "t": "ninja_dyndep_version = 1\nbuild a | a.mod: dyndep\n"
                "build b: dyndep | a.mod\n",
            }
        )
        answer = self.answer()
        self.assertEqual(answer.findings, [])
        self.assertIn("b: b@order s a.mod\n", answer.makefile)
        self.assertIn("a.mod: a\n", answer.makefile)
        self.assertIn(["b", "a.mod", "written", "b", "a"], answer.ways)
        self.try_answer(answer)

    def test_output_that_only_dyndep_tells(self) -> None:
        """Where the manifest takes such an output, ninja may be too early."""
        rules = "rule both\n  command = cat $in > $out; cat $in > $out.mod\n" + COPY
        lines = "build b: copy a.mod\nbuild a: both s || dd\n  dyndep = dd\nbuild dd: copy t\n"
        self.write(
            {
                "build.ninja": rules + lines + "build all: phony a b\ndefault all\n",
                "s": "s\n",
                "a.mod": "old\n",
                "t": "ninja_dyndep_version = 1\nbuild a | a.mod: dyndep\n",
            }
        )
        self.assertIn("ninja may begin that line before it knows", self.answer().problems[0])

    def test_replay(self) -> None:
        """What the importer adds to a command stands the replay of the recorder."""
        rule = "rule r\n  command = cat $in list > $out\n  rspfile = list\n"
        self.write(
            {
                "build.ninja": rule + "  rspfile_content = $in\nbuild d/o: r s\n",
                "s": "s\n",
            }
        )
        self.assertEqual(self.answer(replay=True).findings, [])

    def test_output_that_is_not_written(self) -> None:
        """Ninja runs a line without one of its outputs in each build, and what needs that."""
        self.write(
            {
                "build.ninja": COPY
                + "rule half\n  command = cat s t > a\nbuild a b: half s\nbuild c: copy s | b\n"
                + "  more = u\n",
                "s": "s\n",
                "t": "t\n",
                "u": "u\n",
            }
        )
        answer = self.answer()
        self.assertEqual(answer.findings, [])
        self.assertEqual(
            [way[:3] for way in answer.ways],
            [
                ["a", "s", "source"],
                ["a", "t", "always"],
                ["c", "s", "source"],
                ["c", "u", "always"],
            ],
        )
        self.assertIn("build.ninja:5 doesn't write its output b", answer.notes[0])
        self.try_answer(answer)

    def test_goals(self) -> None:
        """Goals are words, `default` lines, or what no line takes; `^` is what takes a file."""
        lines = "build a: copy s\nbuild b: copy a\nbuild c: copy s\n"
        self.write({"build.ninja": COPY + lines, "s": "s\n"})
        for words, expected in (((), ["b", "c"]), (("a",), ["a"]), (("s^", "./b"), ["a", "b"])):
            with self.subTest(words):
                self.assertEqual(self.translated(*words).goals, expected)
        self.write({"build.ninja": COPY + lines + "default c\n"})
        self.assertEqual(self.translated().goals, ["c"])

    def test_validations(self) -> None:
        """What a line names as a validation is built too, and judged."""
        self.write(
            {
                "build.ninja": COPY
                + "build a: copy s |@ v\nbuild v: copy s |@ w\n  more = t\nbuild w: copy a\n"
                + "build z: copy s\ndefault a\n",
                "s": "s\n",
                "t": "t\n",
            }
        )
        answer = self.answer()
        self.assertEqual(sorted(answer.writes), ["a", "v", "w"])
        self.assertEqual(answer.findings, ["no stale v t"])
        self.try_answer(answer)
        # Those of phony names too.
        names = "build p: phony a |@ v\nbuild q: copy s || p\nbuild v: copy t\nbuild a: copy t\n"
        for goal in ("p", "q"):
            self.write({"build.ninja": COPY + names})
            self.assertEqual(self.translated(goal).goals, [goal, "v"])
            self.assertIn("cat t  > v", self.ninja("-n", "-v", goal).stdout)


@can_judge
class PhonyTest(NinjaFolderTest):
    """Phony names."""

    def test_names_of_others(self) -> None:
        """A phony name stands for its inputs, also over others; order-only ones stay so."""
        self.write(
            {
                "build.ninja": COPY
                + "build a: copy s\nbuild b: copy s\nbuild c: copy s\n"
                + "build inner: phony a\nbuild outer: phony inner s || c\n"
                + "build o: copy | outer || b\n  more = a c\nbuild all: phony o outer\n"
                + "default all\n",
                "s": "s\n",
            }
        )
        answer = self.answer()
        self.assertEqual(
            answer.makefile,
            ".PHONY: all\n"
            "all: o a s c\n"
            "a: s\n\tset +e; cat s  > a\n"
            "c: s\n\tset +e; cat s  > c\n"
            "b: s\n\tset +e; cat s  > b\n"
            "o: o@order a s\n"
            "\tset +e; cat  a c > o\n"
            "o@order: c b\n",
        )
        self.assertEqual(answer.findings, ["no stale o c"])
        self.try_answer(answer)

    def test_always(self) -> None:
        """A phony name without inputs that is no file is out of date in each build."""
        self.write(
            {
                "build.ninja": COPY
                + "build force: phony\nbuild more: phony force\nbuild a: copy s | more\n"
                + "  more = t\nbuild b: copy a || force\n",
                "s": "s\n",
                "t": "t\n",
            }
        )
        answer = self.answer()
        self.assertEqual(answer.findings, [])
        self.assertIn(["a", "t", "always", "a"], answer.ways)
        self.assertIn("a: s always@ninja\n", answer.makefile)
        self.assertIn("b: a\n", answer.makefile)
        self.try_answer(answer)

    def test_phony_file(self) -> None:
        """A phony name that is a file is compared by its own time, so its inputs are no ways."""
        self.write(
            {
                "build.ninja": COPY
                + "build a: copy s\nbuild stamp: phony a\nbuild alone: phony\n"
                + "build o: copy | stamp alone\n  more = a stamp alone\n",
                "s": "s\n",
                "stamp": "old\n",
                "alone": "old\n",
            }
        )
        answer = self.answer()
        self.assertIn("o: o@order stamp alone\n", answer.makefile)
        self.assertIn("o@order: a\n", answer.makefile)
        self.assertEqual(answer.findings, ["no stale o a"])
        self.assertIn("stamp is a phony name of build.ninja:4", answer.notes[0])

    def test_phony_name_that_a_recipe_writes(self) -> None:
        """A phony name that is a file after a build is a problem."""
        rule = "rule two\n  command = cat $in > $out; test -e both || touch both\n"
        self.write(
            {
                "build.ninja": COPY
                + rule
                + "build a: two s\nbuild both: phony a\nbuild o: copy t | both\n  more = a\n",
                "s": "s\n",
                "t": "t\n",
            }
        )
        answer = self.answer()
        self.assertIn("both is a phony name of build.ninja:6", answer.problems[0])
        # What the problem says is so: a build that stops between the two recipes leaves the old o.
        built = self.built()
        (built / "s").write_text("new\n")
        self.assertEqual(self.ninja("a", folder=built).returncode, 0)
        self.assertEqual(self.ninja(folder=built).returncode, 0)
        self.assertEqual((built / "o").read_text(), "t\ns\n")


@can_judge
class DepfileTest(NinjaFolderTest):
    """Dependency files: prerequisites of later builds."""

    def test_header(self) -> None:
        """A source that only the dependency file names is a way in later builds."""
        for deps in ("", "  deps = gcc\n"):
            with self.subTest(deps):
                self.write(
                    {
                        "build.ninja": COMPILE + deps + "build a.o: compile a.c\n",
                        "a.c": "a.h\n",
                        "a.h": "\n",
                    }
                )
                answer = self.answer()
                self.assertEqual(answer.findings, [])
                self.assertIn(["a.o", "a.h", "source", "a.o"], answer.ways)
                self.try_answer(answer)

    def test_generated_header(self) -> None:
        """One that a recipe writes is a race in a first build, unless it is order-only."""
        generated = COMPILE + "  deps = gcc\n" + COPY + "build g.h: copy g.txt\n"
        self.write(
            {
                "build.ninja": generated + "build a.o: compile a.c\nbuild p: copy g.h a.o\n",
                "a.c": "g.h\n",
                "g.txt": "\n",
            }
        )
        answer = self.answer()
        self.assertEqual(answer.findings, ["no race a.o g.h g.h"])
        self.try_answer(answer)
        with open(self.folder / "build.ninja", "w", encoding="utf-8") as file:
            file.write(generated + "build a.o: compile a.c || g.h\nbuild p: copy g.h a.o\n")
        answer = self.answer()
        self.assertEqual(answer.findings, [])
        self.assertIn(["a.o", "g.h", "written", "a.o", "g.h"], answer.ways)
        self.try_answer(answer)

    def test_header_that_no_line_has_as_an_output(self) -> None:
        """Ninja looks at it before the command that writes it runs."""
        lines = (
            "rule copy\n  command = cp g.txt g.h\nbuild gen: copy\n"
            "rule cat\n  command = cat a g.h > $out; echo $out: a g.h > d\n  depfile = d\n"
            "  deps = gcc\nbuild x: cat a || gen\n"
        )
        self.write({"build.ninja": lines, "a": "a\n", "g.txt": "1\n"})
        answer = self.answer()
        self.assertEqual(answer.findings, ["no stale x g.h"])
        self.assertIn(
            "build.ninja:8: x isn't made again when g.h changes: no build line has g.h as an"
            " output, and the command of gen (build.ninja:3) writes it, so ninja looks at it too"
            " early; let that line have it as an output (CMake: BYPRODUCTS)\n",
            answer.text,
        )
        self.assertEqual(self.ninja().returncode, 0)
        wait_for_later_stamps(self.folder)
        self.write({"g.txt": "2\n"})
        for text in ("a\n1\n", "a\n2\n"):
            wait_for_later_stamps(self.folder)
            self.assertEqual(self.ninja().returncode, 0)
            self.assertEqual((self.folder / "x").read_text(), text)
        for name in ("x", "g.h", ".ninja_log", ".ninja_deps"):
            (self.folder / name).unlink()
        self.write({"build.ninja": lines.replace("build gen:", "build gen | g.h:")})
        self.assertEqual(self.answer().findings, [])

    def test_depfile_that_is_not_written(self) -> None:
        """Ninja runs such a line in each build; with `deps` it doesn't."""
        rule = "rule r\n  command = cat a b > $out\n  depfile = d\n"
        self.write({"build.ninja": rule + "build o: r a\n", "a": "a\n", "b": "b\n"})
        answer = self.answer()
        self.assertEqual(answer.findings, [])
        self.assertIn("doesn't write its depfile d", answer.notes[0])
        self.try_answer(answer)
        self.write({"build.ninja": rule + "  deps = gcc\nbuild o: r a\n"})
        answer = self.answer()
        self.assertEqual(answer.findings, ["no stale o b"])
        self.try_answer(answer)

    def test_faulty_depfile(self) -> None:
        """A dependency file that ninja refuses is a problem."""
        rule = "rule r\n  command = cat a > $out; echo no target > d\n  depfile = d\n"
        self.write({"build.ninja": rule + "build o: r a\n", "a": "a\n"})
        self.assertIn("there is no target in it", self.answer().problems[0])

    def test_another_spelling(self) -> None:
        """A file that is spelled in two ways is two files for ninja, in a depfile too."""
        self.write(
            {
                "build.ninja": COMPILE
                + "  deps = gcc\n"
                + COPY
                + "build g.h: copy g.txt\nbuild a.o: compile a.c || g.h\n",
                "a.c": f"{self.folder}/g.h\n",
                "g.txt": "\n",
            }
        )
        answer = self.answer()
        self.assertEqual(answer.findings, ["no stale a.o g.h"])
        self.assertIn("another spelling of an output of build.ninja:7", answer.notes[0])
        # Ninja makes it anew one build too late: it looks at the file before it is written.
        self.assertEqual(self.ninja().returncode, 0)
        self.assertFalse(self.rebuilds(self.folder, ["g.txt"], ["a.o"]))


@can_judge
class CommandsTest(NinjaFolderTest):
    """What ninja runs."""

    def test_response_file(self) -> None:
        """The response file is written as ninja writes it."""
        content = "1 % \\ \\n $$x 'q' \"d\" $in_newline `e` é"
        self.write(
            {
                "build.ninja": "rule r\n  command = cp list.rsp $out\n  rspfile = list.rsp\n"
                f"  rspfile_content = {content}\nbuild o: r a b\n",
                "a": "a\n",
                "b": "b\n",
            }
        )
        answer = self.answer("o")
        self.assertEqual(self.ninja().returncode, 0)
        made = self.made() / "o"
        self.assertEqual(made.read_bytes(), (self.folder / "o").read_bytes())
        self.assertEqual(answer.findings, [])

    def test_shell(self) -> None:
        """Commands run as by `sh -c`, in the folder of build.ninja; folders of outputs are made."""
        commands = {
            "one": "false; echo 1 > $out",
            "sub/dir/two": "false || test -d sub/dir && basename $$PWD > $out",
            "three": "(exit 3); x=a; echo $$x '$$x' \"#\" > $out # end",
            "four": "! true; echo $$? > $out",
            "five": "for i in 1 2; do echo $$i; done > $out",
            "sub/six": "printf '%s\\n' $in_newline\\; > $out",
        }
        text = "".join(
            f"rule r{number}\n  command = {command}\nbuild {name}: r{number} ../s\n"
            for number, (name, command) in enumerate(commands.items())
        )
        self.write({"below/build.ninja": text, "s": "s\n"})
        answer = self.answer(folder="below")
        self.assertEqual(answer.findings, [])
        made = self.made() / "below"
        self.assertEqual(self.ninja(folder=self.folder / "below").returncode, 0)
        for name in commands:
            expected = (self.folder / "below" / name).read_text()
            self.assertEqual((made / name).read_text(), expected, name)

    def test_folder_below(self) -> None:
        """Names are paths from the root, however they are spelled."""
        self.write(
            {
                "out/build.ninja": COPY
                + f"build a: copy ../s\nbuild d/b: copy {self.folder}/s a\n"
                + "build ../c: copy d/b\n",
                "s": "s\n",
            }
        )
        answer = self.answer(folder="out")
        lines = [line for line in answer.makefile.splitlines() if not line.startswith("\t")]
        self.assertEqual(lines, ["c: out/d/b", "out/a: s", "out/d/b: s out/a"])
        self.assertEqual(answer.findings, [])

    def test_links(self) -> None:
        """A source that is reached over a link is the file behind it, as ninja compares it."""
        self.write(
            {
                "build.ninja": COPY + "build a: copy near/s\nbuild b: copy to_s\n",
                "far/s": "s\n",
            }
        )
        (self.folder / "near").symlink_to("far")
        (self.folder / "to_s").symlink_to("far/s")
        answer = self.answer()
        self.assertEqual(answer.findings, [])
        self.assertEqual([way[:2] for way in answer.ways], [["a", "far/s"], ["b", "far/s"]])
        self.try_answer(answer)

    def test_project_behind_a_link(self) -> None:
        """Names that begin at a link to the project are names of the project."""
        self.write({"build.ninja": COPY + f"build a: copy {self.scratch}/link/s\n", "s": "s\n"})
        (self.scratch / "link").symlink_to("project")
        self.assertEqual(self.answer().ways, [["a", "s", "source", "a"]])

    def test_names_with_blanks(self) -> None:
        """A name that a makefile can't hold has a stand-in."""
        self.write({"build.ninja": COPY + "build a$ b: copy s\nbuild c: copy a$ b\n", "s": "s\n"})
        build = self.translated()
        made = [name for name, node in build.nodes.items() if node.has_rule]
        self.assertEqual(made, ["c", "a b"])

    def test_pools(self) -> None:
        """A pool lets one command run at a time, and gives no order."""
        self.write(
            {
                "build.ninja": "pool one\n  depth = 1\n"
                + COPY
                + "  pool = one\nbuild g: copy s\nbuild o: copy s\n  more = g\n",
                "s": "s\n",
            }
        )
        answer = self.answer()
        self.assertEqual(answer.findings, ["no race o g g", "no stale o g"])
        self.try_answer(answer)

    def test_folder_as_output(self) -> None:
        """A folder gives only order; a recipe with a folder as its output may use no files."""
        self.write(
            {
                "build.ninja": COPY
                + "rule folder\n  command = mkdir -p $out\nbuild d: folder\n"
                + "build d/a: copy s | d\n",
                "s": "s\n",
            }
        )
        answer = self.answer()
        self.assertIn("d/a: d/a@order s\n", answer.makefile)
        self.assertIn("d/a@order: d\n", answer.makefile)
        self.assertIn(".PHONY: d\n", answer.makefile)

    def test_files(self) -> None:
        """Each recipe knows its file and line."""
        self.write(
            {
                "build.ninja": COPY + "include one.ninja\nsubninja sub/two.ninja\n",
                "one.ninja": "\nbuild a: copy s\n",
                "sub/two.ninja": "build b: copy a\n  more =\n\nbuild c: copy b\n",
                "s": "s\n",
            }
        )
        origins = {name: str(node.origin) for name, node in self.translated().nodes.items()}
        self.assertEqual(
            (origins["a"], origins["b"], origins["c"]),
            ("one.ninja:2", "sub/two.ninja:1", "sub/two.ninja:4"),
        )


@can_judge
class NotTranslatedTest(NinjaFolderTest):
    """What is named in place of a translation."""

    def test_dyndep_without_build(self) -> None:
        """`dyndep` is a problem where ninja hasn't built, and so the file isn't there."""
        self.write(
            {
                "build.ninja": COPY + "build a: copy s || dd\n  dyndep = dd\nbuild dd: copy t\n",
                "s": "s\n",
                "t": "ninja_dyndep_version = 1\nbuild a: dyndep\n",
            }
        )
        self.assertIn("build.ninja:3 has `dyndep`", self.translated().problems[0])

    def test_msvc(self) -> None:
        """`deps = msvc` is a problem."""
        self.write({"build.ninja": COPY + "  deps = msvc\nbuild a: copy s\n", "s": "s\n"})
        self.assertIn("deps = msvc", self.translated().problems[0])

    def test_restat(self) -> None:
        """Behind `restat` what needs an output is built by that output alone."""
        lines = COPY + "rule keep\n  command = head -n 1 $in > t; {}\n  restat = 1\n"
        lines += "build a: keep s\nbuild b: copy a\n  more = s\n"
        self.write({"build.ninja": lines.format("cmp -s t $out || cp t $out"), "s": "s\n"})
        answer = self.answer(replay=True)
        self.assertEqual(answer.findings, ["no stale b s"])
        self.assertIn("Add to build.ninja:\n    build b: .. | s\n", answer.text)
        self.assertIn("build.ninja:6 has `restat`, and its command leaves a as", answer.notes[0])
        self.try_answer(answer)
        # A command that always writes makes b anew too.
        self.write({"build.ninja": lines.format("cp t $out")})
        answer = self.answer()
        self.assertEqual(answer.findings, [])
        self.assertIn(["b", "s", "source", "b", "a"], answer.ways)
        self.try_answer(answer)

    def test_symbols_of_a_library(self) -> None:
        """Meson lets ninja link a program again when these are others, and only then."""
        self.write(
            {
                "build.ninja": COPY
                + "rule SHSYM\n  command = : symbolextractor; head -n 1 $in > t;"
                " cmp -s t $out || cp t $out\n  restat = 1\n"
                "build a.so: copy s\nbuild a.sym: SHSYM a.so\nbuild b: copy c | a.sym\n"
                "  more = a.so\n",
                "s": "s\nt\n",
                "c": "c\n",
            }
        )
        answer = self.answer()
        self.assertEqual(answer.findings, [])
        note = "is Meson's: programs are linked again only when the symbols of a.so change"
        self.assertTrue(any(note in text for text in answer.notes), answer.notes)
        self.try_answer(answer)

    def test_restat_without_a_comparison(self) -> None:
        """A command that leaves an output as it is, whatever its input says, isn't judged."""
        lines = COPY + "rule keep\n  command = {} || cp $in $out\n  restat = 1\n"
        lines += "build a: keep s\nbuild b: copy a\n"
        self.write({"build.ninja": lines.format("test -f $out"), "s": "s\n"})
        answer = self.answer()
        self.assertEqual((answer.findings, len(answer.problems)), ([], 1))
        self.assertIn("leaves a as it is also where that is old", answer.problems[0])
        self.assertEqual(self.left_by_edit(), "s\n")
        # One that compares times or bytes is judged.
        for command in ("test $out -nt $in", "cmp -s $in $out"):
            self.write({"build.ninja": lines.format(command)})
            answer = self.answer()
            self.assertEqual((answer.findings, answer.problems), ([], []))
            self.assertEqual(self.left_by_edit(), "t\n")

    def test_second_output_of_a_recipe_without_a_record(self) -> None:
        """What it writes is no source, though it was there before the build."""
        lines = COPY + "rule tell\n  command = date +%N > c; date +%N > h\n"
        lines += "build c h: tell s\nbuild b: copy h\n"
        self.write({"build.ninja": lines, "s": "s\n", "c": "0\n", "h": "0\n"})
        answer = self.answer(replay=True)
        self.assertEqual(answer.findings, [])
        self.assertIn("writes c with other contents", answer.problems[0])

    def left_by_edit(self) -> str:
        """What b holds when s says `t` after a build."""
        built = self.built()
        wait_for_later_stamps(built)
        (built / "s").write_text("t\n")
        self.ninja(folder=built)
        return (built / "b").read_text()

    def test_state_of_a_folder(self) -> None:
        """A command that looks whether there is a folder, which an order-only input makes."""
        rules = "rule make\n  command = rm -rf d; grep -q yes $in && mkdir d; cp $in $out\n"
        rules += "rule look\n  command = test -d d && cat $in > $out || echo without > $out\n"
        lines = "build a: make a.in\nbuild b: look b.in || a\n"
        self.write({"build.ninja": rules + lines, "a.in": "yes\n", "b.in": "b\n"})
        answer = self.answer()
        self.assertEqual((answer.findings, len(answer.problems)), ([], 1))
        self.assertIn("build.ninja:6: the recipe of b writes b otherwise", answer.problems[0])
        built = self.built()
        wait_for_later_stamps(built)
        (built / "a.in").write_text("no\n")
        self.ninja(folder=built)
        self.assertEqual((built / "b").read_text(), "b\n")

    def test_restat_of_several_outputs(self) -> None:
        """Each output of such a line counts by itself."""
        command = "for n in a c; do cmp -s s $$n || cp s $$n; done"
        rule = f"rule keep\n  command = {command}\n  restat = 1\n"
        lines = "build a | c: keep s\nbuild b: copy a\n  more = c\nbuild d: copy c\n"
        self.write({"build.ninja": rule + COPY + lines, "s": "s\n"})
        answer = self.answer()
        self.assertEqual(answer.findings, ["no stale b c"])
        self.try_answer(answer)

    def test_generator(self) -> None:
        """What a `generator` line makes, and is there, is taken as it is."""
        rule = "rule again\n  command = touch $out\n  generator = 1\n"
        self.write(
            {"build.ninja": rule + COPY + "build g: again s\nbuild b: copy g\n", "s": "", "g": ""}
        )
        build = self.translated()
        self.assertIn("build.ninja:6 has `generator`", build.given["g"])
        self.assertFalse(build.nodes["g"].has_rule)

    def test_one_file_by_two_lines(self) -> None:
        """A file that two lines make, by two spellings, is a problem."""
        self.write(
            {
                "build.ninja": COPY + f"build a: copy s\nbuild {self.folder}/a: copy t\n",
                "s": "s\n",
                "t": "t\n",
            }
        )
        self.assertIn("a is an output of build.ninja:3", self.translated().problems[0])


@has_ninja
@unittest.skipUnless(namespace(), "no mount namespace")
class RefusedTest(NinjaFolderTest):
    """What ninja can't build."""

    def test_sentences(self) -> None:
        """Ninja's own reason is given."""
        manifests = {
            COPY + "build a: copy nowhere\n": "'nowhere', needed by 'a', missing",
            COPY + "build a: copy b\nbuild b: copy a\n": "dependency cycle: a -> b -> a",
            COPY + "build a copy b\n": "build.ninja:3: : is expected",
        }
        for text, reason in manifests.items():
            with self.subTest(reason):
                self.write({"build.ninja": text})
                with self.assertRaises(Fault) as caught:
                    self.translated("a")
                self.assertIn(reason, str(caught.exception))

    def test_no_file(self) -> None:
        """Without build.ninja nothing is read."""
        with self.assertRaisesRegex(Fault, "build.ninja:1: No such file or directory"):
            self.translated()

    def test_unknown_goal(self) -> None:
        """An unknown goal is refused."""
        self.write({"build.ninja": COPY + "build a: copy s\n", "s": ""})
        with self.assertRaisesRegex(Fault, "unknown target 'b'"):
            self.translated("b")

    def test_old_manifest(self) -> None:
        """A build.ninja that ninja would make anew first is refused, until it is new again."""
        text = "rule again\n  command = touch build.ninja\n  generator = 1\n" + COPY
        text += "build build.ninja: again configure\nbuild a: copy s\n"
        self.write({"configure": "", "s": "", "build.ninja": text})
        self.assertEqual(self.translated("a").goals, ["a"])
        os.utime(self.folder / "build.ninja", (1, 1))
        there = os.path.relpath(self.folder)
        told = f"older than what it is made from.*: run `ninja -C {there} build.ninja`, and then"
        with self.assertRaisesRegex(Fault, told):
            self.translated("a")
