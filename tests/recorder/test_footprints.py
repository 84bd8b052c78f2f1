"""What is recorded of common recipes: the recipes themselves tell what to expect."""

from __future__ import annotations

import json
import os

from recorder.project import ProjectTest, compiled, traced

MAIN = '#include "a.h"\nint main(void) { return A; }\n'
EMPTY = "int main(void) { return 0; }\n"
COPY = "b: a\n\tcp a b\n"
LINKS = (
    "over a symbolic link: to mkcheck these are two files, so let rules and recipes use one name"
)
TWINS = "which are one file: mkcheck takes them for two, so let rules and recipes use one name"


@traced
@compiled
class CompilerTest(ProjectTest):
    """Recipes that compile and link."""

    def test_headers_are_read(self) -> None:
        self.write(
            {
                "makefile": "p: m.o\n\tcc -o p m.o\nm.o: m.c a.h\n\tcc -c m.c\n",
                "m.c": MAIN,
                "a.h": '#include "b.h"\n#define A B\n',
                "b.h": "#define B 0\n",
                "x.h": "",
            }
        )
        outcome = self.recorded()
        self.assertEqual(outcome.own("m.o"), ({"m.c", "a.h", "b.h"}, {"m.o"}))
        self.assertEqual(outcome.own("p"), ({"m.o"}, {"p"}))
        self.assertEqual(outcome.written["sources"], ["a.h", "b.h", "m.c"])
        self.assertIn("/usr/", outcome.written["fixed"])
        self.assertEqual(self.check(), ["no stale m.o b.h"])
        there = sorted(path.name for path in self.folder.iterdir())
        self.assertEqual(there, ["a.h", "b.h", "m.c", "makefile", "x.h"])

    def test_a_record_stands_on_a_line(self) -> None:
        self.write({"makefile": "p: m.o\n\tcc -o p m.o\nm.o: m.c\n\tcc -c m.c\n", "m.c": EMPTY})
        self.recorded()
        lines = self.book.read_text().splitlines()
        self.assertEqual(len(lines), 3)
        self.assertTrue(lines[0].startswith('{"format":1,"fixed":["/usr/"'), lines[0])
        self.assertTrue(
            lines[1].startswith('{"target":"m.o","commands":["cc -c m.c"],"reads":['), lines[1]
        )
        self.assertTrue(lines[2].endswith('"writes":["p"]}]}'), lines[2])

    def test_generated_sources(self) -> None:
        self.write(
            {
                "makefile": (
                    "p: m.o\n\tcc -o p m.o\nm.o: m.c a.h\n\tcc -c m.c\n"
                    "a.h: make-header\n\t./make-header > a.h\n"
                ),
                "m.c": MAIN,
                "make-header": "#!/bin/sh\necho '#define A 0'\n",
            }
        )
        outcome = self.recorded()
        self.assertEqual(outcome.own("a.h"), ({"make-header"}, {"a.h"}))
        self.assertEqual(outcome.own("m.o"), ({"m.c", "a.h"}, {"m.o"}))
        self.assertEqual(outcome.written["sources"], ["m.c", "make-header"])
        self.assertEqual(self.check()[0].split()[0], "yes")

    def test_a_library_of_objects(self) -> None:
        self.write(
            {
                "makefile": (
                    "p: m.c l.a\n\tcc -o p m.c l.a\nl.a: x.o y.o\n\tar rc l.a x.o y.o\n"
                    "x.o: x.c\n\tcc -c x.c\ny.o: y.c\n\tcc -c y.c\n"
                ),
                "m.c": "int x(void); int main(void) { return x(); }\n",
                "x.c": "int x(void) { return 0; }\n",
                "y.c": "int y(void) { return 0; }\n",
            }
        )
        outcome = self.recorded()
        self.assertEqual(outcome.own("l.a"), ({"x.o", "y.o"}, {"l.a"}))
        self.assertEqual(outcome.own("p"), ({"m.c", "l.a"}, {"p"}))
        self.assertEqual(self.check()[0].split()[0], "yes")

    def test_inference_rules_and_operands(self) -> None:
        self.write({"makefile": "p: m.o\n\t$(CC) -o p m.o\n", "m.c": EMPTY})
        outcome = self.recorded("CC=cc")
        self.assertEqual(outcome.own("m.o"), ({"m.c"}, {"m.o"}))
        commands = [record["commands"] for record in outcome.written["records"]]
        self.assertEqual(commands, [["cc -O1 -c m.c"], ["cc -o p m.o"]])


@traced
class ShellTest(ProjectTest):
    """Recipes of shell commands."""

    def test_a_copy(self) -> None:
        self.write({"makefile": COPY, "a": "1\n", "c": "2\n"})
        outcome = self.recorded()
        self.assertEqual(outcome.own("b"), ({"a"}, {"b"}))
        self.assertEqual(outcome.written["sources"], ["a"])
        self.assertEqual(self.check()[0].split()[0], "yes")

    def test_cd_and_processes_in_other_folders(self) -> None:
        self.write(
            {
                "makefile": (
                    "out: s/x s/y z\n\tcd s && cat x > ../o1 && (cd .. && ./both) & cat z; wait;"
                    " cd s; ./tool y > ../out\n"
                ),
                "s/x": "",
                "s/y": "",
                "z": "",
                "both": "#!/bin/sh\ncd s && mv ../o1 ./o2\n",
                "s/tool": '#!/bin/sh\ncat "$1"\n',
            }
        )
        outcome = self.recorded()
        self.assertEqual(
            outcome.own("out"), ({"s/x", "z", "both", "s/tool", "s/y"}, {"s/o2", "out"})
        )

    def test_pipes_lists_and_temporary_files(self) -> None:
        self.write(
            {
                "makefile": (
                    "out: a b\n\tcat a | sort > t1 && cat t1 b > t2\n"
                    "\tt=$$(mktemp); cat t2 > $$t; mv $$t out; rm t1 t2\n"
                ),
                "a": "2\n1\n",
                "b": "3\n",
            }
        )
        self.assertEqual(self.recorded().own("out"), ({"a", "b"}, {"out"}))

    def test_a_script_is_read_with_its_interpreters(self) -> None:
        self.write({"makefile": "out: s\n\t./s\n", "s": "#!/usr/bin/env sh\necho 1 > out\n"})
        outcome = self.recorded()
        self.assertEqual(outcome.own("out"), ({"s"}, {"out"}))
        for program in ("/usr/bin/env", "/bin/sh"):
            self.assertIn(os.path.realpath(program), outcome.reads("out"))

    def test_a_script_of_a_script_of_the_project(self) -> None:
        self.write({"makefile": "out: s i\n\t./s\n", "i": "#!/bin/sh\necho 1 > out\n"})
        self.write({"s": f"#!{self.folder}/i\n"})
        outcome = self.recorded("--in-place")
        self.assertEqual(outcome.own("out"), ({"s", "i"}, {"out"}))

    def test_an_output_is_renamed_into_place(self) -> None:
        self.write({"makefile": "out: a\n\tcat a > out.new\n\tmv out.new out\n", "a": ""})
        self.assertEqual(self.recorded().own("out"), ({"a"}, {"out"}))

    def test_a_file_that_was_just_written_is_no_read(self) -> None:
        self.write(
            {
                "makefile": (
                    "out: a\n\tcp a log\n\tcat log > out\n\t./out2 2>/dev/null || cat out\n"
                ),
                "a": "",
            }
        )
        self.assertEqual(self.recorded().own("out"), ({"a"}, {"log", "out"}))

    def test_a_file_that_is_read_before_it_is_written_is_both(self) -> None:
        self.write({"makefile": "all: a b\nb: a\n\tcat a > b; echo x >> a\na:\n\techo > a\n"})
        outcome = self.recorded()
        self.assertEqual(outcome.own("b"), ({"a"}, {"a", "b"}))
        self.assertEqual(self.check()[0], "no writers a b a")

    def test_appending_reads_what_was_there(self) -> None:
        self.write(
            {"makefile": "all: a b\nb: a\n\techo x >> a; echo > b\na:\n\techo >> a; echo >> a\n"}
        )
        outcome = self.recorded()
        self.assertEqual(outcome.own("a"), (set(), {"a"}))
        self.assertEqual(outcome.own("b"), ({"a"}, {"a", "b"}))

    def test_a_new_stamp_is_a_writing(self) -> None:
        self.write(
            {"makefile": "all: a b\na:\n\techo > a\nb: a\n\tcp -p a c; touch -c a; touch b\n"}
        )
        outcome = self.recorded()
        self.assertEqual(outcome.own("b"), ({"a"}, {"a", "b", "c"}))

    def test_looks_folders_and_devices_are_not_recorded(self) -> None:
        self.write(
            {
                "makefile": (
                    "out: a\n\ttest -f b; ls . d > /dev/null; mkdir -p e/f\n"
                    "\tcat a /dev/null /proc/self/stat > /dev/null; > out\n"
                ),
                "a": "",
                "b": "",
                "d/x": "",
            }
        )
        self.assertEqual(self.recorded().own("out"), ({"a"}, {"out"}))

    def test_a_folder_that_is_moved(self) -> None:
        self.write(
            {"makefile": "d/x: a\n\tmkdir t t/s; cp a t/x; cp a t/s/y; mv t d; cat d/x\n", "a": ""}
        )
        self.assertEqual(self.recorded().own("d/x"), ({"a"}, {"d/x", "d/s/y"}))

    def test_a_folder_of_sources_that_is_moved(self) -> None:
        self.write({"makefile": "d/x:\n\tmv s d\n", "s/x": "", "s/t/y": ""})
        outcome = self.recorded()
        self.assertEqual(outcome.own("d/x"), ({"s/x", "s/t/y"}, {"d/x", "d/t/y"}))
        away = [
            f"the recipe of d/x takes away {name}, which it didn't make: let it leave that there"
            for name in ("s/t/y", "s/x")
        ]
        self.assertEqual(outcome.warnings(), away)

    def test_a_stamp_of_a_folder_is_none_of_its_files(self) -> None:
        self.write({"makefile": "out: d/x\n\ttouch d; cat d/x > out\n", "d/x": "", "d/y": ""})
        self.assertEqual(self.recorded().own("out"), ({"d/x"}, {"out"}))

    def test_a_copied_folder(self) -> None:
        self.write(
            {
                "makefile": "e/x: d/x d/y\n\tcp -a d e\nout: e/x\n\tcat e/y > out\n",
                "d/x": "",
                "d/y": "",
            }
        )
        outcome = self.recorded("out")
        self.assertEqual(outcome.own("e/x"), ({"d/x", "d/y"}, {"e/x", "e/y"}))
        self.assertEqual(outcome.own("out"), ({"e/y"}, {"out"}))

    def test_a_file_that_is_made_anew_is_no_read(self) -> None:
        self.write({"makefile": "out: a\n\trm -f out; cat a >> out\n", "a": "", "out": "old\n"})
        self.assertEqual(self.recorded("--in-place").own("out"), ({"a"}, {"out"}))
        self.write({"makefile": "out: a\n\tcat a >> out\n"})
        self.assertEqual(self.recorded("--in-place").own("out"), ({"a", "out"}, {"out"}))

    def test_a_lock_that_is_made_is_written(self) -> None:
        self.write({"makefile": "out: a\n\tflock lock cat a > out\n", "a": ""})
        self.assertEqual(self.recorded().own("out"), ({"a"}, {"lock", "out"}))

    def test_a_symbolic_link(self) -> None:
        self.write({"makefile": "out: l\n\tcat l > out\nl: a\n\tln -s a l\n", "a": ""})
        outcome = self.recorded()
        self.assertEqual(outcome.own("l"), (set(), {"l"}))
        self.assertEqual(outcome.own("out"), ({"l", "a"}, {"out"}))
        self.assertEqual(outcome.warnings(), [f"the recipe of out reaches a as l too, {LINKS}"])
        self.assertEqual(self.check()[1:], ["way out l written out l", "way out a source out l"])

    def test_a_link_that_nobody_names_is_a_race(self) -> None:
        self.write({"makefile": "all: l out\nout: a\n\tcat l > out\nl:\n\tln -s a l\n", "a": ""})
        self.recorded()
        self.assertEqual(self.check(), ["no race out l l", "no stale out l"])

    def test_a_link_of_the_project(self) -> None:
        self.write({"makefile": "out: i/a.h\n\tcat i/a.h > out\n", "s/a.h": ""})
        (self.folder / "i").symlink_to("s")
        outcome = self.recorded()
        self.assertEqual(outcome.own("out"), ({"i/a.h"}, {"out"}))
        self.assertEqual(outcome.written["sources"], ["i/a.h"])
        self.assertEqual(outcome.warnings(), [])
        self.assertEqual(self.check()[1:], ["way out i/a.h source out"])

    def test_links_of_the_project_that_lead_to_one_file(self) -> None:
        for name, front in (("i", ""), ("j", "k/")):
            (self.folder / name).symlink_to(f"{front}s")
        (self.folder / "k").symlink_to(".")
        for names, told in (
            ("i/a.h s/a.h", "i/a.h"),
            ("j/a.h", "j/a.h"),
            ("k/i/a.h", "k/i/a.h"),
        ):
            self.write({"makefile": f"out: {names}\n\tcat {names} > out\n", "s/a.h": ""})
            outcome = self.recorded()
            self.assertEqual(outcome.own("out"), ({"s/a.h"}, {"out"}))
            said = [f"the recipe of out reaches s/a.h as {told} too, {LINKS}"]
            self.assertEqual(outcome.warnings(), said)

    def test_a_link_of_the_project_that_a_recipe_makes_anew(self) -> None:
        text = "all: out l\nout: i/a.h\n\tcat i/a.h > out\nl:\n\trm i; ln -s t i; touch l\n"
        self.write({"makefile": text, "s/a.h": "", "t/a.h": ""})
        (self.folder / "i").symlink_to("s")
        self.assertEqual(self.recorded().own("out")[0], {"s/a.h"})

    def test_a_second_name_of_a_file(self) -> None:
        self.write({"makefile": "b: a\n\tln a b\n", "a": ""})
        outcome = self.recorded()
        self.assertEqual(outcome.own("b"), ({"a"}, {"b"}))
        self.assertEqual(outcome.warnings(), [f"the recipe of b uses a and b, {TWINS}"])

    def test_a_second_name_that_another_recipe_uses(self) -> None:
        self.write(
            {
                "makefile": (
                    "all: x y z\nx: a\n\tcp a x\ny: b\n\tcp b y\nz: b\n\tcp b z\n.PHONY: all\n"
                ),
                "a": "",
                "s/c": "",
            }
        )
        os.link(self.folder / "a", self.folder / "b")
        os.link(self.folder / "s" / "c", self.folder / "d")
        told = [f"the recipe of y uses b, and that of x a, {TWINS}"]
        for words in ((), ("--in-place",), ("--again",)):
            outcome = self.recorded(*words)
            self.assertEqual(outcome.own("y"), ({"b"}, {"y"}))
            self.assertEqual(outcome.warnings(), told, words)

    def test_a_second_name_that_a_recipe_makes_for_others(self) -> None:
        self.write({"makefile": "x: a b\n\tcat b > x\nb: a\n\tln a b\n", "a": ""})
        self.assertEqual(self.recorded().warnings(), [f"the recipe of b uses a and b, {TWINS}"])

    def test_names_that_are_one_file_no_more(self) -> None:
        self.write(
            {"makefile": "x: a b\n\tcat b > x\nb: a\n\tcat a > b.new; mv b.new b\n", "a": ""}
        )
        os.link(self.folder / "a", self.folder / "b")
        self.assertEqual(self.recorded("--in-place").warnings(), [])

    def test_a_file_that_is_written_by_its_second_name(self) -> None:
        self.write({"makefile": "x: a\n\tcp a x; echo new > b\n", "a": "", "b": ""})
        (self.folder / "b").unlink()
        os.link(self.folder / "a", self.folder / "b")
        outcome = self.recorded("--again")
        self.assertIn(f"the recipe of x uses a and b, {TWINS}", outcome.warnings())
        self.assertEqual((self.folder / "a").read_text(), "")

    def test_a_link_of_the_project_that_another_recipe_uses(self) -> None:
        self.write(
            {
                "makefile": "all: x y\nx: s/a\n\tcp s/a x\ny: i/a\n\tcp i/a y\n.PHONY: all\n",
                "s/a": "",
            }
        )
        (self.folder / "i").symlink_to("s")
        outcome = self.recorded()
        self.assertEqual((outcome.own("x"), outcome.own("y")), (({"s/a"}, {"x"}), ({"s/a"}, {"y"})))
        self.assertEqual(outcome.warnings(), [f"the recipe of y reaches s/a as i/a too, {LINKS}"])

    def test_a_file_that_is_taken_away(self) -> None:
        self.write({"makefile": "b: a\n\tmv a b\n", "a": ""})
        outcome = self.recorded()
        self.assertEqual(outcome.own("b"), ({"a"}, {"b"}))
        self.assertEqual(
            outcome.warnings(),
            ["the recipe of b takes away a, which it didn't make: let it leave that there"],
        )

    def test_commands_of_more_lines_and_prefixes(self) -> None:
        self.write(
            {
                "makefile": (
                    "b: a\n\t@cp \\\n\t  a b\n\t-@false; cat a > c\n\t@\n\t- false\n\t+ touch d\n"
                ),
                "a": "",
            }
        )
        outcome = self.recorded()
        self.assertEqual(outcome.own("b"), ({"a"}, {"b", "c", "d"}))
        commands = outcome.written["records"][0]["commands"]
        self.assertEqual(
            commands, ["@cp \\\n  a b", "-@false; cat a > c", "@", "- false", "+ touch d"]
        )
        self.assertEqual(self.check()[0].split()[0], "yes")

    def test_names_beyond_ascii(self) -> None:
        self.write({"makefile": "büch: ä\n\tcp ä büch\n", "ä": ""})
        outcome = self.recorded()
        self.assertEqual(outcome.own("büch"), ({"ä"}, {"büch"}))
        self.assertEqual(self.check()[0].split()[0], "yes")


@traced
class FolderTest(ProjectTest):
    """The folder and the copy in which recipes run."""

    def test_what_was_built_before_is_no_source(self) -> None:
        self.write({"makefile": COPY, "a": "new\n", "b": "old\n"})
        outcome = self.recorded()
        self.assertEqual(outcome.written["sources"], ["a"])
        self.assertEqual((self.folder / "b").read_text(), "old\n")
        self.assertEqual(outcome.warnings(), [])

    def test_in_place(self) -> None:
        self.write({"makefile": COPY, "a": "new\n", "b": "old\n"})
        outcome = self.recorded("--in-place")
        self.assertEqual(outcome.own("b"), ({"a"}, {"b"}))
        self.assertEqual((self.folder / "b").read_text(), "new\n")

    def test_a_file_beside_a_target_that_was_there(self) -> None:
        self.write({"makefile": "b: a\n\tcp a b; cp a log\n", "a": "", "log": ""})
        outcome = self.recorded()
        self.assertEqual(outcome.written["sources"], ["a"])
        self.assertEqual(outcome.warnings(), [])

    def test_a_copy_inside_the_folder(self) -> None:
        self.write({"makefile": COPY, "a": "", "tmp/kept": ""})
        outcome = self.record(environment={"TMPDIR": str(self.folder / "tmp")})
        self.assertEqual(outcome.own("b"), ({"a"}, {"b"}))
        self.assertEqual(outcome.written["sources"], ["a"])

    def test_a_file_that_decides_a_rule_is_a_source(self) -> None:
        self.write(
            {
                "makefile": (
                    ".SUFFIXES:\n.SUFFIXES: .o .s .c\n.s.o:\n\tcp $< $@\n.c.o:\n\tcp $< $@\n"
                    "x.o:\nx.c:\n\techo > x.c\n"
                ),
                "x.s": "",
                "other": "",
            }
        )
        self.assertEqual(self.recorded("-r").written["sources"], ["x.s"])

    def test_a_built_file_that_decides_a_rule_is_refused(self) -> None:
        self.write(
            {
                "makefile": (
                    "all: log y.o\nlog:\n\techo | tee y.s > log\n.SUFFIXES: .s\n.s.o:\n\tcp $< $@\n"
                ),
                "y.s": "",
            }
        )
        outcome = self.record()
        self.assertTrue(outcome.lacks("log"), outcome)
        self.assertIn(
            "the recipe of log writes y.s, which the makefile takes for a source", outcome.errors
        )

    def test_what_was_built_beside_a_target_is_to_be_removed(self) -> None:
        self.write(
            {
                "makefile": (
                    ".SUFFIXES:\n.SUFFIXES: .o .s .c\nall: log y.o\nlog:\n\techo | tee y.s > log\n"
                    ".s.o:\n\tcp $< $@\n.c.o:\n\tcp $< $@\n"
                ),
                "y.s": "",
                "y.c": "",
            }
        )
        outcome = self.record("-r")
        self.assertEqual((outcome.status, outcome.book), (1, None))
        self.assertTrue(
            outcome.errors.endswith("remove them, and record again:\n\ty.s\n"), outcome.errors
        )

    def test_a_source_that_a_recipe_writes_is_refused(self) -> None:
        self.write({"makefile": "b: a\n\ttouch a; cp a b\n", "a": ""})
        outcome = self.record()
        self.assertEqual((outcome.status, outcome.book), (1, None))
        self.assertIn(
            "the recipe of b writes a, which the makefile takes for a source", outcome.errors
        )

    def test_a_file_outside_is_named(self) -> None:
        self.write({"makefile": f"b:\n\tcat {self.scratch}/x/y > b\n"})
        (self.scratch / "x").mkdir()
        (self.scratch / "x" / "y").write_text("")
        outcome = self.record()
        self.assertEqual((outcome.status, outcome.book), (1, None))
        self.assertIn(f"\tb reads {self.scratch}/x/y\n", outcome.errors)
        outcome = self.recorded("--fixed", f"{self.scratch}/x")
        self.assertIn(f"{self.scratch}/x/y", outcome.reads("b"))
        self.assertIn(f"{self.scratch}/x/", outcome.written["fixed"])

    def test_a_writing_outside_is_named(self) -> None:
        self.write({"makefile": f"b:\n\techo > b; echo > {self.scratch}/z\n"})
        outcome = self.record()
        self.assertEqual((outcome.status, outcome.book), (1, None))
        self.assertIn(f"\tb writes {self.scratch}/z\n", outcome.errors)

    def test_a_fixed_prefix_in_the_folder(self) -> None:
        self.write({"makefile": "b: v/a\n\tcp v/a b\n", "v/a": ""})
        outcome = self.recorded("--fixed", "v")
        self.assertEqual(outcome.own("b"), ({"v/a"}, {"b"}))
        self.assertEqual(outcome.written["sources"], [])
        self.assertIn("v/", outcome.written["fixed"])
        self.assertEqual(self.check()[0].split()[0], "yes")

    def test_a_fixed_prefix_above_the_folder(self) -> None:
        self.write({"makefile": "b: ../c/a\n\tcp ../c/a b\n"})
        (self.scratch / "c").mkdir()
        (self.scratch / "c" / "a").write_text("")
        outcome = self.recorded("--fixed", "../c", "--in-place")
        self.assertEqual(outcome.own("b"), ({"../c/a"}, {"b"}))
        self.assertEqual(self.check()[0].split()[0], "yes")

    def test_another_makefile_and_goals(self) -> None:
        self.write({"m.mk": "b:\n\techo > b\nc:\n\techo > c\n"})
        outcome = self.recorded("-f", "m.mk", "-r", "c")
        self.assertEqual([record["target"] for record in outcome.written["records"]], ["c"])
        self.assertEqual(
            self.check("-f", "m.mk", "c"),
            ["yes 1 recipes " + str(len(outcome.reads("c"))) + " reads"],
        )

    def test_without_a_file_for_them_footprints_are_printed(self) -> None:
        self.write({"makefile": "b:\n\techo > b; echo said\n"})
        outcome = self.record_plainly()
        self.assertEqual((outcome.status, outcome.errors), (0, ""))
        self.assertEqual(json.loads(outcome.output)["records"][0]["writes"], ["b"])

    def test_a_pipe_is_written_to(self) -> None:
        self.write({"makefile": "b:\n\techo > b\n"})
        pipe = self.scratch / "pipe"
        os.mkfifo(pipe)
        reader = os.open(pipe, os.O_RDONLY | os.O_NONBLOCK)
        self.addCleanup(os.close, reader)
        self.assertEqual(self.record("-o", str(pipe)).status, 0)
        self.assertTrue(pipe.is_fifo())
        self.assertEqual(json.loads(os.read(reader, 65536))["format"], 1)
