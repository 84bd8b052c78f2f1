"""Builds that GNU make breaks though each recipe names all its files: what a recipe finds besides
its files. The recorder refuses them, or has a doubt."""

from __future__ import annotations

import os
import shutil
import subprocess
import time
import unittest
from pathlib import Path
from unittest import mock

from mkcheck_tools.replay.surroundings import library
from mkcheck_tools.run import places
from mkcheck_tools.run.machines import (
    fewer_online,
    has_names,
    older_kernel,
    other_user,
    processors_but_one,
)
from mkcheck_tools.run.memory import memory
from mkcheck_tools.run.paths import SeenPath
from mkcheck_tools.run.terminals import has_terminals
from recorder.project import OF_MAKE, ProjectTest, free_port, traced
from waits import SECONDS_AT_MOST

namespaces = unittest.skipUnless(places.namespace(), "no mount namespace is allowed")
faked = unittest.skipUnless(library(), "no library that sets clocks forward")
PYTHON = "/usr/bin/python3"
MANY = {"a": "1\n", "b": "2\n"}
# What comes behind this, in a process beside that of b, writes behind it in each run.
B_FIRST = "until test -s out; do sleep 0.1; done"


class SurroundingsTest(ProjectTest):
    """A project that is recorded with replays, and made by GNU make where it is there."""

    replays = True

    def made(self, *words: str, given: str = "", name: str = "out") -> str:
        """What GNU make leaves in a file, made from nothing with this standard input."""
        if shutil.which("make") is None:
            self.skipTest("no make")
        (self.folder / name).unlink(missing_ok=True)
        subprocess.run(
            ["make", "-s", *words],
            cwd=self.folder,
            env={key: value for key, value in os.environ.items() if key not in OF_MAKE},
            input=given,
            text=True,
            capture_output=True,
            check=True,
        )
        text = (self.folder / name).read_text()
        (self.folder / name).unlink()
        return text

    def doubt(self, makefile: str, *told: str, files: dict[str, str] | None = None) -> None:
        """The recording has one warning, which says all this."""
        self.write({"makefile": makefile, **(files or {"a": "1\n"})})
        warnings = self.recorded().warnings()
        self.assertEqual(len(warnings), 1, warnings)
        for text in told:
            self.assertIn(text, warnings[0])

    def refused(self, makefile: str, *told: str, files: dict[str, str] | None = None) -> None:
        """The recipe of `out` has no record, for a reason that says all this."""
        self.write({"makefile": makefile, **(files or {"a": "1\n"})})
        outcome = self.record()
        self.assertEqual(outcome.status, 1, outcome.errors)
        records = [] if outcome.book is None else outcome.book["records"]
        self.assertNotIn("out", [record["target"] for record in records])
        for text in told:
            self.assertIn(text, outcome.errors)

    def passes(self, makefile: str, files: dict[str, str] | None = None) -> None:
        """The recording has nothing to say."""
        self.write({"makefile": makefile, **(files or {"a": "1\n"})})
        self.assertEqual(self.recorded().errors, "")


@traced
@namespaces
class ShellTest(SurroundingsTest):
    """The shell is started as make starts it."""

    makefile = 'out: a b\n\techo "`grep -c TODO a; cat b`" > out\n'

    def test_a_part_that_fails_doesnt_end_a_command(self) -> None:
        self.doubt(self.makefile, "(sh -e", "writes out with other contents", files=MANY)
        self.assertEqual(self.recorded().own("out"), ({"a", "b"}, {"out"}))
        self.assertEqual(self.made(), "0\n2\n")

    def test_a_command_that_fails_under_posix_alone(self) -> None:
        self.doubt("out: a\n\tgrep -q x a; echo $$? > out\n", "(sh -e", ", fails: ")
        self.assertEqual(self.made(), "1\n")

    def test_posix_ends_a_command_early(self) -> None:
        for front in (".POSIX:\n", "P = .POSIX\n$(P):\n", "include posix.mk\n"):
            self.write({"makefile": front + self.makefile, "posix.mk": ".POSIX:\n", **MANY})
            outcome = self.recorded()
            self.assertEqual(outcome.errors, "")
            self.assertEqual(outcome.own("out"), ({"a"}, {"out"}), front)
            self.assertEqual(self.made(), "0\n")

    def test_posix_in_a_comment_or_a_command_is_none(self) -> None:
        text = "# .POSIX:\nX = .POSIX:\n" + self.makefile + "b: c\n\techo .POSIX: > b\n"
        self.write({"makefile": text, "a": "1\n", "c": ""})
        self.assertEqual(self.recorded().own("out"), ({"a", "b"}, {"out"}))

    def test_shell_flags(self) -> None:
        self.write({"makefile": ".SHELLFLAGS = -ec\n" + self.makefile, **MANY})
        self.assertEqual(self.recorded().own("out"), ({"a"}, {"out"}))
        self.assertEqual(self.made(), "0\n")

    def test_commands_that_end_well(self) -> None:
        self.passes("out: a\n\tif grep -q x a; then echo x; fi > out; cat a >> out\n")


@traced
@namespaces
class AmidTest(SurroundingsTest):
    """What make hands down, the time, standard input, second names of files."""

    def test_a_recipe_that_asks_for_jobs(self) -> None:
        text = 'out: a\n\tcase "$$MAKEFLAGS" in *-j*) echo many;; *) echo one;; esac > out\n'
        self.refused(text, "with MAKEFLAGS and MAKELEVEL as make -j2 sets them, writes out")
        self.assertEqual((self.made(), self.made("-j2")), ("one\n", "many\n"))

    def test_a_recipe_that_asks_for_the_level(self) -> None:
        self.refused('out: a\n\techo "$$MAKELEVEL" > out\n', "with MAKEFLAGS and MAKELEVEL")
        self.assertEqual(self.made(), "1\n")

    @faked
    def test_clocks_that_are_coarser_than_the_replay(self) -> None:
        for command in ("date +%H", "date +%A", "echo $$((`date +%s` / 86400))"):
            self.doubt(f"out: a\n\t{command} > out\n", "at another time of another day, writes out")

    @unittest.skipUnless(shutil.which("bash"), "no bash")
    def test_the_clock_of_bash(self) -> None:
        for command in ("echo $$((EPOCHSECONDS / 864000))", "echo $${EPOCHSECONDS%?????}"):
            text = f"SHELL = {shutil.which('bash')}\nout: a\n\t{command} > out; cat a >> out\n"
            self.write({"makefile": text, "a": "1\n"})
            told = [one for one in self.recorded().warnings() if "sets SHELL" not in one]
            self.assertEqual(len(told), 1, told)
            self.assertIn("the recipe of out asks for the time (", told[0])

    @faked
    def test_nothing_is_left_of_the_clock(self) -> None:
        self.write({"makefile": "out: a\n\tcat a > out\n", "a": ""})
        gone = []
        for _ in range(3):  # A recorder that another test kills meanwhile leaves its own.
            before = {*os.listdir("/dev/shm")}
            self.recorded()
            left = {*os.listdir("/dev/shm")} - before
            gone = [name for name in left if not os.path.exists(f"/proc/{name.rpartition('_')[2]}")]
            if not gone:
                break
        self.assertEqual(gone, [])

    @faked
    def test_a_date_is_told_once(self) -> None:
        self.doubt("out: a\n\tdate +%Y-%m-%d > out\n", "writes today's date")

    def test_standard_input(self) -> None:
        self.doubt("out: a\n\tcat a - > out\n", "with other standard input, writes out")
        self.assertEqual(self.made(given="2\n"), "1\n2\n")

    def test_numbers_of_links(self) -> None:
        self.doubt("out: a\n\tstat -c %h a > out; cat a >> out\n", "have second names")
        self.assertEqual(self.made(), "1\n1\n")
        os.link(self.folder / "a", self.folder / "b")
        self.assertEqual(self.made(), "2\n1\n")

    def test_stamps_of_folders(self) -> None:
        for command in ("stat -c %Y d > out; cat d/a >> out", "tar cf out d"):
            self.doubt(
                f"out: d/a\n\t{command}\n", "folders have other stamps", files={"d/a": "1\n"}
            )

    def test_files_that_an_edit_leaves_behind(self) -> None:
        """After an edit by which the recipe writes fewer files, it reads those of before."""
        makefile = "out: a\n\tsplit -l 1 a part.; cat part.* > out\n"
        left = "run where an earlier run left one more file like those that it writes, writes out"
        self.doubt(makefile, left, files=MANY)
        self.write({"a": "1\n2\n"})
        self.made()
        self.write({"a": "3\n"})
        self.assertEqual(self.made(), "3\n2\n")
        each = "for f in *.in; do cp $$f $${f%.in}.o; done; cat *.o > out"
        self.doubt(f"out: a.in b.in\n\t{each}\n", left, files={"a.in": "1", "b.in": "2"})
        each = "i=0; while test -f p.$$i; do cat p.$$i; i=$$((i + 1)); done"
        for command in ("split a part.; cat part.??", f"split -d -a 1 a p.; {each}"):
            self.doubt(f"out: a\n\t{command} > out\n", left, files=MANY)

    def test_files_that_no_edit_leaves_behind(self) -> None:
        """The recipe takes away what it wrote before, or doesn't use it."""
        for command in (
            "rm -f part.*; split -l 1 a part.; cat part.* > out",
            "rm -rf d; mkdir d; split -l 1 a d/x; cat d/* > out",
            "cp a x.h; cat *.in > out",
        ):
            self.passes(f"out: a b.in\n\t{command}\n", {"a": "1\n2\n", "b.in": "3\n"})

    def test_processes_that_write_one_file_side_by_side(self) -> None:
        told = "processes of the recipe of out write out side by side: which of them comes first"
        for command in (
            f"ls a b | xargs -P2 -I{{}} sh -c 'test {{}} = b || {B_FIRST}; cat {{}} >> out'",
            f"({B_FIRST}; cat a >> out) & cat b >> out; wait",
            f"({B_FIRST}; cat a >> out) & (cat b >> out) & wait",
        ):
            self.doubt(f"out: a b\n\trm -f out; {command}\n", told, files=MANY)

    def test_processes_that_write_to_what_another_one_opened(self) -> None:
        told = "processes of the recipe of out write out side by side: which of them comes first"
        for command in (
            f"(({B_FIRST}; cat a) & cat b; wait) > out",
            f"ls a b | xargs -P2 -I{{}} sh -c 'test {{}} = b || {B_FIRST}; cat {{}}' > out",
            f"cp a c; cp b d; ({B_FIRST}; mv c out) & mv d out; wait",
        ):
            self.doubt(f"out: a b\n\trm -f out; {command}\n", told, files=MANY)

    def test_processes_for_which_nobody_waits(self) -> None:
        told = "processes of the recipe of out write out side by side: which of them comes first"
        # The pipe ends when such a process does, or just before.
        command = "((cat a >> out; :) & :) | cat; ((cat b >> out; :) & :) | cat; sleep 2"
        self.doubt(f"out: a b\n\trm -f out; {command}\n", told, files=MANY)

    def test_processes_that_write_a_file_that_is_gone_then(self) -> None:
        told = "processes of the recipe of out write c side by side: which of them comes first"
        first = B_FIRST.replace("out", "c")
        command = f"({first}; cat a >> c) & cat b >> c; wait; cat c > out; rm c"
        self.doubt(f"out: a b\n\t{command}\n", told, files=MANY)

    def test_processes_that_write_one_file_one_after_the_other(self) -> None:
        for command in (
            "cat a >> out; cat b >> out; (cat a; cat b) >> out",
            "cat a | tee -a out | sort > c; (cat b >> out) & wait; cat c >> out",
            "ls a b | xargs -P1 -I{} sh -c 'cat {} >> out'",
            "(cat a > c) & (cat b > d) & wait; cat c d > out; rm c d",
            "exec >> out; cat a; cat b >> out",
            "(sleep 0.1 & cat a; wait; cat b) > out",
            "(cat a & wait; cat b & wait) > out",
            "(flock 9; cat a b > out) 9> lock & (sleep 0.1; flock 9) 9> lock; wait; rm lock",
        ):
            self.passes(f"out: a b\n\trm -f out; {command}\n", MANY)

    def test_two_doubts_of_one_recipe(self) -> None:
        self.write({"makefile": "out: a\n\tcat - > out; stat -c %h a >> out; cat a\n", "a": ""})
        told = self.recorded().warnings()
        self.assertEqual(len(told), 2, told)

    def test_a_recipe_that_goes_by_nothing(self) -> None:
        self.passes("out: a\n\tcat a > out\n")


@traced
@namespaces
class SourcesTest(SurroundingsTest):
    """Stamps of sources, which are others in another copy of the project."""

    told = "where the sources that it reads have other stamps in another order"

    def stamp(self, *stamps: float) -> None:
        """Gives `a` and `b` stamps."""
        for name, stamp in zip("ab", stamps):
            os.utime(self.folder / name, (stamp, stamp))

    def test_a_recipe_that_compares_them(self) -> None:
        for command in (
            "if test a -nt b; then cat a; else cat b; fi > out",
            "if test b -nt a; then cat a; else cat b; fi > out",
            "cat a b > out; ls -t a b >> out",
            "cat `ls -t a b | head -n 1` > out",
            "cat a b > out; find a b -newer a >> out",
            "cat a b > out; echo $$((`stat -c %Y a` <= `stat -c %Y b`)) >> out",
        ):
            self.write({"makefile": f"out: a b\n\t{command}\n", **MANY})
            found = set()
            for stamps in ((1e9, 1e9), (1e9, 2e9), (2e9, 1e9)):
                self.stamp(*stamps)
                warnings = self.recorded().warnings()
                self.assertEqual(len(warnings), 1, (command, stamps, warnings))
                self.assertIn(self.told, warnings[0])
                self.assertEqual(self.check()[0][:4], "yes ")
                found.add(self.made())
            self.assertEqual(len(found), 2, (command, found))

    def test_a_recipe_that_compares_one_with_that_of_a_file_elsewhere(self) -> None:
        text = "out: a\n\tif test a -nt /usr/bin/env; then echo 1; fi > out; cat a >> out\n"
        self.write({"makefile": text, **MANY})
        for stamp in (1e9, 1.7e9, time.time()):
            self.stamp(stamp)
            (told,) = self.recorded().warnings()
            self.assertIn(self.told, told)

    @unittest.skipUnless(shutil.which("tar") and shutil.which("gzip"), "no tar or gzip")
    def test_a_recipe_that_stores_them(self) -> None:
        """It finds the same stamps in each clean build."""
        self.passes("out: a b\n\ttar cf out a b\n", MANY)
        self.passes("out: a\n\tgzip -c a > out\n", MANY)

    def test_a_recipe_that_fails_in_another_order(self) -> None:
        """A user sees that."""
        for stamps in ((1e9, 2e9), (1e9, 1e9)):
            self.write({"makefile": "out: a b\n\tcat a b > out; test ! a -nt b\n", **MANY})
            self.stamp(*stamps)
            self.assertEqual(self.recorded().errors, "")

    def test_made_files_beside_sources(self) -> None:
        rules = "x: a\n\tcp a x\ny: x b\n\tcat x b > y\n"
        asking = "test y -nt b && test x -nt a && cat a b x y > out"
        self.passes(f"out: a b x y\n\t{asking}\n{rules}", MANY)
        text = f"out: a b x\n\tif test a -nt b; then echo 1; fi > out; cat x >> out\n{rules}"
        self.doubt(text, self.told, files=MANY)


@traced
@namespaces
class MachineTest(SurroundingsTest):
    """The machine, and the disk on which folders lie."""

    def test_a_recipe_that_asks_for_the_machine(self) -> None:
        told = "on a machine with another name, an older kernel, fewer processors, and another"
        for command in (
            *(["uname -n", "hostname"] if has_names() else []),
            *(["nproc"] if processors_but_one() else []),
            *(["getconf _NPROCESSORS_ONLN"] if fewer_online() else []),
            *(["uname -r", "uname -sr"] if older_kernel() else []),
            "ulimit -n",
        ):
            self.doubt(f"out: a\n\t({command}) > out; cat a >> out\n", told)

    def test_a_recipe_that_reads_of_the_machine(self) -> None:
        for name in ("cpuinfo", "version"):
            told = f"reads /proc/{name}, which tells of this machine: no make notices when that"
            self.doubt(f"out: a\n\tgrep -m 1 . /proc/{name} > out; cat a >> out\n", told)

    def test_a_recipe_that_asks_for_its_user(self) -> None:
        told = "in another language, another time zone and by another user (LC_ALL, TZ, USER, LOG"
        languages = [{"LC_ALL": "C"}, {"LC_ALL": "C.UTF-8"}]
        for command, given in (
            ("echo $$USER", [{"USER": "one"}, {"USER": "two"}]),
            ("date -d @0 +%H:%M", [{"TZ": "UTC0"}, {"TZ": "XYZ-7"}]),
            ("wc -m < a", languages),
        ):
            self.doubt(f"out: a\n\t{command} > out; cat a >> out\n", told, files={"a": "é\n"})
            found = set()
            for more in given:
                with mock.patch.dict(os.environ, more):
                    found.add(self.made())
            self.assertEqual(len(found), 2, command)

    def test_a_recipe_that_sets_them_itself(self) -> None:
        text = "out: a\n\tLC_ALL=C wc -m < a > out; TZ=UTC0 date -d @0 >> out\n"
        self.passes(text, {"a": "é\n"})
        self.write({"makefile": "LC_ALL = C\nout: a\n\twc -m < a > out\n"})
        outcome = self.record(environment={"LC_ALL": "C.UTF-8"})
        self.assertNotIn("in another language", outcome.errors)

    def test_recipes_that_only_use_it(self) -> None:
        for command in ("sort a > out", "uname -sm > out", "install -m 600 a out"):
            self.passes(f"out: a\n\t{command}\n")

    @unittest.skipUnless(other_user(), "no user namespaces")
    def test_a_recipe_that_asks_for_the_user(self) -> None:
        told = "by another user (LC_ALL, TZ, USER, LOGNAME, HOME, id), writes out with other"
        for command in ("id -u", "whoami", "echo $$(id -un)", 'echo "$$HOME"', "echo ~/x"):
            self.doubt(f"out: a\n\t{command} > out; cat a >> out\n", told)
        for command in (
            "if test `id -u` -eq 0; then cat a; else cat a; fi > out",
            "tar --mtime=@0 -cf out a",
            "cat $$HOME/../../etc/hostname a > /dev/null; cp a out",
            "id=1; grid=2; echo $$id $$grid > out",
        ):
            self.passes(f"out: a\n\t{command}\n")

    def test_a_recipe_that_asks_for_the_umask(self) -> None:
        told = "the recipe of out asks for the umask: no make notices when that changes"
        for command in ("umask > out", "m=`umask -S`; echo $$m > out", "(cat a; umask) > out"):
            self.doubt(f"out: a\n\t{command}\n", told)
        for command in ("umask 022; cp a out", "(umask 077; cp a out)", "echo umask > out"):
            self.passes(f"out: a\n\t{command}\n")

    def test_code_for_the_processor_that_is_here(self) -> None:
        told = "the recipe of out compiles for the processor that is here (-march=native)"
        files = {"a.c": "int a;\n"}
        self.doubt("out: a.c\n\tcc -march=native -c -o out a.c\n", told, files=files)
        self.passes("out: a.c\n\tcc -march=x86-64 -c -o out a.c\n", files)
        self.passes("out: a.c\n\tcp a.c out # -march=native\n", files)
        link = "a.o: a.c\n\tcc -c a.c\nout: a.o\n\tcc -march=native -shared -o out a.o\n"
        self.passes(f"all: out\n{link}", files)

    def test_sizes_of_folders(self) -> None:
        with memory(SeenPath(str(self.scratch))) as found:
            if found is None:
                self.skipTest("no file system in memory is allowed")
        told = "in memory, where folders have other sizes and blocks than on a disk, writes out"
        for command in ("du -sb d", "stat -c %s d"):
            self.doubt(f"out: d/a d/b\n\t{command} > out\n", told, files={"d/a": "1", "d/b": "2"})
            self.assertEqual(self.recorded().own("out")[1], {"out"})
            first = self.made()
            for number in range(2000):
                (self.folder / "d" / f"a-file-with-a-long-name-{number}").touch()
            for number in range(2000):
                (self.folder / "d" / f"a-file-with-a-long-name-{number}").unlink()
            self.assertNotEqual(self.made(), first)
            shutil.rmtree(self.folder / "d")

    def test_sizes_of_files(self) -> None:
        text = "out: d/a d/b\n\tdu -b d/a d/b > out; stat -c %s d/b >> out\n"
        self.passes(text, {"d/a": "1", "d/b": "2"})


@traced
@namespaces
class DrawsTest(SurroundingsTest):
    """Orders that Python and Perl draw anew in each run."""

    told = "it depends on the order of a set or hash, which each run draws anew. Let the program"
    printing = f"{PYTHON} -c \"print({{'a', 'b', 'c', 'd', 'e'}})\" > out"

    def test_a_set_of_python(self) -> None:
        self.refused(f"out: a\n\t{self.printing}\n", self.told)
        self.assertGreater(len({self.made() for _ in range(16)}), 1)

    def test_a_hash_of_perl(self) -> None:
        self.refused("out: a\n\tperl -e 'print keys %{{1..10}}' > out\n", self.told)

    def test_an_order_that_its_user_chooses(self) -> None:
        self.write({"makefile": f"out: a\n\t{self.printing}\n", "a": ""})
        self.assertEqual(self.recorded(environment={"PYTHONHASHSEED": "1"}).errors, "")
        self.passes(f"out: a\n\tPYTHONHASHSEED=2 {self.printing}\n")

    def test_programs_that_sort(self) -> None:
        sorting = f"{PYTHON} -c \"print(sorted({{'a', 'b', 'c'}}))\" > out"
        self.passes(f"out: a\n\t{sorting}\n")
        self.passes("out: a\n\tperl -e 'print sort keys %{{1..10}}' > out\n")

    def test_random_numbers(self) -> None:
        drawing = f"{PYTHON} -c 'import random; print(random.random())' > out"
        self.refused(f"out: a\n\t{drawing}\n", "it depends on something else, such as the time")


@traced
@namespaces
@unittest.skipUnless(has_terminals(), "no pseudo terminals")
class TerminalTest(SurroundingsTest):
    """The streams of make are a terminal, as where a user starts it, or none."""

    told = "run at a terminal, as where a user starts make, "
    asking = "out: a\n\tx=0; test -t NUMBER && x=1; echo $$x > out; cat a >> out\n"

    def at_a_terminal(self) -> str:
        """What GNU make leaves in `out`, made from nothing at a terminal."""
        outer, inner = os.openpty()
        with subprocess.Popen(
            ["make", "-s"],
            cwd=self.folder,
            env={key: value for key, value in os.environ.items() if key not in OF_MAKE},
            stdin=inner,
            stdout=inner,
            stderr=inner,
        ) as run:
            self.assertEqual(run.wait(timeout=SECONDS_AT_MOST), 0)
        os.close(outer)
        os.close(inner)
        text = (self.folder / "out").read_text()
        (self.folder / "out").unlink()
        return text

    def test_a_stream_that_is_a_terminal(self) -> None:
        for number in "012":
            told = f"{self.told}writes out with other contents: let it do the same"
            self.doubt(self.asking.replace("NUMBER", number), told)
            self.assertEqual((self.made(), self.at_a_terminal()), ("0\n1\n", "1\n1\n"))

    def test_a_file_that_is_written_at_a_terminal_alone(self) -> None:
        text = "out: a\n\ttest -t 2 && cat b >> log; cp a out\n"
        self.doubt(text, f"{self.told}leaves log, which it didn't leave", files=MANY)

    def test_a_file_that_is_read_at_a_terminal_alone(self) -> None:
        text = "out: a\n\tcat a > out; if test -t 2; then cat b >> out; fi\n"
        told = "fails, and looks for b, which it isn't recorded to read"
        self.doubt(text, self.told + told, files=MANY)
        self.assertEqual((self.made(), self.at_a_terminal()), ("1\n", "1\n2\n"))

    def test_a_file_that_is_read_with_other_input_alone(self) -> None:
        text = "out: a\n\tcat a > out; if read x; then cat b >> out; fi\n"
        told = "with other standard input, fails, and looks for b, which it isn't recorded to read"
        self.doubt(text, told, files=MANY)
        self.assertEqual((self.made(), self.made(given="1\n")), ("1\n", "1\n2\n"))

    def test_what_make_says_of_its_terminal(self) -> None:
        for name in ("MAKE_TERMOUT", "MAKE_TERMERR"):
            self.doubt(f'out: a\n\techo "$${{{name}:+yes}}" > out\n', self.told)
            self.assertEqual((self.made(), self.at_a_terminal()), ("\n", "yes\n"))

    def test_what_make_said_to_the_recorder_is_none(self) -> None:
        self.write({"makefile": 'out: a\n\techo "$${MAKE_TERMOUT:-no}" > out; cat out; exit 3\n'})
        self.write({"a": ""})
        outcome = self.record(environment={"MAKE_TERMOUT": "/dev/pts/0"})
        self.assertTrue(outcome.errors.endswith("\nno\n"), outcome.errors)

    def test_recipes_that_say_other_things_at_a_terminal(self) -> None:
        for command in ("ls -l --color=auto", "test ! -t 1 || echo hello", "cat", "tty || :"):
            self.passes(f"out: a\n\t{command}; cp a out\n")

    def test_much_that_is_said_at_a_terminal(self) -> None:
        self.passes("out: a\n\tseq 100000; cp a out\n")


@traced
@namespaces
class SizesTest(SurroundingsTest):
    """Files at which a recipe only looks are very large, empty, and as they are."""

    def test_a_file_that_is_large(self) -> None:
        text = 'out: a\n\tif test "`find b -size +100k`"; then echo large; fi > out; cat a >> out\n'
        self.refused(text, "have other sizes and stamps", "it looks at b", files=MANY)
        self.assertEqual(self.made(), "1\n")
        os.truncate(self.folder / "b", 1 << 20)
        self.assertEqual(self.made(), "large\n1\n")

    def test_a_small_file_that_is_new(self) -> None:
        text = (
            'out: a\n\tif test "`find b -size -100k -newer a`"; then echo new; fi > out;'
            " cat a >> out\n"
        )
        self.write({"makefile": text, **MANY})
        os.utime(self.folder / "b", (1e9, 1e9))
        outcome = self.record()
        self.assertEqual(outcome.status, 1, outcome.errors)
        self.assertIn("have other sizes and stamps", outcome.errors)

    def test_a_late_file_that_is_large(self) -> None:
        text = (
            "all: out big\nout: a\n\tfind . -name 'b*' -size +10k > out; cat a >> out\n"
            "big: a\n\thead -c 100000 /dev/zero > big; cat a >> big\n"
        )
        self.doubt(text, "does something else where big is there")
        self.assertIn("no race out big big", self.check())


@traced
@namespaces
class ListingTest(SurroundingsTest):
    """Folders list their names in two orders, whatever the disk is."""

    def setUp(self) -> None:
        super().setUp()
        with memory(SeenPath(str(self.scratch))) as found:
            if found is None:
                self.skipTest("no file system in memory is allowed")

    rules = "".join(f"d/{name}: {name}\n\tmkdir -p d; cp {name} d/{name}\n" for name in "ab")

    def test_the_order_in_which_recipes_made_files(self) -> None:
        text = "out: d/a d/b\n\tcat `find d -type f` > out\n" + self.rules
        self.refused(text, "writes out with other contents", "it lists d", files=MANY)

    def test_the_order_of_sources(self) -> None:
        text = "out: s/a s/b\n\tcat `find s -type f` > out\n"
        told = "where folders list their names the other way round"
        self.doubt(text, told, files={"s/a": "1\n", "s/b": "2\n"})

    def test_names_that_are_sorted(self) -> None:
        text = "out: d/a d/b\n\tcat `find d -type f | sort` d/* > out\n" + self.rules
        self.passes(text, MANY)

    def test_files_of_one_recipe(self) -> None:
        text = "out: d/a\n\tls -U d > /dev/null; cp d/a out\nd/a: a\n\tmkdir -p d; cp a d/a\n"
        self.passes(text)


@traced
class ChannelsTest(SurroundingsTest):
    """What a recipe hands on or asks for that is no file."""

    replays = False

    def python(self, *lines: str) -> str:
        """A makefile whose recipe runs these lines of Python."""
        self.write({"do.py": "\n".join(["import ctypes, os, socket", *lines, ""])})
        return f"out: a do.py\n\t{PYTHON} do.py; cp a out\n"

    def setUp(self) -> None:
        super().setUp()
        if not os.path.exists(PYTHON):
            self.skipTest(f"no {PYTHON}")

    def test_system_v(self) -> None:
        for call, name in (
            ("shmget(77, 4096, 0o1600)", "the shared memory 0x4d"),
            ("semget(77, 1, 0o1600)", "the semaphores 0x4d"),
            ("msgget(77, 0o1600)", "the message queue 0x4d"),
        ):
            text = self.python(f"ctypes.CDLL(None).{call}")
            self.doubt(text, f"the recipe of out uses {name}, which is no file")

    def test_what_a_recipe_makes_and_takes_away(self) -> None:
        lines = ["libc = ctypes.CDLL(None)", "one = libc.msgget(77, 0o1600)"]
        self.passes(self.python(*lines, "libc.msgctl(one, 0, None)"))

    def test_what_two_recipes_make_and_take_away(self) -> None:
        lines = ["libc = ctypes.CDLL(None)", "one = libc.msgget(77, 0o1600)"]
        text = self.python(*lines, "libc.msgctl(one, 0, None)")
        self.write({"makefile": "all: out two\n" + text + text.replace("out", "two"), "a": ""})
        told = "the recipes of out and two both use the message queue 0x4d: with several jobs"
        self.assertTrue(any(one.startswith(told) for one in self.recorded().warnings()))

    def test_memory_that_is_shared_by_name(self) -> None:
        name = f"mkcheck-test-{os.getpid()}"
        Path("/dev/shm", name).touch()
        self.addCleanup(Path("/dev/shm", name).unlink, missing_ok=True)
        lines = ["libc = ctypes.CDLL('librt.so.1')", f"libc.shm_open(b'/{name}', 2, 0o600)"]
        text = self.python(*lines, f"libc.shm_unlink(b'/{name}')")
        self.doubt(text, f"uses the shared memory /dev/shm/{name}")

    def test_queues_and_keys(self) -> None:
        name = f"mkcheck-test-{os.getpid()}"
        queue = f"ctypes.CDLL('librt.so.1').mq_open(b'/{name}', 0o102, 0o600, None)"
        self.doubt(self.python(queue), f"uses the message queue /{name}")
        key = "ctypes.CDLL(None).syscall(248, b'user', b'mkcheck-test', b'x', 1, -2)"
        if os.uname().machine == "x86_64":
            self.doubt(self.python(key), "uses keys that the kernel keeps")

    def test_a_datagram_with_an_address(self) -> None:
        lines = ["one = socket.socket(socket.AF_INET, socket.SOCK_DGRAM)"]
        text = self.python(*lines, "one.sendto(b'x', ('127.0.0.1', 9))")
        self.doubt(text, "the recipe of out asks 127.0.0.1, port 9: what that does or answers")

    def test_a_connection_that_is_refused_or_in_progress(self) -> None:
        port = free_port()
        for waits in (True, False):
            text = self.python(
                "one = socket.socket()",
                f"one.setblocking({waits})",
                f"one.connect_ex(('127.0.0.1', {port}))",
            )
            self.doubt(text, f"the recipe of out asks 127.0.0.1, port {port}")

    def test_a_server_of_its_own(self) -> None:
        port = free_port()
        text = self.python(
            "server = socket.socket()",
            f"server.bind(('127.0.0.1', {port}))",
            "server.listen()",
            f"socket.create_connection(('127.0.0.1', {port})).close()",
        )
        self.passes(text)

    def test_what_the_kernel_counts(self) -> None:
        for name in ("loadavg", "uptime", "meminfo"):
            text = f"out: a\n\tcat /proc/{name} > /dev/null; cp a out\n"
            self.doubt(text, f"the recipe of out reads /proc/{name}, which the kernel counts")

    def test_random_numbers(self) -> None:
        for command in (
            "awk 'BEGIN { srand(); print rand() < 2 }' > out",
            "sort -R a > out",
            "shuf -n 1 a > out",
        ):
            self.doubt(f"out: a\n\t{command}\n", "the recipe of out draws random numbers")
        self.passes("out: a\n\tshuf --random-source=a a > out\n")


@traced
class TextsTest(SurroundingsTest):
    """What the texts of the makefile say to GNU make."""

    replays = False

    def test_a_byte_order_mark(self) -> None:
        (self.folder / "makefile").write_bytes(b"\xef\xbb\xbfout: a\n\tcp a out\n")
        self.write({"a": "1\n"})
        outcome = self.record()
        self.assertEqual((outcome.status, outcome.book), (2, None))
        self.assertIn("makefile begins with a byte order mark, which GNU make", outcome.errors)
        self.assertEqual(self.made(), "1\n")
        self.write({"makefile": "include b\nout: a\n\tcp a out\n"})
        (self.folder / "b").write_bytes(b"\xef\xbb\xbfX = 1\n")
        self.assertIn("b begins with a byte order mark", self.record().errors)

    def test_the_stem_in_a_rule_for_a_target(self) -> None:
        told = "the commands of p.xyz use $*, which is empty in GNU make and p.xyz here"
        for text in (
            "p.xyz: a\n\techo '$*' > $@\n",
            "p.xyz: a\n\techo '$(*F)' > $@\n",
            "SAY = echo '$*'\nSAYS = $(SAY)\np.xyz: a\n\t${SAYS} > $@\n",
        ):
            self.doubt(text, told)
            self.assertEqual(self.made(name="p.xyz"), "\n")

    def test_a_stem_that_is_the_same(self) -> None:
        for text in (
            "p.o: a\n\techo '$*' > $@\n",
            ".SUFFIXES: .xyz\np.xyz: a\n\techo '$*' > $@\n",
            "p: p.a1\n\tcp p.a1 p\n.SUFFIXES: .a1 .b1\n.b1.a1:\n\techo '$*' > $@\n",
            "p.xyz: a\n\techo '$$*' > $@\n",
        ):
            self.write({"makefile": text, "a": "", "p.b1": ""})
            self.assertEqual(self.recorded().warnings(), [], text)


if __name__ == "__main__":
    unittest.main()
