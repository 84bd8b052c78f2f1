"""Right builds, which are recorded and answered yes, as GNU make shows where it is there."""

from __future__ import annotations

import os
import shutil
import subprocess
import unittest
from collections.abc import Mapping
from pathlib import Path

from mkcheck_tools.run import places
from recorder.project import OF_MAKE, Environment, Outcome, ProjectTest, compiled, traced
from waits import wait_for_later_stamps

namespaces = unittest.skipUnless(places.namespace(), "no mount namespace is allowed")
C = "int main(void) { return 0; }\n"


class RightTest(ProjectTest):
    """A project that is right."""

    replays = True

    def yes(self, files: Mapping[str, str], *words: str, edits: Mapping[str, str] = {}) -> Outcome:
        """Records a project, whose answer has to be yes, as GNU make shows."""
        self.write(dict(files))
        outcome = self.recorded(*words)
        self.assertEqual(self.check()[0][:4], "yes ", self.check())
        self.is_built(edits)
        return outcome

    def is_built(self, edits: Mapping[str, str]) -> None:
        """GNU make leaves the same files with one job and with several, and a make after each edit
        leaves those of a clean build."""
        if shutil.which("make") is None:
            return
        serial = self.built("serial", {}, "-j1")
        self.assertEqual(self.built("parallel", {}, "-j4"), serial)
        for name, text in edits.items():
            self.assertEqual(
                self.built("parallel", {name: text}, "-j4"),
                self.built(f"clean {name.replace('/', ' ')}", {name: text}, "-j1"),
                name,
            )
            self.built("parallel", {name: (self.folder / name).read_text()}, "-j4")

    def built(self, name: str, files: Mapping[str, str], *words: str) -> dict[str, bytes]:
        """What make leaves in a copy of the project, built already or not, with these files."""
        folder = self.scratch / name
        if not folder.exists():
            shutil.copytree(self.folder, folder)
        elif files:
            wait_for_later_stamps(folder)
        for path, text in files.items():
            (folder / path).write_text(text)
        given: Environment = {**os.environ, **OF_MAKE}
        done = subprocess.run(
            ["make", *words],
            cwd=folder,
            env={key: value for key, value in given.items() if value is not None},
            stdout=subprocess.PIPE,
            stderr=subprocess.STDOUT,
            check=False,
        )
        self.assertEqual(done.returncode, 0, done.stdout)
        found = (path for path in Path(folder).rglob("*") if path.is_file())
        return {str(path.relative_to(folder)): path.read_bytes() for path in found}


@traced
@namespaces
class OrderTest(RightTest):
    """Recipes that write what others made."""

    @compiled
    def test_programs_that_another_recipe_strips(self) -> None:
        """Each of two files then has two makers, of which none is always the older one."""
        rules = "p: p.c\n\tcc -o p p.c\nq: q.c\n\tcc -o q q.c\n"
        for way in ("strip p q", "chmod 700 p q", "touch p q"):
            self.write({"makefile": f"all: p q\n\t{way}\n{rules}", "p.c": C, "q.c": C})
            self.recorded()
            self.assertIn("no writers p all p", self.check(), way)


@traced
@namespaces
class FolderTest(RightTest):
    """Folders that several recipes make, and one takes away."""

    RULE = "\t-@mkdir objs 2>/dev/null || test -d objs\n\tcp $< objs/$@\n\t-@mv objs/$@ $@\n"

    def project(self, count: int) -> dict[str, str]:
        """Rules that make a folder, and one after all of them that takes it away."""
        names = [f"{number}.lo" for number in range(count)]
        all_of_them = " ".join(names)
        rules = "".join(f"{name}: {name[:-3]}.c\n{self.RULE}" for name in names)
        rules = rules.replace("$<", "$(@:.lo=.c)")
        makefile = f"lib: {all_of_them}\n\tcat {all_of_them} > lib\n\t-@rmdir objs\n{rules}"
        sources = {f"{number}.c": f"{number}\n" for number in range(count)}
        return {"makefile": makefile, **sources}

    def test_one_that_is_taken_away_behind_all_users(self) -> None:
        outcome = self.yes(self.project(8), edits={"3.c": "other\n"})
        self.assertEqual(outcome.warnings(), [])
        self.assertEqual(outcome.own("3.lo"), ({"3.c"}, {"3.lo"}))

    def test_one_that_is_taken_away_beside_a_user(self) -> None:
        files = self.project(4)
        files["makefile"] = f"all: lib 4.lo\n{files['makefile']}4.lo: 3.c\n{self.RULE}".replace(
            "$<", "3.c"
        )
        self.write(files)
        outcome = self.recorded()
        self.assertEqual(
            outcome.warnings(),
            [
                "the recipe of lib takes away the folder objs, which that of 4.lo uses too: with"
                " several jobs it disturbs them, so the folder counts as written by the one and"
                " read by the others; let lib need 4.lo, or leave the folder there"
            ],
        )
        self.assertEqual(self.check(), ["no race 4.lo lib objs", "no stale 4.lo objs"])

    def test_one_that_its_users_need_and_do_not_make(self) -> None:
        """After an edit of `y` alone, the folder isn't there for `b`."""
        makefile = (
            "c: b\n\tcp b c; rmdir d\nb: a y\n\tcp y d/y; mv d/y b\na: x\n\tmkdir d; cp x a\n"
        )
        self.write({"makefile": makefile, "x": "", "y": ""})
        outcome = self.record()
        self.assertEqual(outcome.status, 1)
        self.assertIn(
            "the folder d is made by the recipe of a, and needn't be there when this one runs: let"
            " this recipe make it too (mkdir -p d)",
            outcome.errors,
        )
        if shutil.which("make"):
            self.built("once", {})
            with self.assertRaises(AssertionError):
                self.built("once", {"y": "1"})

    def test_scratch_files_of_recipes_that_never_run_side_by_side(self) -> None:
        self.yes(
            {
                "makefile": "b: a y\n\tcat a y > t; mv t b\na: x\n\tcp x t; cp t a; rm t\n",
                "x": "1\n",
                "y": "2\n",
            },
            edits={"x": "3\n", "y": "4\n"},
        )


@traced
@namespaces
class LookTest(RightTest):
    """Prerequisites at which a recipe only looks: they count as read where it needs them."""

    def test_a_file_that_has_to_be_there(self) -> None:
        for way in (
            "test -r config.h && echo yes > out",
            "if test -f config.h; then echo 1; else echo 2; fi > out",
            "test config.h && ls -d config.h > out",
        ):
            outcome = self.yes({"makefile": f"out: config.h\n\t{way}\n", "config.h": "1\n"})
            self.assertEqual(outcome.own("out"), ({"config.h"}, {"out"}), way)

    def test_the_names_in_a_folder(self) -> None:
        for way in ("ls src/*.c > out", "echo src/*.c > out"):
            outcome = self.yes(
                {
                    "makefile": f"out: src/a.c src/b.c\n\t{way}\n",
                    **{f"src/{name}": "" for name in ("a.c", "b.c", "c.h", "d.h")},
                }
            )
            self.assertEqual(outcome.own("out"), ({"src/a.c", "src/b.c"}, {"out"}), way)

    @unittest.skipUnless(shutil.which("tar"), "no tar")
    def test_an_archive_of_an_empty_file(self) -> None:
        outcome = self.yes({"makefile": "out: a b\n\ttar cf out a b\n", "a": "", "b": "text\n"})
        self.assertEqual(outcome.own("out"), ({"a", "b"}, {"out"}))

    def test_the_size_of_an_empty_file(self) -> None:
        for way in (
            "if test -s e; then echo 1; else echo 2; fi > out; cat x >> out",
            "[ -s e ] && cat x x > out || cat x > out",
            "find . -name e -size 0 > out; cat x >> out",
            "find . -name e -size +0 > out; cat x >> out",
        ):
            for folder in ("serial", "parallel", "clean e"):
                shutil.rmtree(self.scratch / folder, ignore_errors=True)
            files = {"makefile": f"out: x e\n\t{way}\n", "x": "1\n", "e": ""}
            outcome = self.yes(files, edits={"e": "text\n"})
            self.assertEqual((outcome.own("out"), outcome.errors), (({"x", "e"}, {"out"}), ""), way)

    def test_the_stamps_of_sources(self) -> None:
        """A clean build finds the same ones, and each edit of one runs the recipe."""
        way = "if test x -nt e; then echo 1; else echo 2; fi > out"
        self.write({"makefile": f"out: x e\n\t{way}\n", "x": "1\n", "e": ""})
        for stamps in ((1e9, 1e9), (1e9, 2e9), (2e9, 1e9)):
            for name, stamp in zip("xe", stamps):
                os.utime(self.folder / name, (stamp, stamp))
            outcome = self.recorded()
            self.assertEqual(outcome.own("out"), ({"x", "e"}, {"out"}), stamps)
            self.assertEqual(self.check()[0][:4], "yes ")

    def test_the_size_of_a_file_that_another_target_needs(self) -> None:
        way = "if test -s e; then echo 1; else echo 2; fi > out; cat x >> out"
        self.write({"makefile": f"all: out two\nout: x\n\t{way}\ntwo: e\n\tcp e two\n"})
        self.write({"x": "1\n", "e": ""})
        outcome = self.record("all")
        self.assertTrue(outcome.lacks("out"), outcome.errors)
        self.assertIn("\n\tit looks at e\n", outcome.errors)

    def test_the_sizes_of_a_file_that_counts_and_of_another_one(self) -> None:
        """That it depends on `f` shows also where it depends on what counts as read."""
        way = "for i in e f; do if test -s $$i; then echo $$i; fi; done > out; cat x >> out"
        for rules in (f"out: x e\n\t{way}\n", f"out: x e\n\t{way}\ne: y\n\tgrep none y > e || :\n"):
            self.write({"makefile": rules, "x": "1\n", "y": "2\n", "f": ""})
            (self.folder / "e").write_text("")
            outcome = self.record()
            self.assertTrue(outcome.lacks("out"), outcome.errors)
            self.assertIn("\n\tit looks at f\n", outcome.errors)

    def test_a_file_that_a_recipe_makes_beside_a_source(self) -> None:
        outcome = self.yes(
            {"makefile": "out: a b\n\ttest -e a && test -e b && ls a b > out\na: x\n\tcp x a\n"}
            | {"x": "", "b": ""}
        )
        self.assertEqual(outcome.own("out"), ({"a", "b"}, {"out"}))

    def test_a_file_that_no_line_names_is_a_stale_read(self) -> None:
        self.write(
            {
                "makefile": "out:\n\tif test -f chosen; then echo 1; else echo 2; fi > out\n",
                "chosen": "",
            }
        )
        self.recorded()
        self.assertEqual(self.check(), ["no stale out chosen"])

    def test_names_that_no_line_names_are_those_of_one_end(self) -> None:
        self.write(
            {
                "makefile": "out:\n\techo src/*.c > out\n",
                **{f"src/{name}": "" for name in ("a.c", "b.c", "c.h", "d.txt")},
            }
        )
        self.recorded()
        self.assertEqual(self.check(), ["no stale out src/a.c", "no stale out src/b.c"])

    def test_the_order_of_stamps_counts_too(self) -> None:
        """Each edit of `x` makes `a` newer than `b`, and no edit of `b` does."""
        self.write(
            {
                "makefile": (
                    "out: a b\n\tif test a -nt b; then echo 1; else echo 2; fi > out\n"
                    "a: x\n\tcp x a\nb: y\n\tcp y b\n"
                ),
                "x": "",
                "y": "",
            }
        )
        self.assertEqual(self.record().status, 1)


@traced
@namespaces
class LinkTest(RightTest):
    """Files that the makefile names over a symbolic link of the project."""

    def test_a_link_to_a_folder(self) -> None:
        (self.folder / "l").symlink_to("d")
        files = {"makefile": "out: l/a l/b\n\tcat l/a l/b > out\n", "d/a": "1\n", "d/b": "2\n"}
        outcome = self.yes(files, edits={"d/a": "3\n", "l/b": "4\n"})
        self.assertEqual((outcome.own("out"), outcome.errors), (({"l/a", "l/b"}, {"out"}), ""))

    def test_a_target_behind_a_link(self) -> None:
        (self.folder / "d").mkdir()
        (self.folder / "l").symlink_to("d")
        text = "out: l/a b\n\tcat l/a b > out\nl/a: b\n\tcp b l/a\n"
        outcome = self.yes({"makefile": text, "b": "1\n"}, edits={"b": "2\n"})
        self.assertEqual(outcome.own("l/a"), ({"b"}, {"l/a"}))


@traced
@namespaces
class IgnoreTest(RightTest):
    """Recipes that go on after an error, by `.IGNORE`."""

    rule = "x: a\n\tfalse >&2\n\tcp a x; exit 3\n"

    def test_a_recipe_that_goes_on(self) -> None:
        for front in (".IGNORE: x\n", ".IGNORE:\n", "X = x\n.IGNORE: y $(X)\n"):
            outcome = self.yes({"makefile": front + self.rule, "a": "1\n"}, edits={"a": "2\n"})
            self.assertEqual((outcome.own("x"), outcome.errors), (({"a"}, {"x"}), ""), front)

    def test_a_command_that_ends_early_all_the_same(self) -> None:
        text = ".POSIX:\n.IGNORE: x\nx: a\n\tfalse; cp b c\n\tcat a > x\n"
        outcome = self.yes({"makefile": text, "a": "1\n", "b": "2\n"})
        self.assertEqual(outcome.own("x"), ({"a"}, {"x"}))

    def test_a_recipe_of_another_target_fails(self) -> None:
        self.write({"makefile": ".IGNORE: y\n" + self.rule, "a": "1\n"})
        outcome = self.record()
        self.assertTrue(outcome.lacks("x"), outcome.errors)
        self.assertIn("the recipe of x failed, status 1, at 'false >&2'", outcome.errors)


@traced
@namespaces
class ProcessTest(RightTest):
    """Processes that recipes start."""

    def test_one_that_the_recipe_ends(self) -> None:
        """The shell doesn't wait for it, but it writes nothing any more."""
        for way in ("kill $$!", "kill -9 $$!", "kill -INT -$$! 2>/dev/null || kill $$!"):
            self.yes({"makefile": f"out: a\n\tsleep 600 & cat a > out; {way}\n", "a": "1\n"})

    def test_one_that_writes_when_it_is_ended_is_refused(self) -> None:
        script = "#!/bin/sh\ntrap 'sleep 5; echo > late; exit' TERM\necho > ready\n"
        script += "while :; do sleep 0.1; done\n"
        ready = "until test -s ready; do sleep 0.1; done; rm ready"
        self.write({"makefile": f"out:\n\t./server & {ready}; echo > out; kill $$!\n"})
        self.write({"server": script})
        outcome = self.record()
        self.assertEqual(outcome.status, 1)
        self.assertIn("running when its command has ended", outcome.errors)

    def test_one_that_goes_on_is_refused_with_what_the_recipe_put_out(self) -> None:
        self.write({"makefile": "out:\n\techo hello; echo > out; sleep 600 > /dev/null 2>&1 &\n"})
        outcome = self.record()
        self.assertEqual(outcome.status, 1)
        self.assertIn("running when its command has ended", outcome.errors)
        self.assertIn("\n\thello\n", outcome.errors)

    def test_recipes_that_meet_outside_are_run_alone(self) -> None:
        """Each takes the same name, and none of them runs beside another one in a make."""
        lock = self.scratch / "lock"
        names = [f"o{number}" for number in range(6)]
        rules = "".join(
            f"{name}: a {before}\n\tmkdir {lock} && sleep 0.2 && cat a > {name}; rmdir {lock}\n"
            for name, before in zip(names, ["", *names])
        )
        self.yes({"makefile": f"{names[-1]}:\n{rules}", "a": "1\n"})

    @compiled
    def test_a_program_that_looks_for_leaks(self) -> None:
        self.write(
            {
                "makefile": "out: p\n\t./p > out\np: p.c\n\tcc -fsanitize=address -o p p.c\n",
                "p.c": C,
            }
        )
        built = subprocess.run(
            ["cc", "-fsanitize=address", "-o", str(self.scratch / "p"), "p.c"],
            cwd=self.folder,
            capture_output=True,
            check=False,
        )
        if built.returncode != 0 or subprocess.run([str(self.scratch / "p")]).returncode != 0:
            self.skipTest("no AddressSanitizer")
        outcome = self.record()
        self.assertEqual(outcome.status, 1)
        self.assertIn(
            "\tLeakSanitizer doesn't work where strace traces the program: record with"
            " ASAN_OPTIONS=detect_leaks=0 in the environment\n",
            outcome.errors,
        )
        self.recorded(environment={"ASAN_OPTIONS": "detect_leaks=0"})


@traced
@namespaces
class KeptTest(RightTest):
    """A recipe that writes only where something changed."""

    def test_what_is_said_of_it(self) -> None:
        self.write(
            {
                "makefile": (
                    "prog: conf.h a\n\tcat conf.h a > prog\n"
                    "conf.h: a\n\thead -n 1 a > new; cmp -s new conf.h || mv new conf.h;"
                    " rm -f new\n"
                ),
                "a": "1\n2\n",
            }
        )
        outcome = self.record()
        self.assertEqual(outcome.status, 1)
        self.assertIn(
            "doesn't write conf.h anew: it writes that only where it finds that it has to, as a"
            " make in a subfolder, cmp -s, cp -u or test -nt do. A recipe that reads what it is"
            " made from, and learns of a change by it alone, then isn't run, so that change is"
            " lost. Let the recipe write all its outputs each time, or split it as shown here, or"
            " give --trust conf.h to take the recipe as it is\n"
            "\tconf.h@made: a\n"
            "\t    the commands of conf.h, which write conf.h@made in each run\n"
            "\tconf.h: conf.h@made\n"
            "\t    cmp -s conf.h@made conf.h || cp conf.h@made conf.h\n"
            "\tand record with --trust conf.h, whose recipe then only copies\n",
            outcome.errors,
        )


@traced
@namespaces
class InstalledTest(RightTest):
    """Recipes that run programs which a user installed for himself."""

    def setUp(self) -> None:
        super().setUp()
        self.home = self.scratch / "home"
        program = self.home / ".nvm" / "bin" / "upper"
        program.parent.mkdir(parents=True)
        program.write_text("#!/bin/sh\ntr a-z A-Z\ncat ${0%/*}/../table\n")
        program.chmod(0o755)
        (self.home / ".nvm" / "table").write_text("table\n")
        self.write({"makefile": "out: a\n\tupper < a > out\n", "a": "one\n"})
        path = f"{program.parent}:{os.environ['PATH']}"
        self.environment = {"HOME": str(self.home), "PATH": path}

    def fixed_of(self, outcome: Outcome) -> list[str]:
        """The fixed prefixes of what was recorded."""
        assert outcome.book is not None
        fixed: list[str] = outcome.book["fixed"]
        return fixed

    def test_a_manager_of_the_user_is_fixed(self) -> None:
        outcome = self.recorded(environment=self.environment)
        self.assertEqual(outcome.warnings(), [])
        self.assertIn(f"{self.home}/.nvm/", self.fixed_of(outcome))
        self.assertIn(f"{self.home}/.nvm/table", outcome.reads("out"))

    def test_what_else_is_at_home_is_not(self) -> None:
        os.rename(self.home / ".nvm", self.home / "own")
        path = f"{self.home}/own/bin:{os.environ['PATH']}"
        outcome = self.record(environment={**self.environment, "PATH": path})
        self.assertEqual(outcome.status, 1)
        self.assertIn("give --fixed ../home/own/ where they never change", outcome.errors)

    def test_scripts_of_the_user_are_not(self) -> None:
        """What stands in .local/bin may be his own, and edited."""
        (self.home / ".local").mkdir()
        os.rename(self.home / ".nvm", self.home / ".local" / "nvm")
        os.rename(self.home / ".local" / "nvm" / "bin", self.home / ".local" / "bin")
        (self.home / ".local" / "table").write_text("table\n")
        path = f"{self.home}/.local/bin:{os.environ['PATH']}"
        outcome = self.record(environment={**self.environment, "PATH": path})
        self.assertEqual(outcome.status, 1)
        self.assertIn("where they never change", outcome.errors)

    def test_a_variable_names_an_environment(self) -> None:
        os.rename(self.home / ".nvm", self.home / "own")
        path = f"{self.home}/own/bin:{os.environ['PATH']}"
        named = {"PATH": path, "VIRTUAL_ENV": f"{self.home}/own"}
        outcome = self.recorded(environment={**self.environment, **named})
        self.assertIn(f"{self.home}/own/", self.fixed_of(outcome))

    def test_a_folder_that_holds_the_project_is_not(self) -> None:
        """A variable that names a folder above the project makes nothing fixed."""
        named = {**self.environment, "VIRTUAL_ENV": str(self.scratch), "PATH": os.environ["PATH"]}
        self.write({"makefile": "out: a\n\tcat a ../other > out\n"})
        (self.folder.parent / "other").write_text("other\n")
        outcome = self.record(environment=named)
        self.assertEqual(outcome.status, 1)
        self.assertIn("reads files above the folder", outcome.errors)


@traced
@namespaces
@unittest.skipUnless(shutil.which("git"), "no git")
class GitTest(RightTest):
    """Recipes that ask git, with the configuration of the user's home."""

    def setUp(self) -> None:
        super().setUp()
        self.home = self.scratch / "home"
        self.home.mkdir()
        (self.home / ".gitconfig").write_text("[user]\n\tname = a\n\temail = a@b\n")
        self.write({"makefile": "out: a\n\tgit status --short > out; cat a >> out\n", "a": "1\n"})
        (self.folder / ".gitignore").write_text("out\n")
        for words in (["init", "-q"], ["add", "."], ["commit", "-qm", "one"]):
            environment = {**os.environ, "HOME": str(self.home)}
            subprocess.run(["git", *words], cwd=self.folder, env=environment, check=True)

    def test_the_configuration_and_the_cache_are_no_reads(self) -> None:
        outcome = self.recorded("--fixed", ".git", environment={"HOME": str(self.home)})
        reads, writes = outcome.own("out")
        self.assertEqual(
            ({name for name in reads if name != "makefile" and name[:5] != ".git/"}, writes),
            ({"a", ".gitignore"}, {"out"}),
        )
        self.assertNotIn(".git/index", reads)
        self.assertEqual(
            outcome.warnings(),
            [
                f"the recipe of out reads {self.home}/.gitconfig, a program's configuration: it"
                " counts as a file that never changes, so record again when it does"
            ],
        )

    def test_no_file_of_git_is_to_be_removed(self) -> None:
        """A recipe that writes there makes none of these files a rest of another build."""
        self.write(
            {"makefile": "all: .git/a out\n.git/a:\n\techo > .git/a\nout:\n\tcat .git/b > out\n"}
        )
        (self.folder / ".git" / "b").write_text("")
        outcome = self.record(environment={"HOME": str(self.home)})
        self.assertNotIn("remove", outcome.errors)

    def test_a_single_file_that_never_changes(self) -> None:
        config = self.scratch / "config"
        config.write_text("1\n")
        self.write({"makefile": f"out: a\n\tcat a {config} > out\n"})
        self.assertEqual(self.record().status, 1)
        outcome = self.recorded("--fixed", str(config))
        self.assertEqual((outcome.own("out"), outcome.warnings()), (({"a"}, {"out"}), []))
