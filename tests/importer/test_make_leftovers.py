"""Targets that are there already: outputs of an earlier build, and files of the project."""

from __future__ import annotations

import os
import shutil
import socket
import subprocess
import sys
import tempfile
import unittest
from pathlib import Path

from importer.make_folder import ENVIRONMENT, IMPORTER, Answer, MakeFolderTest, can_judge
from mkcheck_tools.run.places import namespace
from waits import wait_for

# The object lacks the header that it reads; the program is made from the object.
MAKEFILE = "prog: a.o\n\tcat a.o > prog\na.o: a.in\n\tcat a.in h > a.o\n"
CLEAN = "clean:\n\trm -f prog *.o *.d\n.PHONY: clean\n"
has_git = unittest.skipUnless(shutil.which("git"), "no git")
# Asks one of two servers.
ASK = """#!/usr/bin/env python3
import socket, sys
if sys.argv[1] == "0":
    socket.create_connection(("127.0.0.1", {}))
else:
    socket.socket(socket.AF_UNIX).connect("{}")
"""
# The number of a user who owns nothing.
NOBODY = 65534
# Runs the importer with a limit of two seconds for `make clean`.
IMPATIENT = """
import sys
sys.argv[0] = sys.argv.pop(1)
sys.path.insert(0, sys.argv[0])
from mkcheck_tools.imports import leftovers
from mkcheck_tools.imports import program
leftovers.CLEAN_SECONDS = 2
sys.exit(program.main(sys.argv[1:]))
"""


def python_for(user: int | None = None) -> str | None:
    """A Python by which the importer starts in what `make clean` needs, for another user too."""
    words = ["unshare", "--user", "--map-root-user", "--mount", "--pid", "--fork", "--net", "--"]
    for python in (sys.executable, "/usr/bin/python3"):
        whole = [*words, python, str(IMPORTER), "--version"]
        try:
            done = subprocess.run(whole, user=user, group=user, capture_output=True, check=False)
        except (OSError, subprocess.SubprocessError):
            return None
        if done.returncode == 0 and namespace() is not None:
            return python
    return None


can_confine = unittest.skipUnless(python_for(), "no namespaces in which make clean could run")


class LeftoversTestCase(MakeFolderTest):
    """A folder in which was built before."""

    def project(self, makefile: str, **more: str) -> None:
        """Writes a project of a program, an object and a header."""
        self.write({"Makefile": makefile, "a.in": "a\n", "h": "h\n", **more})

    def date(self, *names: str) -> None:
        """Gives files times that rise, long ago."""
        for seconds, name in enumerate(names, 1000):
            os.utime(self.folder / name, (seconds, seconds))

    def build(self) -> None:
        """Builds in the folder itself."""
        done = self.make(self.folder)
        self.assertEqual(done.returncode, 0, done.stderr)

    def track(self) -> None:
        """Lets git track what is there."""
        for words in (["init", "-q"], ["add", "."]):
            subprocess.run(["git", "-C", str(self.folder), *words], check=True)

    def stale(self, answer: Answer) -> None:
        """The answer is that of a clean folder."""
        self.assertEqual(answer.findings, ["no stale a.o h"], answer.output + answer.errors)
        self.assertEqual(answer.status, 1)

    def left_out(self) -> Answer:
        """Builds in the folder; the answer leaves out what that made."""
        self.build()
        answer = self.imported()
        self.stale(answer)
        self.assertIn("    2 files (a.o, prog) of an earlier build are left out", answer.output)
        return answer


@can_judge
@can_confine
class CleanTest(LeftoversTestCase):
    """What `make clean` removes is of an earlier build."""

    def test_all_is_there(self) -> None:
        self.project(MAKEFILE + CLEAN)
        self.stale(self.imported())
        answer = self.left_out()
        self.assertEqual(answer.rules().count("\t"), 2)

    def test_some_is_there(self) -> None:
        """Where make would make the program alone, the object is judged too."""
        self.project(MAKEFILE + CLEAN)
        self.build()
        (self.folder / "prog").unlink()
        self.stale(self.imported())
        answer = self.imported("--keep")
        self.assertEqual(answer.status, 0, answer.output + answer.errors)
        self.assertIn("aren't judged (1 file): a.o", answer.output)

    def test_file_of_the_project(self) -> None:
        """As Automake's `aclocal.m4`, it has a rule, and `make clean` leaves it."""
        self.project(
            "prog: a.o m4\n\tcat a.o m4 > prog\n"
            "m4: m4.in\n\tcp m4.in m4\na.o: a.in\n\tcp a.in a.o\n" + CLEAN,
            **{"m4.in": "m\n", "m4": "m\n"},
        )
        self.date("Makefile", "m4.in", "m4")
        self.build()
        answer = self.imported()
        self.assertEqual(answer.status, 0, answer.output + answer.errors)
        self.assertIn("aren't judged (1 file): m4", answer.output)
        self.assertEqual(sorted(answer.records), ["a.o", "prog"])
        self.try_answer(answer)

    def test_dependency_files(self) -> None:
        """A first build has none: there the header may come too late."""
        self.project(
            "all: h a.o\n.PHONY: all\nh: h.in\n\tcp h.in h\n"
            "a.o: a.in\n\tcat a.in h > a.o; echo 'a.o: h' > a.d\n-include a.d\n"
            + CLEAN.replace("*.d", "h $(OLD)"),
            **{"h.in": "h\n"},
        )
        (self.folder / "h").unlink()
        self.build()
        answer = self.imported()
        self.assertEqual(answer.status, 0, answer.output + answer.errors)
        self.assertIn("    a.d: dependency files of an earlier build are there", answer.output)
        answer = self.imported("OLD=a.d")
        self.assertEqual(answer.findings, ["no race a.o h h"])
        self.assertNotIn("are there", answer.output)

    def test_makes_below(self) -> None:
        self.write(
            {
                "Makefile": "all clean:\n\t$(MAKE) -C lib $@\n.PHONY: all clean\n",
                "lib/Makefile": "all: prog\n" + MAKEFILE + CLEAN,
                "lib/a.in": "a\n",
                "lib/h": "h\n",
            }
        )
        self.build()
        self.assertEqual(self.imported().findings, ["no stale lib/a.o lib/h"])

    def test_clean_that_removes_too_much(self) -> None:
        self.project(MAKEFILE + CLEAN.replace("prog", "prog h"))
        self.build()
        answer = self.imported()
        self.stale(answer)
        self.assertIn(
            "    1 file (h) that `make clean` removes stayed as they are, since a build fails",
            answer.output,
        )
        self.assertIn("    2 files (a.o, prog) of an earlier build are left out", answer.output)

    def manual(self) -> None:
        """A manual of the release, for which a program is needed that isn't there."""
        self.project(
            "prog: a.o doc\n\tcat a.o doc > prog\na.o: a.in\n\tcat a.in h > a.o\n"
            "doc: doc.in\n\tno-such-program doc.in > doc\n" + CLEAN.replace("prog", "prog doc"),
            **{"doc.in": "d\n", "doc": "d\n"},
        )
        self.date("a.in", "h", "doc.in", "doc", "Makefile")

    def test_a_file_older_than_config_status_came_with_the_release(self) -> None:
        self.manual()
        self.write({"config.status": "#!/bin/sh\n"})
        answer = self.left_out()
        self.assertIn("aren't judged (1 file): doc", answer.output)

    def test_a_hidden_file_without_which_the_build_fails_is_shown_again(self) -> None:
        self.manual()
        answer = self.left_out()
        self.assertIn(
            "    1 file (doc) that `make clean` removes stayed as they are, since a build fails",
            answer.output,
        )

    def test_clean_that_fails(self) -> None:
        """It tells nothing."""
        self.project(MAKEFILE + "clean:\n\trm -f prog; false\n")
        self.build()
        (self.folder / "prog").unlink()
        self.unknown("1 file (a.o)", "")

    def unknown(self, files: str, said: str) -> None:
        """`make clean` fails, and nothing else tells what is there already."""
        answer = self.imported()
        status = 2 if "make has nothing to do" in answer.errors else 4
        self.assertEqual(answer.status, status, answer.output + answer.errors)
        self.assertIn(f" {files} with rules are there already", answer.output + answer.errors)
        self.assertIn("`make clean` tells nothing, since it", answer.output + answer.errors)
        self.assertIn(said, answer.output + answer.errors)

    def test_clean_that_cannot_be_read(self) -> None:
        self.project(MAKEFILE + CLEAN + "ifeq ($(MAKECMDGOALS),clean)\n$(error not now)\nendif\n")
        self.build()
        self.unknown("2 files (a.o, prog)", "not now")

    @has_git
    def test_clean_that_fails_in_git(self) -> None:
        """Then git tells."""
        self.project(MAKEFILE + "clean:\n\tfalse\n")
        self.track()
        self.left_out()

    @has_git
    def test_clean_that_is_not_needed(self) -> None:
        """It isn't run where no output can be there."""
        self.project("prog: p.c\n\tcp p.c prog\np.c: p.y\n\tcp p.y p.c\nclean:\n\tfalse\n")
        self.write({"p.y": "p\n"})
        self.assertNotIn("`make clean` tells nothing", self.imported().output)
        self.write({"p.c": "p\n"})
        self.assertIn("`make clean` tells nothing", self.imported().output)
        self.track()
        self.assertNotIn("`make clean` tells nothing", self.imported().output)

    def test_clean_that_does_not_end(self) -> None:
        self.project(MAKEFILE + f"clean:\n\trm -f prog *.o\n\tsleep 6{os.getpid()}\n")
        self.build()
        words = [sys.executable, "-c", IMPATIENT, str(IMPORTER)]
        done = subprocess.run(
            [*words, "--no-replay", "-C", str(self.folder)],
            env=ENVIRONMENT,
            capture_output=True,
            text=True,
            check=False,
        )
        self.assertEqual(done.returncode, 2, done.stderr)
        self.assertIn(" 2 files (a.o, prog) with rules are there already", done.stderr)
        self.assertIn("(GNU make didn't end in 2 seconds)", done.stderr)
        command = f"sleep\0006{os.getpid()}\0".encode()
        there = Path("/proc").glob
        # What was killed may take a moment to end.
        self.assertTrue(wait_for(lambda: command not in map(content, there("[0-9]*/cmdline"))))


def content(path: Path) -> bytes:
    """What a file holds, where it is still there."""
    try:
        return path.read_bytes()
    except OSError:
        return b""


@can_judge
@can_confine
class HarmTest(LeftoversTestCase):
    """What `make clean` removes elsewhere is still there, and the answer is right."""

    def setUp(self) -> None:
        super().setUp()
        self.beside = self.scratch / "beside"
        self.beside.write_text("beside\n")

    def cleaned(self, recipe: str, **environment: str) -> Answer:
        """Imports a project that was built, with a recipe of `clean`."""
        self.project(MAKEFILE + CLEAN.replace(".PHONY", f"\t{recipe}\n.PHONY"))
        self.build()
        (self.folder / "prog").unlink()
        answer = self.imported(environment=environment)
        self.assertEqual(self.beside.read_text(), "beside\n")
        return answer

    def told(self, recipe: str, **environment: str) -> None:
        """`make clean` succeeds, and its answer is taken."""
        answer = self.cleaned(recipe, **environment)
        self.stale(answer)
        self.assertIn("    1 file (a.o) of an earlier build is left out", answer.output)

    def not_told(self, recipe: str) -> None:
        """It fails, so that nothing tells what is there."""
        answer = self.cleaned(recipe)
        self.assertEqual(answer.status, 4, answer.output + answer.errors)
        self.assertIn("    1 file (a.o) with rules are there already", answer.output)
        self.assertIn("Read-only file system", answer.output)

    def test_beside(self) -> None:
        self.not_told("rm -f ../beside")
        self.not_told("rm -rf ../beside .git")
        self.not_told("echo > ../beside")

    def test_failure_that_is_ignored(self) -> None:
        self.told("-rm -rf ../beside")

    def test_absolute_path(self) -> None:
        self.not_told(f"rm -f {self.beside}")

    def test_link(self) -> None:
        (self.folder / "link").symlink_to(self.beside)
        self.not_told("echo > link")

    def test_home(self) -> None:
        home = self.scratch / "home"
        (home / "cache").mkdir(parents=True)
        (home / "cache" / "x").write_text("x\n")
        self.told("rm -rf $(HOME)/cache ~/cache", HOME=str(home))
        self.assertEqual((home / "cache" / "x").read_text(), "x\n")

    def test_folders_for_temporary_files(self) -> None:
        for place in ("/tmp", "/var/tmp"):
            with tempfile.NamedTemporaryFile(dir=place) as file:
                self.told(f"rm {file.name} || test ! -f {file.name}; echo > {place}/mkcheck")
                self.assertTrue(os.path.exists(file.name))
                self.assertFalse(os.path.exists(f"{place}/mkcheck"))

    def test_mounts(self) -> None:
        """Root can't take back what is read-only."""
        self.told(
            "-mount -o remount,rw /; mount -o remount,bind,rw $(dir $(CURDIR)); umount $(CURDIR);"
            f" rm -f ../beside {self.beside}; unshare -m mount -o remount,rw /"
        )

    def test_processes(self) -> None:
        with subprocess.Popen(["sleep", "600"]) as process:
            self.addCleanup(process.kill)
            self.told(f"-kill -9 {process.pid}")
            self.assertIsNone(process.poll())
            process.kill()

    def test_servers(self) -> None:
        path = str(self.scratch / "server")
        with socket.socket() as far, socket.socket(socket.AF_UNIX) as near:
            far.bind(("127.0.0.1", 0))
            near.bind(path)
            for number, server in enumerate((far, near)):
                server.listen()
                server.settimeout(0.1)
                self.write({"ask": ASK.format(far.getsockname()[1], path)})
                self.told(f"-./ask {number}")
                with self.assertRaises(TimeoutError):
                    server.accept()
                self.assertEqual(subprocess.run([self.folder / "ask", str(number)]).returncode, 0)

    @unittest.skipUnless(
        os.getuid() == 0 and python_for(NOBODY), "another user can't be tried, or can't confine"
    )
    def test_other_user(self) -> None:
        """A user who isn't root, and owns the project and what lies beside it."""
        harm = "\t-rm -f ../beside; echo > ../beside\n.PHONY"
        self.project(MAKEFILE + CLEAN.replace(".PHONY", harm))
        self.build()
        for path in (self.scratch, *self.scratch.rglob("*")):
            os.chown(path, NOBODY, NOBODY)
        done = subprocess.run(
            [str(python_for(NOBODY)), str(IMPORTER), "-C", str(self.folder), "--no-replay"],
            user=NOBODY,
            group=NOBODY,
            extra_groups=[],
            env=ENVIRONMENT,
            capture_output=True,
            text=True,
            check=False,
        )
        self.stale(self.read_answer(done))
        self.assertIn("    2 files (a.o, prog) of an earlier build are left out", done.stdout)
        self.assertEqual(self.beside.read_text(), "beside\n")


@can_judge
class WithoutCleanTest(LeftoversTestCase):
    """Makefiles that have no rule `clean`."""

    def unknown(self) -> None:
        """The object that is there may be an output: that is never a yes."""
        answer = self.imported()
        self.assertEqual(answer.status, 4, answer.output + answer.errors)
        self.assertIn("nothing tells whether they came with the project", answer.output)
        self.assertEqual(self.imported("--keep").status, 0)

    def test_newer_than_the_makefile(self) -> None:
        self.project(MAKEFILE)
        self.build()
        (self.folder / "prog").unlink()
        self.unknown()

    def test_older_than_the_makefile(self) -> None:
        """As in an archive, whose files keep their times."""
        self.project(MAKEFILE, **{"a.o": "a\nh\n"})
        self.date("a.in", "h", "a.o", "Makefile")
        answer = self.imported()
        self.assertEqual(answer.status, 0, answer.output + answer.errors)
        self.assertIn("aren't judged (1 file): a.o", answer.output)

    @has_git
    def test_git(self) -> None:
        """What git tracks is the project's, and other targets aren't."""
        self.project(
            "prog: a.o p.c\n\tcat a.o p.c > prog\na.o: a.in\n\tcat a.in h > a.o\n"
            "p.c: p.y\n\tcp p.y p.c\n",
            **{"p.y": "p\n", "p.c": "p\n"},
        )
        self.track()
        answer = self.left_out()
        self.assertIn("aren't judged (1 file): p.c", answer.output)

    @has_git
    def test_dependency_files_that_no_recipe_of_the_goals_makes(self) -> None:
        """A fresh clone has none, and make doesn't make them there."""
        rules = "prog: a.o\n\tcp a.o prog\na.o: a.in\n\tcat a.in h > a.o\n"
        depend = "depend:\n\techo a.o: h > .depend\n-include .depend\n"
        self.project(rules + depend, **{".gitignore": ".depend\n"})
        self.track()
        self.write({".depend": "a.o: h\n"})
        answer = self.imported()
        self.stale(answer)
        self.assertIn("    1 file (.depend) of an earlier build is left out", answer.output)
        self.track()
        subprocess.run(["git", "-C", str(self.folder), "add", "-f", ".depend"], check=True)
        answer = self.imported()
        self.assertEqual((answer.findings, answer.status), ([], 0), answer.output)
        self.assertIn("with 1 doubt,", answer.output)  # That no recipe was run again.

    @has_git
    def test_dependency_files_that_recipes_write(self) -> None:
        self.project(
            "prog: a.o\n\tcp a.o prog\n"
            "a.o: a.in\n\tcat a.in h > a.o; echo a.o: h > a.d\n-include a.d\n",
            **{".gitignore": "*.[do]\nprog\n"},
        )
        self.track()
        self.build()
        answer = self.imported()
        self.assertEqual((answer.findings, answer.status), ([], 0), answer.output)
        self.assertIn("    3 files (a.d, a.o, prog) of an earlier build are left", answer.output)

    @has_git
    def test_a_dependency_file_without_which_make_fails(self) -> None:
        rules = "prog: a.o\n\tcp a.o prog\na.o: a.in\n\tcat a.in h > a.o\n"
        self.project(f"{rules}-include none\ninclude .depend\n")
        self.track()
        self.write({".depend": "a.o: h\n"})
        answer = self.imported()
        self.assertEqual((answer.findings, answer.status), ([], 0), answer.output)
        self.assertIn("    1 file (.depend) that git doesn't track stayed as", answer.output)

    def test_dependency_files_where_nothing_tells_whose_they_are(self) -> None:
        told = "includes .depend where it is there, and no recipe of these goals makes it"
        rules = "prog: a.o\n\tcp a.o prog\na.o: a.in\n\tcat a.in h > a.o\n"
        self.project(f"{rules}-include .depend\n", **{".depend": "a.o: h\n"})
        for _ in range(2):
            answer = self.imported()
            self.assertEqual((answer.findings, answer.status), ([], 0), answer.output)
            self.assertIn("with 2 doubts,", answer.output)
            self.assertIn(told, answer.output + answer.errors)

    def test_words(self) -> None:
        self.write({"build.ninja": "build x: phony\n"})
        answer = self.imported("--from", "ninja", "--keep")
        self.assertEqual(answer.status, 2)
        self.assertIn("--keep is for GNU make", answer.errors)
