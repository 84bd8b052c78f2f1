"""Bad input: what the importer says where it can't go on, in a sentence and without a traceback."""

from __future__ import annotations

import contextlib
import os
import resource
import shutil
import signal
import subprocess
import sys
import time
from pathlib import Path

from importer.make_folder import ENVIRONMENT, IMPORTER, MKCHECK, MakeFolderTest, can_judge, has_make
from waits import TRIES, wait_for


@has_make
class RefusedTest(MakeFolderTest):
    """Folders and words with which there is no answer."""

    def refused(self, sentence: str, *words: str, **environment: str) -> None:
        """Runs the importer, which has to end with a sentence and the status 2."""
        answer = self.imported(*words, environment=environment)
        self.assertEqual((answer.status, answer.output), (2, ""))
        said = [line for line in answer.errors.splitlines() if " s  " not in line]
        lines = [line for line in said if line.startswith("mkcheck-import: ")]
        self.assertEqual(lines, said[:1], answer.errors)
        self.assertIn(sentence, "\n".join(said))

    def test_no_build(self) -> None:
        self.refused("has no makefile and no build.ninja: give the folder of a build with -C")
        self.write({"configure": "#!/bin/sh\n"})
        self.refused("has no makefile and no build.ninja yet: run ./configure first")
        self.refused("there is no such folder", "-S", "nowhere")

    def test_the_only_configured_folder_is_taken(self) -> None:
        """Also where another way to configure is there, which wasn't gone."""
        configured = {"meson-private/coredata.dat": "", "Makefile": "x: ../a\n\tcp ../a x\n"}
        self.write({"configure": "", "a": "a\n"})
        self.write({f"build/{name}": text for name, text in configured.items()})
        answer = self.imported("--look")
        self.assertEqual(answer.status, 0, answer.errors)
        self.assertIn(": the build in build is taken, as by -S build\n", answer.errors)
        self.assertIn("1 of 1 recipe will be judged, for build/x,", answer.output)
        self.write({f"other/{name}": text for name, text in configured.items()})
        self.refused("has several build folders (build, other): name one with -S")

    def test_in_the_build_folder_of_cmake(self) -> None:
        home = f"CMAKE_HOME_DIRECTORY:INTERNAL={self.folder}\n"
        self.write({"build/CMakeCache.txt": home, "build/Makefile": "x:\n\techo > x\n"})
        words = [sys.executable, str(IMPORTER), "-C", str(self.folder / "build")]
        done = subprocess.run(words, capture_output=True, text=True, check=False)
        self.assertEqual((done.returncode, done.stdout), (2, ""))
        self.assertIn("give that folder with -C, and this one with -S build", done.stderr)

    def test_a_build_folder_of_cmake_that_was_moved(self) -> None:
        """Its makefiles name the folders in which it was configured."""
        self.write(
            {
                "build/CMakeCache.txt": "CMAKE_HOME_DIRECTORY:INTERNAL=/old\n"
                "CMAKE_CACHEFILE_DIR:INTERNAL=/old/build\n",
                "build/Makefile": "x:\n\techo > x\n",
                "CMakeLists.txt": "",
            }
        )
        place = self.folder / "build"
        self.refused(
            f"CMake configured {place} as /old/build, and it was moved or copied since, so its"
            f" build names other folders: remove {place}/CMakeCache.txt, and run `cmake -S"
            f" {self.folder} -B {place}`"
        )
        cache = f"CMAKE_HOME_DIRECTORY:INTERNAL=/old\nCMAKE_CACHEFILE_DIR:INTERNAL={place}\n"
        self.write({"build/CMakeCache.txt": cache})
        self.refused(f"CMake configured {place} for the sources in /old, which isn't there any")
        (self.scratch / "link").symlink_to(self.folder)
        cache = f"CMAKE_HOME_DIRECTORY:INTERNAL={self.scratch}/link\n"
        cache += f"CMAKE_CACHEFILE_DIR:INTERNAL={self.scratch}/link/build\n"
        self.write({"build/CMakeCache.txt": cache})
        self.assertEqual(self.imported("--look").status, 0)

    def test_no_folder(self) -> None:
        words = [sys.executable, str(IMPORTER), "-C", str(self.scratch / "nowhere")]
        done = subprocess.run(words, capture_output=True, text=True, check=False)
        self.assertEqual(done.returncode, 2)
        self.assertIn("there is no such folder", done.stderr)

    def test_makefile_that_cannot_be_read(self) -> None:
        self.write({"Makefile": "all: x\nx a\n"})
        self.refused(
            "the build failed, so it can't be recorded:\nMakefile:2: *** missing separator"
        )

    def test_no_rule(self) -> None:
        self.write({"Makefile": "x: missing\n\tcp missing x\n"})
        self.refused("the build failed, so it can't be recorded:\nmake: *** No rule to make target")
        self.write({"Makefile": "x: a\n\tcp a x\n", "a": "a\n"})
        self.refused(
            "mend it until `make X=y none` in the project's folder succeeds, and import again",
            "X=y",
            "none",
        )

    def test_build_that_fails(self) -> None:
        self.write({"Makefile": "x: a\n\tcp a x; echo no such luck >&2; false\n", "a": "a\n"})
        self.refused(
            "the build failed at the recipe of x (Makefile:2), so it can't be recorded:\n"
            "\tcp a x; echo no such luck >&2; false\n"
            "no such luck\n"
            "make: *** [Makefile:2: x] Error 1\n"
            "mend it until `make` in the project's folder succeeds, and import again"
        )

    def test_build_that_asks(self) -> None:
        """A build that asks a question gets no answer, and doesn't hang."""
        self.write({"Makefile": "x: a\n\tread answer && cp a x\n", "a": "a\n"})
        self.refused("the build failed at the recipe of x (Makefile:2), so it can't be recorded")

    def test_unknown_goal(self) -> None:
        self.write({"Makefile": "x: a\n\tcp a x\n", "a": "a\n"})
        self.refused("No rule to make target 'y'", "y")

    def test_no_commands(self) -> None:
        self.write({"Makefile": "x: a\n", "a": "a\n"})
        self.refused("the build of x runs no command, so there is nothing to judge")

    def test_no_make(self) -> None:
        self.write({"Makefile": "x: a\n\tcp a x\n", "a": "a\n"})
        self.refused("GNUMAKE names /bin/true, which isn't GNU make", GNUMAKE="/bin/true")

    def test_old_make(self) -> None:
        self.write({"Makefile": "x: a\n\tcp a x\n", "a": "a\n"})
        old = self.scratch / "old-make"
        old.write_text("#!/bin/sh\necho GNU Make 3.81\n")
        old.chmod(0o755)
        sentence = "GNU Make 3.81 is too old: GNU make 4.0 or a later one is needed"
        self.refused(sentence, GNUMAKE=str(old))

    def test_too_many_nodes(self) -> None:
        files = " ".join(f"{number}.o" for number in range(3000))
        more = " ".join(f"{number}.p" for number in range(3000))
        self.write(
            {
                "Makefile": f"all: one two\n.PHONY: all one two\none: {files}\ntwo: {more}\n"
                f"{files} {more}: a\n\t@true $@\n",
                "a": "a\n",
            }
        )
        self.assertEqual(self.imported("--only", "translate").status, 4)
        answer = self.imported("--only", "graph", keep=True)
        self.assertEqual(answer.status, 2)
        self.assertIn(
            "the build has 6004 nodes, and mkcheck takes at most 4096: goals that fit: one (3002),"
            " two (3002)",
            answer.errors,
        )

    def test_words(self) -> None:
        words = [sys.executable, str(IMPORTER), "--from", "ninja", "-f", "x"]
        done = subprocess.run(words, capture_output=True, text=True, check=False)
        self.assertEqual(done.returncode, 2)
        self.assertIn("-f is for GNU make", done.stderr)
        done = subprocess.run(
            [sys.executable, str(IMPORTER), "--help"], capture_output=True, text=True, check=False
        )
        self.assertEqual(done.returncode, 0)
        self.assertIn("--only", done.stdout)


@has_make
class CostTest(MakeFolderTest):
    """What the importer costs, and what it leaves when it is stopped."""

    def test_thousand_targets(self) -> None:
        """Translating 1,000 targets takes at most 10 seconds of processor time."""
        names = [f"src/f{number}" for number in range(1000)]
        self.write(
            {
                "Makefile": "objects := $(patsubst %.in,%.o,$(wildcard src/*.in))\n"
                "prog: $(objects)\n\tcat $^ > $@\n%.o: %.in head\n\tcp $< $@\n",
                "head": "h\n",
                **{f"{name}.in": "a\n" for name in names},
            }
        )
        before = resource.getrusage(resource.RUSAGE_CHILDREN)
        answer = self.imported("--only", "translate")
        after = resource.getrusage(resource.RUSAGE_CHILDREN)
        self.assertEqual(answer.makefile.count("\n\tcp "), 1000)
        used = after.ru_utime + after.ru_stime - before.ru_utime - before.ru_stime
        self.assertLess(used, 10)

    def test_stopped(self) -> None:
        """A signal ends the build, and nothing stays in the folder of temporary files."""
        self.write({"Makefile": "x: a\n\tsleep 61.5; cp a x\n", "a": "a\n"})
        temporary = self.scratch / "temporary"
        temporary.mkdir()
        with subprocess.Popen(
            [sys.executable, str(IMPORTER), "-C", str(self.folder)],
            env={**ENVIRONMENT, "TMPDIR": str(temporary)},
            stderr=subprocess.PIPE,
            text=True,
        ) as process:
            assert process.stderr is not None
            self.assertIn("read ", process.stderr.readline())
            time.sleep(0.5)
            process.terminate()
            self.assertIn("stopped by SIGTERM", process.stderr.read())
            self.assertEqual(process.wait(), 128 + signal.SIGTERM)
        self.assertTrue(wait_for(lambda: not list(temporary.iterdir())))

    def ended_at(self, number: int, makefile: str, command: str) -> float:
        """Begins an import, and ends it where this command runs: it ends, and the command too. How
        many seconds that takes."""
        shutil.rmtree(self.folder)
        self.folder.mkdir()
        self.write({"Makefile": makefile, "a": "1\n"})
        with subprocess.Popen(
            [sys.executable, str(IMPORTER), "-C", str(self.folder)],
            env=ENVIRONMENT,
            stderr=subprocess.PIPE,
            text=True,
            preexec_fn=lambda: signal.signal(number, signal.SIG_DFL),
        ) as process:
            wait_for(lambda: process.poll() is not None or running(command))
            begun = time.monotonic()
            process.send_signal(number)
            _, errors = process.communicate()
            took = time.monotonic() - begun
        self.assertIn(f"stopped by {signal.Signals(number).name}", errors)
        self.assertEqual(process.returncode, 128 + number)
        self.assertTrue(wait_for(lambda: not running(command), 300))
        return took

    def test_ended_in_each_phase(self) -> None:
        """Make reads, builds, is asked with other contents of a file, and recipes are recorded."""
        recipe = 'x: a\n\ttest {} "$$MAKELEVEL" && sleep {}; cp a x\n'
        reading = "V := $(shell {} sleep {})\nx: a\n\techo $(V) > x\n"
        other = "test $$(cat a) = 1 ||"
        own = f"6{os.getpid()}"
        for number, front in ((signal.SIGTERM, f"{own}2"), (signal.SIGINT, f"{own}3")):
            for name, makefile in (
                ("1", reading.format("", f"{front}.1")),
                ("2", recipe.format("-n", f"{front}.2")),
                ("3", reading.format(other, f"{front}.3")),
                ("4", recipe.format("-z", f"{front}.4")),
            ):
                with self.subTest(makefile):
                    command = f"sleep\0{front}.{name}\0"
                    # Within a second or two; the machine may have much else to do.
                    took = (self.ended_at(number, makefile, command) for _ in range(TRIES))
                    self.assertTrue(any(seconds < 15 for seconds in took))


def running(command: str) -> bool:
    """Whether a process of this machine has these words, each with a zero behind it."""
    for path in Path("/proc").glob("[0-9]*/cmdline"):
        with contextlib.suppress(OSError):
            if path.read_text(errors="replace") == command:
                return True
    return False


@can_judge
class StepsTest(MakeFolderTest):
    """Steps that are done one at a time."""

    def test_steps(self) -> None:
        self.write({"Makefile": "x: a\n\tcat a b > x\n-include x.d\n", "a": "a\n", "b": "b\n"})
        self.assertEqual(self.imported("--only", "read").status, 0)
        answer = self.imported("--only", "check", keep=True)
        self.assertEqual(answer.status, 2)
        self.assertIn("has no translation: import without --only first", answer.errors)
        self.assertEqual(self.imported("--only", "translate", "--build", keep=True).status, 0)
        self.assertEqual(self.imported("--only", "graph", keep=True).status, 0)
        answer = self.imported("--only", "check", keep=True)
        self.assertIn("has no footprints: import with --only record first", answer.errors)
        self.assertEqual(self.imported("--only", "record", keep=True).status, 0)
        for _ in range(2):
            answer = self.imported("--only", "check", keep=True)
            self.assertEqual((answer.status, answer.findings), (1, ["no stale x b"]))

    def test_other_commands(self) -> None:
        """What is left serves the other commands of mkcheck, and the report."""
        self.write({"Makefile": "x: a\n\tcat a b > x\n", "a": "a\n", "b": "b\n"})
        self.imported()
        output, report = self.folder / ".mkcheck", str(self.scratch / "report.html")
        files = ["-f", str(output / "makefile"), "-b", str(output / "footprint.json")]
        reporter = [sys.executable, str(IMPORTER.with_name("mkcheck-report"))]
        for words, status, said in (
            ([MKCHECK, "repair", *files], 0, "\nx: b\n"),
            ([MKCHECK, "check", "-w", *files], 1, "makefile:4: x reads b, but doesn't depend on"),
            ([*reporter, *files, "-o", report], 1, "no, 1 finding in 1 group"),
        ):
            done = subprocess.run(
                words,
                cwd=self.folder,
                env=ENVIRONMENT,
                capture_output=True,
                text=True,
                check=False,
            )
            self.assertEqual(done.returncode, status, done.stderr)
            self.assertIn(said, done.stdout + done.stderr)

    def test_without_strace(self) -> None:
        """The translation is there, and says what isn't known."""
        self.write({"Makefile": "x: a\n\tcp a x\n", "a": "a\n"})
        programs = self.scratch / "bin"
        programs.mkdir()
        for folder in filter(os.path.isdir, os.environ["PATH"].split(":")):
            for name in set(os.listdir(folder)) - {"strace"} - set(os.listdir(programs)):
                (programs / name).symlink_to(os.path.join(folder, name))
        path = {"PATH": str(programs)}
        answer = self.imported(environment=path)
        self.assertEqual((answer.status, answer.makefile), (2, ""))
        self.assertIn("strace isn't there", answer.errors)
        self.assertNotIn("build ", answer.errors)
        answer = self.imported("--only", "translate", "--build", environment=path)
        self.assertEqual((answer.status, answer.rules().count("\t")), (4, 1), answer.errors)
        self.assertIn(
            "not judged: whether commands depend on files that make reads beside its makefiles"
            " isn't known: strace isn't there",
            answer.output,
        )

    def test_translation_without_a_build(self) -> None:
        """It may lack what make knows only after a build, so it is never a yes."""
        self.write({"Makefile": "x: a\n\tcp a x\n", "a": "a\n"})
        answer = self.imported("--only", "translate")
        self.assertEqual(answer.status, 4)
        self.assertIn("translated without a build", answer.output)
        self.assertEqual(self.imported("--only", "record", keep=True).status, 4)
        answer = self.imported("--only", "check", keep=True)
        self.assertEqual((answer.status, answer.findings), (4, []))
        self.assertTrue(answer.output.startswith("yes as far as judged (1 "), answer.output)


@can_judge
class NamesTest(MakeFolderTest):
    """Names and files that footprints or makefiles can't hold."""

    def test_name_with_blank(self) -> None:
        self.write({"Makefile": "my\\ file: a\n\tcp a 'my file'\n", "a": "a\n"})
        answer = self.imported()
        self.assertEqual(answer.status, 2, answer.output + answer.errors)
        self.assertIn("my file", answer.output + answer.errors)

    def test_output_folder(self) -> None:
        """With -o nothing is written into the project."""
        self.write({"Makefile": "x: a\n\tcp a x\n", "a": "a\n"})
        output = self.scratch / "elsewhere"
        answer = self.imported("-o", str(output))
        self.assertEqual(answer.status, 0, answer.output + answer.errors)
        self.assertFalse((self.folder / ".mkcheck").exists())
        names = sorted(path.name for path in output.iterdir())
        self.assertLessEqual({"footprint.json", "import.log", "makefile", "map.json"}, set(names))

    def test_project_with_odd_path(self) -> None:
        """The folder's own path may hold blanks and quotes."""
        odd = self.scratch / "an 'odd' folder"
        odd.mkdir()
        (odd / "Makefile").write_text("all:\n\t$(MAKE) -f sub.mk\n.PHONY: all\n")
        (odd / "sub.mk").write_text("x: a\n\tcp a x\n")
        (odd / "a").write_text("a\n")
        done = subprocess.run(
            [sys.executable, str(IMPORTER), "-C", str(odd)],
            env=ENVIRONMENT,
            capture_output=True,
            text=True,
            check=False,
        )
        self.assertEqual(done.returncode, 0, done.stdout + done.stderr)


@can_judge
class ExportTest(MakeFolderTest):
    """Macros that come from a file and are exported to makes below."""

    def test_recipes_that_use_them_and_others(self) -> None:
        """By their commands, by the environment, by a script, and not at all."""
        self.write(
            {
                "Makefile": "export V := $(shell cat VERSION)\nall:\n\t$(MAKE) -C sub\n",
                "sub/Makefile": "all: a b c d e\na: in\n\techo $(V) > a\n"
                'b: in\n\techo "$$V" > b\nc: in script\n\t./script > c\n'
                "d e: in\n\tcp in $@\n",
                "sub/script": '#!/bin/sh\necho "<$V>"\n',
                "sub/in": "in\n",
                "VERSION": "1\n",
            }
        )
        answer = self.imported()
        self.assertEqual(answer.status, 1, answer.output + answer.errors)
        self.assertTrue(answer.output.startswith("no: 3 findings"), answer.output)
        lines = answer.output.partition("Add to sub/Makefile:\n")[2].partition("\n")[0]
        self.assertEqual(sorted(lines.replace(":", "").split()), ["../VERSION", "a", "b", "c"])
        self.assertIn("d finds another value of V when VERSION changes", answer.log)
        built = self.built()
        for version in ("2", "3"):
            (built / "VERSION").write_text(f"{version}\n")
            self.assertFalse(self.rebuilds(built, ["VERSION"], ["sub/a", "sub/b", "sub/c"]))

    def test_recipes_that_make_folders(self) -> None:
        """A folder, one with a file that has the value in it, and one with a folder named so."""
        self.write(
            {
                "Makefile": "export V := $(shell cat VERSION)\nall: x/a y z\n"
                "x/a: in | x\n\tcp in $@\nx:\n\tmkdir -p $@\n"
                'y:\n\tmkdir -p $@ && echo "$$V" > $@/v\nz:\n\tmkdir -p $@/"$$V"\n',
                "in": "in\n",
                "VERSION": "1\n",
            }
        )
        answer = self.imported()
        lines = answer.output.partition("Add to Makefile:\n")[2].partition("\n\n")[0]
        self.assertEqual(lines.strip(), "y z: VERSION", answer.output)
