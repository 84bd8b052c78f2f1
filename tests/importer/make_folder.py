"""Folders of GNU make builds for the tests of the importer, and what make itself does in them."""

from __future__ import annotations

import json
import os
import re
import shutil
import subprocess
import sys
import tempfile
import unittest
from dataclasses import dataclass, field
from pathlib import Path
from typing import Any

from waits import wait_for_later_stamps

ROOT = Path(__file__).resolve().parents[2]
IMPORTER = ROOT / "bin" / "mkcheck-import"
MKCHECK = os.path.abspath(os.environ.get("MKCHECK", ROOT / "bin" / "mkcheck"))
SYSTEM = ("/usr/", "/lib/", "/lib64/", "/bin/", "/etc/", "/opt/")
OF_MAKE = ("MAKEFLAGS", "MAKELEVEL", "MFLAGS", "GNUMAKEFLAGS")
ENVIRONMENT = {
    **{name: value for name, value in os.environ.items() if name not in OF_MAKE},
    "MKCHECK": MKCHECK,
}
# A shell that notes when commands begin and end, and is slow where a command holds a word.
SLOW = """#!/bin/sh
for last; do :; done
echo "begin $last" >> @LOG@
case $last in (*'@WORD@'*) sleep @SECONDS@;; esac
/bin/sh "$@"
status=$?
echo "end $last" >> @LOG@
exit $status
"""

# How long such a command takes: longer where the machine is busy.
SECONDS_OF_SLOW = (0.6, 3, 15, 60)


def gnu_make() -> str | None:
    """GNU make, where it is there."""
    for name in ("make", "gmake"):
        found = shutil.which(name)
        if found is not None:
            done = subprocess.run([found, "--version"], capture_output=True, text=True, check=False)
            if done.stdout.startswith("GNU Make 4"):
                return found
    return None


def may_trace() -> bool:
    """Whether strace is there, and may trace."""
    strace = shutil.which("strace")
    if strace is None:
        return False
    words = [strace, "-o", os.devnull, "true"]
    return subprocess.run(words, capture_output=True, check=False).returncode == 0


MAKE = gnu_make()
can_judge = unittest.skipUnless(
    MAKE and may_trace() and os.access(MKCHECK, os.X_OK),
    "no GNU make 4, no strace that may trace, or no mkcheck",
)
has_make = unittest.skipUnless(MAKE and os.access(MKCHECK, os.X_OK), "no GNU make 4, or no mkcheck")


@dataclass(frozen=True)
class Record:
    """What one recipe of the translated makefile does."""

    commands: list[str]
    reads: list[str]
    writes: list[str]


@dataclass(frozen=True)
class Answer:
    """What mkcheck-import left."""

    status: int
    output: str
    errors: str
    makefile: str = ""
    first: str = ""
    lines: list[str] = field(default_factory=list)
    """What `check` prints for later builds."""

    first_lines: list[str] = field(default_factory=list)
    """What `check` prints for the first build."""

    records: dict[str, Record] = field(default_factory=dict)
    map: dict[str, dict[str, Any]] = field(default_factory=dict)
    log: str = ""

    @property
    def findings(self) -> list[str]:
        """The findings: of the first build all but stale reads, of later builds all."""
        first = [one for one in self.first_lines if one.startswith("no ") and " stale " not in one]
        return list(dict.fromkeys([*first, *(one for one in self.lines if one[:3] == "no ")]))

    @property
    def ways(self) -> list[list[str]]:
        """The words of the ways of later builds."""
        return [line.split(" ")[1:] for line in self.lines if line.startswith("way ")]

    def rules(self) -> str:
        """The makefile of later builds without its front."""
        return without_front(self.makefile)

    def first_rules(self) -> str:
        """The makefile of the first build without its front."""
        return without_front(self.first or self.makefile)


def without_front(text: str) -> str:
    """A makefile without the lines that stand in each."""
    lines = text.splitlines()
    return "".join(
        f"{line}\n" for line in lines if not line.startswith(("#", ".POSIX:", ".SUFFIXES:"))
    )


class MakeFolderTest(unittest.TestCase):
    """A test with a folder of its own."""

    maxDiff = None

    def setUp(self) -> None:
        self.scratch = Path(tempfile.mkdtemp(prefix="import-test-")).resolve()
        self.addCleanup(shutil.rmtree, self.scratch)
        self.folder = self.scratch / "project"
        self.folder.mkdir()
        self.below = "."

    def write(self, files: dict[str, str]) -> None:
        """Writes files; one whose text begins with `#!` can be run."""
        for name, text in files.items():
            path = self.folder / name
            path.parent.mkdir(parents=True, exist_ok=True)
            path.write_bytes(text.encode("utf-8", "surrogateescape"))
            if text.startswith("#!"):
                path.chmod(0o755)

    def add_lines(self, lines: str) -> None:
        """Adds lines to the makefile."""
        with open(self.folder / "Makefile", "a", encoding="utf-8") as file:
            file.write(lines)

    def mend(self, lines: str) -> None:
        """Adds lines that an answer advised: with them the answer is yes."""
        self.add_lines(lines)
        answer = self.imported()
        self.assertEqual(answer.status, 0, answer.output + answer.errors)
        self.try_answer(answer)

    def contents(self) -> dict[str, bytes | None]:
        """All that the folder holds, but for what the importer may write."""
        found: dict[str, bytes | None] = {}
        for path in sorted(self.folder.rglob("*")):
            name = str(path.relative_to(self.folder))
            if not name.startswith(".mkcheck"):
                found[name] = path.read_bytes() if path.is_file() else None
        return found

    def imported(
        self,
        *words: str,
        environment: dict[str, str] | None = None,
        replay: bool = False,
        keep: bool = False,
    ) -> Answer:
        """Runs the importer on the folder, which has to stay as it is.

        The recorder's replay is left out but where it is asked for; `keep` keeps what the last
        import left.
        """
        before = self.contents()
        if not keep:
            shutil.rmtree(self.folder / ".mkcheck", ignore_errors=True)
        options = [] if replay else ["--no-replay"]
        done = subprocess.run(
            [sys.executable, str(IMPORTER), "-C", str(self.folder), *options, *words],
            env={**ENVIRONMENT, **(environment or {})},
            capture_output=True,
            text=True,
            check=False,
        )
        self.assertNotIn("Traceback", done.stderr)
        self.assertEqual(self.contents(), before)
        return self.read_answer(done)

    def read_answer(self, done: subprocess.CompletedProcess[str]) -> Answer:
        """What stands in the folder of the importer."""
        output = self.folder / ".mkcheck"

        def text(name: str) -> str:
            path = output / name
            return path.read_text("utf-8", "surrogateescape") if path.exists() else ""

        values = json.loads(text("footprint.json") or '{"records":[]}')
        records = {
            value["target"]: Record(value["commands"], value["reads"], value["writes"])
            for value in values["records"]
        }
        return Answer(
            done.returncode,
            done.stdout,
            done.stderr,
            text("makefile"),
            text("makefile.first"),
            self.check("makefile"),
            self.check("makefile.first"),
            records,
            json.loads(text("map.json") or '{"nodes":{}}')["nodes"],
            text("import.log"),
        )

    def check(self, name: str) -> list[str]:
        """The lines of `mkcheck check` over what the importer left."""
        makefile, book = f".mkcheck/{name}", ".mkcheck/footprint.json"
        if not (self.folder / makefile).exists() or not (self.folder / book).exists():
            return []
        done = subprocess.run(
            [MKCHECK, "check", "-f", makefile, "-b", book],
            cwd=self.folder,
            capture_output=True,
            text=True,
            check=False,
        )
        return done.stdout.splitlines()

    # Experiments

    def make(self, folder: Path, *words: str) -> subprocess.CompletedProcess[str]:
        """Runs GNU make in a copy of the folder."""
        assert MAKE is not None
        return subprocess.run(
            [MAKE, *words],
            cwd=folder / self.below,
            env=ENVIRONMENT,
            capture_output=True,
            text=True,
            check=False,
        )

    def copied(self, name: str, origin: Path | None = None) -> Path:
        """A fresh copy of the folder, or of another one."""
        path = self.scratch / name
        shutil.rmtree(path, ignore_errors=True)
        shutil.copytree(origin or self.folder, path, symlinks=True)
        return path

    def built(self, *words: str) -> Path:
        """A copy in which make has built twice, so that it knows all that it will know."""
        path = self.copied("built")
        for _ in range(2):
            done = self.make(path, *words)
            self.assertEqual(done.returncode, 0, done.stdout + done.stderr)
        return path

    def stamps(self, folder: Path, names: list[str]) -> list[int | None]:
        """The times of files; none for a file that isn't there."""
        paths = [folder / name for name in names]
        return [path.stat().st_mtime_ns if path.exists() else None for path in paths]

    def rebuilds(self, built: Path, touched: list[str], outputs: list[str], *words: str) -> bool:
        """Whether make makes one of the outputs anew when files are touched."""
        folder = self.copied("tried", built)
        before = self.stamps(folder, outputs)
        wait_for_later_stamps(folder)
        for name in touched:
            os.utime(folder / name)
        done = self.make(folder, *words)
        self.assertEqual(done.returncode, 0, done.stdout + done.stderr)
        return self.stamps(folder, outputs) != before

    def sources(self, answer: Answer, name: str) -> list[str]:
        """A file, or what the recipe that writes it reads from the folder, down to sources."""
        writers = [record for record in answer.records.values() if name in record.writes]
        if not writers:
            return [name]
        reads = [one for one in writers[0].reads if not one.startswith(SYSTEM)]
        return [one for read in reads for one in self.sources(answer, read)]

    def try_answer(self, answer: Answer, *words: str) -> None:
        """Tries each finding and each way under GNU make itself."""
        built = self.built(*words)
        for finding in answer.findings:
            kind, recipe, *names = finding.split(" ")[1:]
            with self.subTest(finding):
                if kind == "stale":
                    outputs = answer.records[recipe].writes
                    touched = self.sources(answer, names[0])[:1]
                    self.assertFalse(self.rebuilds(built, touched, outputs, *words))
                elif kind == "race":
                    self.assertTrue(
                        any(
                            self.begins_early(answer, recipe, names[0], seconds, *words)
                            for seconds in SECONDS_OF_SLOW
                        )
                    )
        for recipe, file, *_ in answer.ways:
            outputs = [one for one in answer.records[recipe].writes if (built / one).exists()]
            if outputs:
                with self.subTest(way=(recipe, file)):
                    touched = self.sources(answer, file)[:1]
                    self.assertTrue(self.rebuilds(built, touched, outputs, *words))

    def begins_early(
        self, answer: Answer, recipe: str, writer: str, seconds: float, *words: str
    ) -> bool:
        """Whether make with jobs begins a recipe before a writer has ended that takes so long."""
        folder = self.copied("raced")
        log, shell = self.scratch / "shell.log", self.scratch / "shell"
        log.write_text("")
        word = command_of(answer, writer)
        text = SLOW.replace("@LOG@", str(log)).replace("@SECONDS@", str(seconds))
        shell.write_text(text.replace("@WORD@", word.replace("'", "'\\''")))
        shell.chmod(0o755)
        self.make(folder, "-j8", f"SHELL={shell}", *words)
        lines = log.read_text().splitlines()
        early = [line for line in lines if command_of(answer, recipe) in line]
        ends = [at for at, one in enumerate(lines) if one.startswith("end ") and word in one]
        return bool(early) and lines.index(early[0]) < min([*ends, len(lines)])


def command_of(answer: Answer, recipe: str) -> str:
    """The first command of a recipe as make's own shell gets it."""
    text = answer.records[recipe].commands[0].splitlines()[0]
    return re.sub(r"^-?(cd \S+; )?(export [^;]*; )?(set \+e; )?", "", text)
