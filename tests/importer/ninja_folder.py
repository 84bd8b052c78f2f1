"""Folders of ninja builds for the tests of the importer, and what ninja itself says of them."""

from __future__ import annotations

import json
import os
import re
import shutil
import subprocess
import tempfile
import unittest
from dataclasses import dataclass
from pathlib import Path

from mkcheck_tools.imports.builds import Build
from mkcheck_tools.imports.ninja import NinjaBuild, read_ninja
from mkcheck_tools.run.paths import RealPath, SeenPath
from mkcheck_tools.run.places import Place
from waits import wait_for_later_stamps

ROOT = Path(__file__).resolve().parents[2]
IMPORTER = ROOT / "bin" / "mkcheck-import"
MKCHECK = os.path.abspath(os.environ.get("MKCHECK", ROOT / "bin" / "mkcheck"))
ENVIRONMENT = {
    **{name: value for name, value in os.environ.items() if not name.startswith("MAKE")},
    "MKCHECK": MKCHECK,
}


def may_trace() -> bool:
    """Whether strace is there, and may trace."""
    strace = shutil.which("strace")
    words = [strace or "strace", "-o", os.devnull, "true"]
    if strace is None:
        return False
    return subprocess.run(words, capture_output=True, check=False).returncode == 0


has_ninja = unittest.skipUnless(shutil.which("ninja"), "no ninja")
can_judge = unittest.skipUnless(
    shutil.which("ninja") and may_trace() and os.access(MKCHECK, os.X_OK),
    "no ninja, no strace that may trace, or no mkcheck",
)


@dataclass(frozen=True)
class Answer:
    """What the importer says of a build."""

    text: str
    """What the importer printed."""

    makefile: str
    """The makefile of the first build, without its comment and special targets."""

    first: list[str]
    """What `check` prints for the first build."""

    later: list[str]
    """What `check` prints for later builds."""

    problems: list[str]
    notes: list[str]
    writes: dict[str, list[str]]
    """What each recipe writes."""

    @property
    def findings(self) -> list[str]:
        """The findings: of the first build all but stale reads, of later builds all others."""
        first = [line for line in self.first if line.startswith("no ") and " stale " not in line]
        return list(dict.fromkeys([*first, *(one for one in self.later if one.startswith("no "))]))

    @property
    def ways(self) -> list[list[str]]:
        """The words of the ways of a yes for later builds."""
        return [line.split(" ")[1:] for line in self.later if line.startswith("way ")]


class NinjaFolderTest(unittest.TestCase):
    """A test with a folder of its own."""

    def setUp(self) -> None:
        self.scratch = Path(tempfile.mkdtemp(prefix="import-test-")).resolve()
        self.addCleanup(shutil.rmtree, self.scratch)
        self.folder = self.scratch / "project"
        self.folder.mkdir()

    def write(self, files: dict[str, str]) -> None:
        """Writes files as they are, without a change of their newlines."""
        for name, text in files.items():
            path = self.folder / name
            path.parent.mkdir(parents=True, exist_ok=True)
            path.write_bytes(text.encode("utf-8", "surrogateescape"))

    def ninja(self, *words: str, folder: Path | None = None) -> subprocess.CompletedProcess[str]:
        """Runs ninja in the folder, or in another one.

        One job, since with several a build that has a race may fail.
        """
        return subprocess.run(
            ["ninja", "-j1", *words],
            cwd=folder or self.folder,
            capture_output=True,
            text=True,
            check=False,
        )

    def discovered(self) -> dict[str, list[str]]:
        """What ninja noted from dependency files: each output with its prerequisites."""
        found: dict[str, list[str]] = {}
        for block in self.ninja("-t", "deps").stdout.split("\n\n"):
            head, *lines = block.split("\n")
            if match := re.match(r"(.*): #deps ", head):
                found[match.group(1)] = [line.strip() for line in lines if line]
        return found

    def copied(self, name: str) -> Path:
        """A fresh copy of the folder."""
        path = self.scratch / name
        shutil.rmtree(path, ignore_errors=True)
        shutil.copytree(self.folder, path, symlinks=True)
        return path

    def translated(self, *words: str) -> Build:
        """The build as it is translated before ninja has built."""
        place = Place(RealPath(str(self.copied("copy"))), SeenPath(str(self.folder)))
        manifest, version = read_ninja(place, ".", words, ENVIRONMENT)
        return NinjaBuild(place, ".", manifest, version).translate(words)

    def made(self) -> Path:
        """A copy in which GNU make has built by the makefile of the last answer."""
        path = self.copied("made")
        makefile = str(self.scratch / "output" / "makefile")
        done = subprocess.run(
            ["make", "-r", "-f", makefile], cwd=path, capture_output=True, text=True, check=False
        )
        self.assertEqual(done.returncode, 0, done.stdout + done.stderr)
        return path

    def answer(self, *words: str, folder: str = ".", replay: bool = False) -> Answer:
        """Runs mkcheck-import on the folder, and asks mkcheck for all that it finds."""
        output = self.scratch / "output"
        shutil.rmtree(output, ignore_errors=True)
        program = ["python3", str(IMPORTER), "--from", "ninja", "-C", str(self.folder)]
        how = [] if replay else ["--no-replay"]
        before = self.listing()
        done = subprocess.run(
            [*program, "-S", folder, "-o", str(output), *how, *words],
            env=ENVIRONMENT,
            capture_output=True,
            text=True,
            check=False,
        )
        said = done.stdout + done.stderr
        self.assertEqual(self.listing(), before, "the import changed the project's folder")
        self.assertTrue((output / "footprint.json").exists(), said)
        later = self.check(output / "makefile", output)
        has_first = (output / "makefile.first").exists()
        first = self.check(output / "makefile.first", output) if has_first else later
        records = json.loads((output / "footprint.json").read_text())["records"]
        log = (output / "import.log").read_text().splitlines()
        text = (output / ("makefile.first" if has_first else "makefile")).read_text()
        lines = [
            line
            for line in text.splitlines()
            if not line.startswith(("#", ".POSIX:", ".SUFFIXES:"))
        ]
        problems = done.stdout.partition("Not judged:\n")[2].partition("\n\n")[0].splitlines()
        answer = Answer(
            done.stdout,
            "".join(f"{line}\n" for line in lines),
            first,
            later,
            [line.strip() for line in problems],
            [line.removeprefix("note: ") for line in log if line.startswith("note: ")],
            {record["target"]: record["writes"] for record in records},
        )
        expected = 1 if answer.findings else 4 if answer.problems else 0
        if answer.text.startswith("no answer: no recipe could be judged"):
            expected = 2
        self.assertEqual(done.returncode, expected, said)
        return answer

    def listing(self) -> dict[str, tuple[int, int]]:
        """The files and folders of the project, each with its time and its size."""
        paths = {path: path.lstat() for path in sorted(self.folder.rglob("*"))}
        return {str(path): (stat.st_mtime_ns, stat.st_size) for path, stat in paths.items()}

    def check(self, makefile: Path, output: Path) -> list[str]:
        """The lines of `mkcheck check` over one of the makefiles."""
        done = subprocess.run(
            [MKCHECK, "check", "-f", str(makefile), "-b", str(output / "footprint.json")],
            cwd=self.folder,
            capture_output=True,
            text=True,
            check=False,
        )
        return done.stdout.splitlines()

    # Experiments

    def stamps(self, folder: Path, names: list[str]) -> list[int | None]:
        """The times of files; none for a file that isn't there."""
        paths = [folder / name for name in names]
        return [path.stat().st_mtime_ns if path.exists() else None for path in paths]

    def built(self, *words: str, below: str = ".") -> Path:
        """A copy in which ninja has built, until nothing more is to be done or four times."""
        path = self.copied("built")
        for _ in range(4):
            done = self.ninja(*words, folder=path / below)
            self.assertEqual(done.returncode, 0, done.stdout)
            if "no work to do" in done.stdout:
                break
        return path

    def rebuilds(self, folder: Path, touched: list[str], outputs: list[str], *words: str) -> bool:
        """Whether ninja makes one of the outputs anew when files are touched."""
        before = self.stamps(folder, outputs)
        wait_for_later_stamps(folder)
        for name in touched:
            if (folder / name).exists():  # Ninja takes dependency files away.
                os.utime(folder / name)
        done = self.ninja(*words, folder=folder)
        self.assertEqual(done.returncode, 0, done.stdout)
        return self.stamps(folder, outputs) != before

    def try_answer(self, answer: Answer, *words: str) -> None:
        """Tries each finding and each way of an answer under ninja itself."""
        self.assertEqual(answer.problems, [])
        for finding in answer.findings:
            kind, recipe, *names = finding.split(" ")[1:]
            with self.subTest(finding):
                if kind == "race":
                    self.assertFalse(self.waits(recipe, names[0], answer), finding)
                elif kind == "stale":
                    built = self.built(*words)
                    again = self.rebuilds(built, [names[0]], answer.writes[recipe], *words)
                    self.assertFalse(again, finding)
        built = self.built(*words) if answer.ways else self.folder
        for recipe, file, end, *path in answer.ways:
            with self.subTest(f"way {recipe} {file} {end}"):
                ends: dict[str, list[str]] = {"source": [file], "always": []}
                touched = ends[end] if end in ends else answer.writes[path[-1]]
                again = self.rebuilds(built, touched, answer.writes[recipe], *words)
                self.assertTrue(again or not answer.writes[recipe], f"way {recipe} {file}")

    def waits(self, recipe: str, writer: str, answer: Answer) -> bool:
        """Whether ninja, asked for what a recipe writes, first runs the recipe of the writer."""
        fresh = self.copied("fresh")
        output = next(name for name in answer.writes[recipe] if not name.endswith((".d", ".rsp")))
        done = self.ninja("-n", "-d", "explain", output, folder=fresh)
        wanted = [f"output {name} " for name in answer.writes[writer]]
        return any(front in done.stdout + done.stderr for front in wanted)
