"""A build folder that is kept over commits, as docs/CI.md has it: `mkcheck since` names what is to
be removed, and after that makes leave what clean builds leave."""

from __future__ import annotations

import os
import shutil
import subprocess
import unittest
from collections.abc import Sequence
from dataclasses import dataclass
from pathlib import Path

from recorder.project import MKCHECK, ProjectTest, compiled, traced

makes = [name for name in ("make", "bmake") if shutil.which(name)]


@dataclass(frozen=True)
class Commit:
    """A change of the project: texts of files, None for a file that is deleted, and the files that
    `mkcheck since` has to name then."""

    title: str
    files: dict[str, str | None]
    named: tuple[str, ...] = ()


def makefile(*, flags: str, goal: str = "prog", other: str = "util", more: Sequence[str]) -> str:
    """The project's makefile. `other` is the second source, and `more` has the prerequisites of
    main.o beside main.c, and then what other rules there are."""
    return (
        f"{goal}: main.o {other}.o\n\tcc -o {goal} main.o {other}.o\n"
        f"main.o: main.c {more[0]}\n\tcc {flags} -c main.c\n"
        f"{other}.o: {other}.c util.h\n\tcc {flags} -c {other}.c\n" + "".join(more[1:])
    )


def main(*headers: str, value: str = "0") -> str:
    """The text of main.c."""
    return "".join(f'#include "{name}"\n' for name in headers) + (
        f"int main(void) {{ return {value}; }}\n"
    )


UTIL = '#include "util.h"\nint util(int x) { int y = x + 1; return y * 2; }\n'
VERSION = "version.h: version.txt\n\tsed 's/.*/#define VERSION &/' version.txt > version.h\n"
COMMITS = (
    Commit(
        "the first",
        {
            "makefile": makefile(flags="-O0", more=["util.h"]),
            "main.c": main("util.h", value="util(1)"),
            "util.c": UTIL,
            "util.h": "int util(int);\n",
        },
    ),
    Commit(
        "a header more",
        {
            "makefile": makefile(flags="-O0", more=["util.h config.h"]),
            "main.c": main("util.h", "config.h", value="util(SIZE)"),
            "config.h": "#define SIZE 3\n",
        },
        ("main.o",),
    ),
    Commit(
        "a header less",
        {
            "makefile": makefile(flags="-O0", more=["util.h"]),
            "main.c": main("util.h", value="util(3)"),
            "config.h": None,
        },
        ("main.o",),
    ),
    Commit(
        "a source with another name",
        {
            "makefile": makefile(flags="-O0", other="tools", more=["util.h"]),
            "util.c": None,
            "tools.c": UTIL,
        },
        ("prog", "util.o"),
    ),
    Commit(
        "other flags",
        {"makefile": makefile(flags="-O1", other="tools", more=["util.h"])},
        ("main.o", "tools.o"),
    ),
    Commit(
        "an output at another place",
        {"makefile": makefile(flags="-O1", goal="app", other="tools", more=["util.h"])},
        ("prog",),
    ),
    Commit(
        "a generated header",
        {
            "makefile": makefile(
                flags="-O1", goal="app", other="tools", more=["util.h version.h", VERSION]
            ),
            "main.c": main("util.h", "version.h", value="util(VERSION)"),
            "version.txt": "7\n",
        },
        ("main.o",),
    ),
    Commit("an edit of what the header is made from", {"version.txt": "8\n"}),
    Commit(
        "the generated header is a source",
        {
            "makefile": makefile(
                flags="-O1", goal="app", other="tools", more=["util.h version.h"]
            ),
            "version.txt": None,
            "version.h": "#define VERSION 9\n",
        },
    ),
    Commit(
        "a prerequisite less",
        {
            "makefile": makefile(flags="-O1", goal="app", other="tools", more=["version.h"]),
            "main.c": main("version.h", value="VERSION"),
        },
        ("main.o",),
    ),
    Commit(
        "the flags of before",
        {"makefile": makefile(flags="-O0", goal="app", other="tools", more=["version.h"])},
        ("main.o", "tools.o"),
    ),
)


@traced
@compiled
@unittest.skipUnless(makes, "no make")
class CommitsTest(ProjectTest):
    """A project and its commits. Each make has a folder of its own that is kept."""

    def setUp(self) -> None:
        super().setUp()
        self.kept = self.scratch / "built"
        self.texts: dict[str, str] = {}

    def folder_of(self, make: str) -> Path:
        """The kept folder of a make."""
        folder = self.scratch / f"kept-{make}"
        folder.mkdir(exist_ok=True)
        return folder

    def check_out(self, commit: Commit) -> None:
        """Brings a commit's files into the project and into each kept folder. What was there is
        made older, since some makes compare whole seconds."""
        for folder in (self.folder, *map(self.folder_of, (*makes, "none"))):
            for path in folder.iterdir():
                stamp = path.stat().st_mtime_ns - 10**10
                os.utime(path, ns=(stamp, stamp))
            for name, text in commit.files.items():
                if text is None:
                    (folder / name).unlink()
                else:
                    (folder / name).write_text(text)
        changed: dict[str, str | None] = {**self.texts, **commit.files}
        self.texts = {name: text for name, text in changed.items() if text is not None}

    def made(self, folder: Path, make: str, *words: str) -> dict[str, bytes]:
        """The outputs that a make leaves in a folder."""
        outputs = self.made_in(folder, make, *words)
        return {name: text for name, text in outputs.items() if name not in self.texts}

    def clean(self, commit: int) -> dict[str, bytes]:
        """The outputs of a serial build from nothing."""
        folder = self.scratch / f"clean-{commit}"
        folder.mkdir()
        for name, text in self.texts.items():
            (folder / name).write_text(text)
        return self.made(folder, makes[0], "-j1")

    def record_commit(self, *words: str) -> None:
        """Brings the footprints up to date."""
        outcome = self.record_plainly("--update", str(self.book), *words)
        self.assertEqual(outcome.status, 0, outcome.errors)

    def named(self) -> tuple[str, ...]:
        """The files that `mkcheck since` names."""
        done = subprocess.run(
            [MKCHECK, "since", str(self.kept), "-b", str(self.book)],
            cwd=self.folder,
            capture_output=True,
            text=True,
            check=False,
        )
        self.assertEqual((done.stderr, done.returncode), ("", 0))
        return tuple(done.stdout.splitlines())

    def build(self, number: int, commit: Commit) -> dict[str, bytes]:
        """Records a commit, removes what is named, makes, and compares with a clean build, whose
        outputs are the result."""
        self.check_out(commit)
        self.record_commit()
        self.assertEqual(self.check()[0][:4], "yes ", self.check())
        named = self.named() if number else ()
        self.assertEqual(named, commit.named)
        clean = self.clean(number)
        for make in makes:
            folder = self.folder_of(make)
            for name in named:
                (folder / name).unlink(missing_ok=True)
            self.assertEqual(self.made(folder, make, "-j4"), clean, make)
        self.record_commit("--keep", str(self.kept))
        return clean

    def test_kept_folders_are_as_clean_ones(self) -> None:
        wrong = set()
        for number, commit in enumerate(COMMITS):
            with self.subTest(commit.title):
                clean = self.build(number, commit)
                left = self.made(self.folder_of("none"), makes[0], "-j1")
                if any(left.get(name) != text for name, text in clean.items()):
                    wrong.add(commit.title)
        # Where nothing is removed, both changes of flags leave old objects.
        self.assertLessEqual({"other flags", "the flags of before"}, wrong)
