"""Lines of `mkcheck repair` that are appended after makes with one job need no clean build."""

from __future__ import annotations

import os
import shutil
import subprocess
import unittest
from pathlib import Path

from recorder.project import MKCHECK, ProjectTest, compiled, traced

makes = [name for name in ("make", "bmake") if shutil.which(name)]

SOURCES = {
    "version.txt": "7\n",
    "util.h": "#define STEP 1\n",
    "main.c": '#include "version.h"\nint util(int x);\nint main(void) { return util(VERSION); }\n',
    "util.c": '#include "util.h"\nint util(int x) { return x + STEP; }\n',
}
# main.o lacks version.h, and util.o lacks util.h.
MAKEFILE = """\
all: version.h prog
version.h: version.txt
\tsed 's/.*/#define VERSION &/' version.txt > version.h
prog: main.o util.o
\tcc -o prog main.o util.o
main.o: main.c
\tcc -c main.c
util.o: util.c
\tcc -c util.c
"""
EDITS = ({"version.txt": "8\n"}, {"util.h": "#define STEP 2\n"}, {"version.txt": "9\n"})


@traced
@compiled
@unittest.skipUnless(makes, "no make")
class AddedTest(ProjectTest):
    """A project whose makefile lacks two prerequisites."""

    def edited(self, folder: Path, files: dict[str, str]) -> None:
        """Writes these files. What was there is made older, since some makes compare seconds."""
        for path in folder.iterdir():
            stamp = path.stat().st_mtime_ns - 10**10
            os.utime(path, ns=(stamp, stamp))
        for name, text in files.items():
            (folder / name).write_text(text)

    def lines(self) -> str:
        """The lines that `mkcheck repair` prints."""
        done = subprocess.run(
            [MKCHECK, "repair", "-b", str(self.book)],
            cwd=self.folder,
            capture_output=True,
            text=True,
            check=False,
        )
        self.assertEqual((done.stderr, done.returncode), ("", 0))
        return done.stdout

    def test_no_clean_build_is_needed_after_one_job(self) -> None:
        self.write({"makefile": MAKEFILE, **SOURCES})
        outcome = self.record()
        self.assertEqual(outcome.status, 0, outcome.errors)
        self.assertEqual(self.check()[0][:3], "no ", self.check())
        lines = self.lines()
        self.assertEqual(lines, "\nmain.o: version.h\nutil.o: util.h\n")
        for make in makes:
            with self.subTest(make):
                folder = self.scratch / f"built-{make}"
                folder.mkdir()
                texts = {"makefile": MAKEFILE, **SOURCES}
                self.edited(folder, texts)
                left = self.made_in(folder, make)
                for edit in EDITS:
                    texts.update(edit)
                    self.edited(folder, edit)
                    left = self.made_in(folder, make)
                texts["makefile"] = MAKEFILE + lines
                clean = self.scratch / f"clean-{make}"
                clean.mkdir()
                self.edited(clean, texts)
                right = self.made_in(clean, make)
                # The makefile as it was left stale files.
                self.assertNotEqual(left["main.o"], right["main.o"])
                self.assertNotEqual(left["util.o"], right["util.o"])
                self.edited(folder, {"makefile": MAKEFILE + lines})
                self.assertEqual(self.made_in(folder, make, "-j4"), right)
