"""Small projects for the tests of mkcheck-audit, and what it says of them."""

from __future__ import annotations

import json
import os
import shutil
import subprocess
import sys
from collections.abc import Mapping
from dataclasses import dataclass
from pathlib import Path
from typing import Any

import pytest

ROOT = Path(__file__).resolve().parents[2]
AUDIT = ROOT / "bin" / "mkcheck-audit"
MKCHECK = os.path.abspath(os.environ.get("MKCHECK", ROOT / "bin" / "mkcheck"))
# What a make that runs the tests, a CI job or a terminal would change.
UNWANTED = ("MAKEFLAGS", "MAKELEVEL", "MFLAGS", "GNUMAKEFLAGS", "CI", "GITHUB_ACTIONS", "NO_COLOR")
# A build whose objects don't name the header that they include: GNU make's language, and POSIX's.
GNU = """\
objects := $(patsubst %.c,%.o,$(wildcard *.c))
prog: $(objects)
\tcc -o $@ $(objects)
%.o: %.c
\tcc -c $<
"""
POSIX = """\
prog: main.o part.o
\tcc -o prog main.o part.o
main.o: main.c
\tcc -c main.c
part.o: part.c
\tcc -c part.c
"""
SOURCES = {
    "part.h": "int part(void);\n",
    "main.c": '#include "part.h"\nint main(void) { return part(); }\n',
    "part.c": '#include "part.h"\nint part(void) { return 0; }\n',
}


def may_trace() -> bool:
    """Whether strace is there, and may trace."""
    strace = shutil.which("strace")
    if strace is None:
        return False
    words = [strace, "-o", os.devnull, "true"]
    return subprocess.run(words, capture_output=True, check=False).returncode == 0


can_record = pytest.mark.skipif(
    not (may_trace() and shutil.which("cc") and os.access(MKCHECK, os.X_OK)),
    reason="no strace that may trace, no compiler, or no mkcheck",
)
can_import = pytest.mark.skipif(
    not (may_trace() and shutil.which("cc") and shutil.which("make")),
    reason="no strace that may trace, no compiler, or no make",
)


@dataclass(frozen=True)
class Outcome:
    """What mkcheck-audit left: its status, and its two texts."""

    status: int
    output: str
    errors: str

    @property
    def value(self) -> Any:
        """The value that it printed as JSON."""
        return json.loads(self.output)


@dataclass(frozen=True)
class Project:
    """A folder of a project."""

    folder: Path

    def write(self, files: dict[str, str]) -> None:
        """Writes files."""
        for name, text in files.items():
            path = self.folder / name
            path.parent.mkdir(parents=True, exist_ok=True)
            path.write_bytes(text.encode())

    def text(self, name: str) -> str:
        """What a file holds."""
        return (self.folder / name).read_bytes().decode()

    def audit(
        self,
        *words: str,
        replay: bool = False,
        environment: Mapping[str, str] | None = None,
        **more: str,
    ) -> Outcome:
        """Runs mkcheck-audit. The recorder's replay is left out but where it is asked for."""
        outer = {name: value for name, value in os.environ.items() if name not in UNWANTED}
        done = subprocess.run(
            [sys.executable, str(AUDIT), *([] if replay else ["--no-replay"]), *words],
            cwd=self.folder,
            env={**outer, "MKCHECK": MKCHECK, **(environment or {}), **more},
            stdin=subprocess.DEVNULL,
            capture_output=True,
            check=False,
        )
        outcome = Outcome(done.returncode, done.stdout.decode(), done.stderr.decode())
        assert "Traceback" not in outcome.errors, outcome.errors
        assert "mistake of" not in outcome.errors, outcome.errors
        return outcome

    def make(self, goal: str) -> None:
        """Makes a goal in the folder."""
        subprocess.run(["make", "-s", goal], cwd=self.folder, check=True, capture_output=True)

    def makes_again(self, goal: str, touched: str) -> bool:
        """Whether GNU make makes a goal again, in a copy that is built, when a file is touched."""
        copied = self.folder.with_name("built")
        shutil.rmtree(copied, ignore_errors=True)
        shutil.copytree(self.folder, copied, ignore=shutil.ignore_patterns(".mkcheck"))
        make = ["make", "-s", goal]
        subprocess.run(make, cwd=copied, check=True, capture_output=True)
        made = (copied / goal).stat().st_mtime_ns
        later = made + 2_000_000_000
        os.utime(copied / touched, ns=(later, later))
        return subprocess.run([*make[:1], "-q", goal], cwd=copied, check=False).returncode != 0
