"""Projects for the tests of mkcheck-record, and what was recorded of them."""

from __future__ import annotations

import contextlib
import json
import os
import re
import shutil
import socket
import subprocess
import sys
import tempfile
import unittest
from collections.abc import Mapping
from dataclasses import dataclass, replace
from pathlib import Path
from typing import Any, Optional

ROOT = Path(__file__).resolve().parents[2]
RECORDER = ROOT / "bin" / "mkcheck-record"
MKCHECK = os.path.abspath(os.environ.get("MKCHECK", ROOT / "bin" / "mkcheck"))
UNTESTED = (
    "mkcheck-record: no recipe was run again (--no-replay), so nothing tests that each writes what"
    " it wrote this time, and from its recorded reads alone\n"
)
SYSTEM = ("/usr/", "/lib/", "/lib64/", "/bin/", "/etc/", "/opt/")
Environment = Mapping[str, Optional[str]]
# What stands before and behind the sentences on recipes that have no record.
COUNTED = re.compile(r"(?m)^mkcheck-record: recorded (\d+) of (\d+) recipes\n")
BEHIND = re.compile(
    r"(?m)^mkcheck-record: (when that is mended, mkcheck-record --update .* records the rest|.* is"
    r" still that of the recording before)\n"
)
# Lines of progress, which only a recording of over ten seconds has.
PROGRESS = re.compile(r"(?m)^\[(?:\w+ )?\d+/\d+(?: [\d:]+ left)?\] .*\n")
# What a make that runs the tests sets for them.
OF_MAKE: Environment = {"MAKEFLAGS": None, "MAKELEVEL": None, "MFLAGS": None}


def traces() -> bool:
    """Whether strace is there, and may trace."""
    strace = shutil.which("strace")
    return (
        strace is not None
        and subprocess.run(
            [strace, "-o", os.devnull, "true"], capture_output=True, check=False
        ).returncode
        == 0
    )


traced = unittest.skipUnless(
    traces() and os.access(MKCHECK, os.X_OK), "no strace that may trace, or no mkcheck"
)
compiled = unittest.skipUnless(shutil.which("cc") and shutil.which("ar"), "no compiler")


def free_port() -> int:
    """A port at which nobody serves, and that the system gives to nobody who asks for any port."""
    first = 20000 + 10 * (os.getpid() % 1000)
    for port in range(first, 32000):
        with socket.socket() as tried, contextlib.suppress(OSError):
            tried.bind(("127.0.0.1", port))
            return port
    raise AssertionError("no port is free")


@dataclass(frozen=True)
class Outcome:
    """What the recorder left: its status, its two texts, and footprints if it wrote some."""

    status: int
    output: str
    errors: str
    book: dict[str, Any] | None
    counts: tuple[int, int] | None = None
    """How many recipes of all are recorded, where some aren't; `errors` has only why."""

    behind: tuple[str, ...] = ()
    """What then is said in the end."""

    def lacks(self, *targets: str) -> bool:
        """Whether just these recipes have no record, or nothing was written since all failed."""
        recorded = [] if self.book is None else [one["target"] for one in self.book["records"]]
        counts = self.counts or (0, 0)
        is_counted = counts == (len(recorded), len(recorded) + len(targets))
        return self.status == 1 and is_counted and not set(targets) & set(recorded)

    @property
    def is_refused(self) -> bool:
        """Whether a recipe has no record, or all of them together can't be written."""
        return (self.status, self.output) == (1, "") and (bool(self.counts) or not self.book)

    @property
    def written(self) -> dict[str, Any]:
        """The footprints, which have to be there."""
        assert self.book is not None, self.errors
        return self.book

    def own(self, target: str) -> tuple[set[str], set[str]]:
        """What the recipe of a target reads and writes beside what is the system's."""
        record = next(one for one in self.written["records"] if one["target"] == target)
        reads, writes = set(record["reads"]), set(record["writes"])
        assert len(reads) == len(record["reads"]) and len(writes) == len(record["writes"]), record
        return {name for name in reads if not name.startswith(SYSTEM)}, writes

    def reads(self, target: str) -> list[str]:
        """All that the recipe of a target reads."""
        return next(one["reads"] for one in self.written["records"] if one["target"] == target)

    def warnings(self) -> list[str]:
        """The warnings, without what stands before each."""
        front = "mkcheck-record: warning: "
        return [line[len(front) :] for line in self.errors.splitlines() if line.startswith(front)]


class ProjectTest(unittest.TestCase):
    """A test with a folder of its own."""

    replays = False

    def setUp(self) -> None:
        self.scratch = Path(tempfile.mkdtemp(prefix="recorder-test-")).resolve()
        self.addCleanup(shutil.rmtree, self.scratch)
        self.folder = self.scratch / "project"
        self.folder.mkdir()
        self.book = self.scratch / "book.json"

    def write(self, files: dict[str, str]) -> None:
        """Writes files; one whose text begins with `#!` can be run."""
        for name, text in files.items():
            path = self.folder / name
            path.parent.mkdir(parents=True, exist_ok=True)
            path.write_text(text)
            if text.startswith("#!"):
                path.chmod(0o755)

    def record(self, *words: str, environment: Environment | None = None) -> Outcome:
        """Runs the recorder on the folder, for a file of footprints."""
        self.book.unlink(missing_ok=True)
        outcome = self.record_plainly("-o", str(self.book), *words, environment=environment)
        book = json.loads(self.book.read_text()) if self.book.exists() else None
        return replace(outcome, book=book)

    def record_plainly(self, *words: str, environment: Environment | None = None) -> Outcome:
        """Runs the recorder on the folder.

        Replays are left out, but for tests that say `replays = True`. `environment` has variables
        that are set besides, and None for those that aren't.
        """
        unplayed = () if self.replays or "--no-replay" in words else ("--no-replay",)
        given: Environment = {
            **os.environ,
            **OF_MAKE,
            "MKCHECK": MKCHECK,
            **(environment or {}),
        }
        done = subprocess.run(
            [sys.executable, str(RECORDER), "-C", str(self.folder), *unplayed, *words],
            env={name: value for name, value in given.items() if value is not None},
            capture_output=True,
            text=True,
            check=False,
        )
        errors = PROGRESS.sub("", done.stderr)
        errors = errors if not unplayed else errors.replace(UNTESTED, "")
        counted = COUNTED.search(errors)
        counts = None if counted is None else (int(counted[1]), int(counted[2]))
        behind = tuple(BEHIND.findall(errors))
        errors = BEHIND.sub("", COUNTED.sub("", errors))
        return Outcome(done.returncode, done.stdout, errors, None, counts, behind)

    def recorded(self, *words: str, environment: Environment | None = None) -> Outcome:
        """Runs the recorder, which has to succeed."""
        outcome = self.record(*words, environment=environment)
        self.assertEqual((outcome.status, outcome.output), (0, ""), outcome.errors)
        return outcome

    def made_in(self, folder: Path, make: str, *words: str) -> dict[str, bytes]:
        """What stands in a folder after a make of it, which has to succeed."""
        given: Environment = {**os.environ, **OF_MAKE}
        done = subprocess.run(
            [make, *words],
            cwd=folder,
            env={name: value for name, value in given.items() if value is not None},
            stdout=subprocess.PIPE,
            stderr=subprocess.STDOUT,
            text=True,
            check=False,
        )
        self.assertEqual(done.returncode, 0, done.stdout)
        return {path.name: path.read_bytes() for path in folder.iterdir()}

    def check(self, *words: str) -> list[str]:
        """The lines of `mkcheck check` over what was recorded."""
        done = subprocess.run(
            [MKCHECK, "check", "-b", str(self.book), *words],
            cwd=self.folder,
            capture_output=True,
            text=True,
            check=False,
        )
        return done.stdout.splitlines()
