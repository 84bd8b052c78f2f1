"""The programs of an installed package, in an environment that has nothing else."""

from __future__ import annotations

import importlib.util
import json
import os
import shutil
import subprocess
import sys
import tempfile
import unittest
from pathlib import Path

from recorder.project import MKCHECK, ROOT, ProjectTest, traced

INSTALL = ("-m", "pip", "install", "-q", "--no-index", "--no-build-isolation")


def environment() -> Path | None:
    """A fresh environment with the package; None where the system lacks what makes one."""
    if importlib.util.find_spec("ensurepip") is None:
        return None
    folder = Path(tempfile.mkdtemp(prefix="installed-test-"))
    made = subprocess.run(
        [sys.executable, "-m", "venv", str(folder)], capture_output=True, check=False
    )
    if made.returncode != 0:
        shutil.rmtree(folder)
        return None
    return folder


@traced
class InstalledTest(ProjectTest):
    """`pip install ./tools`, and each program once."""

    folder_of_environment: Path | None

    @classmethod
    def setUpClass(cls) -> None:
        cls.folder_of_environment = environment()
        if cls.folder_of_environment is None:
            raise unittest.SkipTest("no venv with pip can be made")
        cls.addClassCleanup(shutil.rmtree, cls.folder_of_environment)
        python = str(cls.folder_of_environment / "bin" / "python")
        words = [python, *INSTALL, str(ROOT / "tools")]
        done = subprocess.run(words, capture_output=True, text=True, check=False)
        assert done.returncode == 0, done.stdout + done.stderr

    def program(self, name: str, *words: str) -> subprocess.CompletedProcess[str]:
        """Runs a program of the environment in the project."""
        assert self.folder_of_environment is not None
        given = {name: value for name, value in os.environ.items() if not name.startswith("MAKE")}
        return subprocess.run(
            [str(self.folder_of_environment / "bin" / name), *words],
            cwd=self.folder,
            env={**given, "MKCHECK": MKCHECK, "PYTHONPATH": ""},
            capture_output=True,
            text=True,
            check=False,
        )

    def test_recorder_and_report(self) -> None:
        self.write({"makefile": "b: a\n\tcp a b\na: s\n\tcp s a\n", "s": "1\n"})
        done = self.program("mkcheck-record", "-o", str(self.book), "--no-replay")
        self.assertEqual(done.returncode, 0, done.stderr)
        records = json.loads(self.book.read_text())["records"]
        self.assertEqual([record["target"] for record in records], ["a", "b"])
        done = self.program("mkcheck-report", "-b", str(self.book), "-o", "page.html")
        self.assertEqual(done.returncode, 0, done.stderr)
        self.assertIn("yes", (self.folder / "page.html").read_text())

    @unittest.skipUnless(shutil.which("make"), "no make")
    def test_importer(self) -> None:
        self.write({"Makefile": "b: a\n\tcp a b\na: s\n\tcp s a\n", "s": "1\n"})
        done = self.program("mkcheck-import", "--no-replay")
        self.assertEqual(done.returncode, 0, done.stdout + done.stderr)
        self.assertTrue(done.stdout.startswith("yes"), done.stdout)
