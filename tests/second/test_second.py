"""Compares mkcheck with the second program over some hundred random cases of each command, of one
seed."""

from __future__ import annotations

import os
import subprocess
import sys
from pathlib import Path

HERE = Path(__file__).resolve().parent
MKCHECK = os.path.abspath(os.environ.get("MKCHECK", HERE.parents[1] / "bin" / "mkcheck"))


def test_both_programs_answer_the_same() -> None:
    """`compare.py` prints the cases that differ, and where it keeps their files."""
    command = [sys.executable, str(HERE / "compare.py"), MKCHECK, "--gate"]
    done = subprocess.run(command, stdout=subprocess.PIPE, stderr=subprocess.STDOUT, check=False)
    assert done.returncode == 0, done.stdout.decode(errors="replace")
