"""Makes the tools that the tests run, once for all workers."""

from __future__ import annotations

import subprocess
import sys
from pathlib import Path

import pytest

ROOT = Path(__file__).resolve().parents[1]


def pytest_configure(config: pytest.Config) -> None:
    """Brings bin/mkcheck-record and the other tools up to date, before any worker begins."""
    if not hasattr(config, "workerinput"):
        words = [sys.executable, str(ROOT / "tools" / "zipapps.py"), str(ROOT / "bin")]
        subprocess.run(words, check=True)
