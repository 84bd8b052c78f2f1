#!/usr/bin/env python3
"""Makes each tool a program of one file, which any Python from 3.11 on runs.

Usage: zipapps.py FOLDER

Each file in FOLDER holds the whole package `mkcheck_tools`, as text and compiled, and starts the
tool after which it is named, as `pip install ./tools` would. Files that are newer than the package
stay as they are.
"""

from __future__ import annotations

import compileall
import os
import py_compile
import shutil
import sys
import tempfile
import zipapp
from pathlib import Path

import tomllib

HERE = Path(__file__).resolve().parent
PACKAGE = HERE / "mkcheck_tools"


def is_up_to_date(program: Path) -> bool:
    """Whether a program is newer than all of the package."""
    sources = [HERE / "pyproject.toml", Path(__file__), PACKAGE, *PACKAGE.rglob("*")]
    newest = max(path.stat().st_mtime for path in sources if "__pycache__" not in path.parts)
    return program.exists() and program.stat().st_mtime > newest


def write(goal: Path, program: str, entry: str) -> None:
    """Writes one program, whole or not at all."""
    with tempfile.TemporaryDirectory(dir=goal) as scratch:
        staged = Path(scratch, "staged")
        shutil.copytree(
            PACKAGE, staged / PACKAGE.name, ignore=shutil.ignore_patterns("__pycache__")
        )
        compileall.compile_dir(
            staged,
            quiet=1,
            legacy=True,
            stripdir=staged,
            invalidation_mode=py_compile.PycInvalidationMode.UNCHECKED_HASH,
        )
        made = Path(scratch, program)
        zipapp.create_archive(
            staged, made, interpreter="/usr/bin/env python3", main=entry, compressed=True
        )
        made.chmod(0o755)
        os.replace(made, goal / program)


def main(arguments: list[str]) -> int:
    """Writes all programs that are out of date."""
    if len(arguments) != 1 or arguments[0].startswith("-"):
        print(__doc__, file=sys.stderr)
        return 2
    goal = Path(arguments[0])
    goal.mkdir(parents=True, exist_ok=True)
    with open(HERE / "pyproject.toml", "rb") as file:
        scripts: dict[str, str] = tomllib.load(file)["project"]["scripts"]
    for program, entry in scripts.items():
        if not is_up_to_date(goal / program):
            write(goal, program, entry)
    return 0


if __name__ == "__main__":
    sys.exit(main(sys.argv[1:]))
