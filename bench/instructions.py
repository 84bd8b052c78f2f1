"""Counts the instructions that a program takes, which says more than times on a machine that does
other work."""

import os
import re
import shutil
import subprocess
import sys
from collections.abc import Callable
from pathlib import Path

TOLD = Path("instructions")
ENVIRONMENT = {"PATH": os.environ.get("PATH", os.defpath), "LC_ALL": "C"}


def by_perf(command: list[str]) -> list[str]:
    """The command under the counter of the processor."""
    return ["perf", "stat", "-x", ",", "-e", "instructions:u", "-o", str(TOLD), "--", *command]


def by_valgrind(command: list[str]) -> list[str]:
    """The command under valgrind, which counts the same, some twenty times slower."""
    return [
        "valgrind",
        "--tool=cachegrind",
        "--cache-sim=no",
        "--cachegrind-out-file=/dev/null",
        f"--log-file={TOLD}",
        *command,
    ]


def counted(
    around: Callable[[list[str]], list[str]], command: list[str], status: int
) -> int | None:
    """How many instructions of its own the command takes, where it ends with the status and they
    are told."""
    done = subprocess.run(
        around(command),
        env=ENVIRONMENT,
        stdin=subprocess.DEVNULL,
        stdout=subprocess.DEVNULL,
        stderr=subprocess.PIPE,
        check=False,
    )
    if done.returncode != status:
        sys.exit(f"bench: {' '.join(command)}: status {done.returncode}")
    found = re.search(r"^(\d+),|I +refs: +([\d,]+)", TOLD.read_text(), re.MULTILINE)
    return int((found[1] or found[2]).replace(",", "")) if found else None


def counter() -> Callable[[list[str], int], int]:
    """The counter of the processor where perf may read it, else valgrind."""
    for around in (by_perf, by_valgrind):
        if shutil.which(around([])[0]) and counted(around, ["/bin/sh", "-c", ":"], 0) is not None:
            return lambda command, status: counted(around, command, status) or 0
    sys.exit("bench: neither perf nor valgrind counts instructions here")
