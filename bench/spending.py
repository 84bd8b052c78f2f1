"""Runs commands, and tells the processor time and the memory that they take."""

import os
import subprocess
import sys
from collections.abc import Callable
from dataclasses import dataclass
from pathlib import Path
from typing import TypeVar

Told = TypeVar("Told")

# What starts a command. The system counts the memory of a process from before its program starts,
# when it still shares what its parent holds. So the parent is a process that holds little: it has
# its figures in the last line of its errors.
STARTER = """
import os, sys
pid = os.posix_spawn(sys.argv[1], sys.argv[1:], os.environ)
_, status, usage = os.wait4(pid, 0)
taken = usage.ru_utime + usage.ru_stime
print(os.waitstatus_to_exitcode(status), taken, usage.ru_maxrss, sep="\\n", file=sys.stderr)
"""


@dataclass(frozen=True)
class Measure:
    """A processor time in milliseconds, and a peak memory in megabytes."""

    time: float
    memory: float


def spent(command: list[str], statuses: set[int], output: Path) -> Measure:
    """Runs a command, and ends the benchmark where it ends with another status."""
    # Nothing is handed down from a make that calls this script: its flags would change what the
    # peers do.
    environment = {"PATH": os.environ.get("PATH", os.defpath), "LC_ALL": "C"}
    with output.open("wb") as stream:
        done = subprocess.run(
            [sys.executable, "-I", "-S", "-c", STARTER, *command],
            env=environment,
            stdin=subprocess.DEVNULL,
            stdout=stream,
            stderr=subprocess.PIPE,
            text=True,
            check=True,
        )
    code, taken, peak = done.stderr.split("\n")[-4:-1]
    if int(code) not in statuses:
        sys.exit(f"bench: {' '.join(command)}: status {code}, output in {output}")
    return Measure(1000 * float(taken), int(peak) / 1024)


def in_turns(tasks: list[Callable[[], Told]], rounds: int) -> list[list[Told]]:
    """The results of each task, one for each round. The tasks take turns, so that a machine that
    grows slow slows all of them."""
    told = [[task() for task in tasks] for _ in range(rounds)]
    return [list(column) for column in zip(*told)]


def least(measures: list[Measure]) -> Measure:
    """What else the machine does takes from a run's time nothing and may add to it, so the least
    counts; of memory the most."""
    return Measure(min(one.time for one in measures), max(one.memory for one in measures))
