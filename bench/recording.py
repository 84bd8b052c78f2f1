"""Measures the recorder on the programs of examples/, beside a serial build of each in the same
run, and prints a table.

Each program is built by one job of make, recorded with its replay (`--update`, for the first time),
and updated without a change. The times are those of the clock, the least of some runs; behind them
that of the processors. The update comes some seconds after the recording, since the stamps of files
that changed just before aren't relied on.
"""

from __future__ import annotations

import argparse
import os
import resource
import shutil
import subprocess
import sys
import tempfile
import time
from dataclasses import dataclass
from pathlib import Path

ROOT = Path(__file__).resolve().parents[1]
RECORDER = ROOT / "bin" / "mkcheck-record"
# The folders of examples/ with the words that name their goals, and what each build needs.
PROGRAMS = {"lua": ("all",), "figlet": (), "awk": ()}
NEEDS = {"lua": ("ar",), "figlet": (), "awk": ("bison",)}
RUNS = 3
# How long until the stamps of files that a recording wrote are relied on.
SETTLING = 3.0
# The bounds of a recording and of an update without a change, in serial builds.
BOUNDS = (1.7, 0.1)


@dataclass(frozen=True)
class Spent:
    """What a command took: seconds of the clock, and of the processors."""

    clock: float
    processors: float


def spent(words: list[str], folder: Path) -> Spent:
    """What a command takes that has to end well."""
    before, begun = resource.getrusage(resource.RUSAGE_CHILDREN), time.monotonic()
    done = subprocess.run(words, cwd=folder, capture_output=True, text=True, check=False)
    clock, after = time.monotonic() - begun, resource.getrusage(resource.RUSAGE_CHILDREN)
    if done.returncode != 0:
        sys.exit(f"bench: {' '.join(words)}: status {done.returncode}\n{done.stderr}")
    used = after.ru_utime + after.ru_stime - before.ru_utime - before.ru_stime
    return Spent(clock, used)


def measured(name: str) -> tuple[Spent, Spent, Spent]:
    """What a serial build, a recording, and an update without a change take."""
    with tempfile.TemporaryDirectory() as scratch:
        folder, book = Path(scratch, name), Path(scratch, "footprint.json")
        update = [sys.executable, str(RECORDER), "--update", str(book), *PROGRAMS[name]]
        shutil.copytree(ROOT / "examples" / name, folder)
        built = Path(scratch, "built")
        shutil.copytree(folder, built)
        build = spent(["make", "-j1", *PROGRAMS[name]], built)
        recorded = spent(update, folder)
        time.sleep(SETTLING)
        spent(update, folder)
        return build, recorded, spent(update, folder)


def least(rows: list[Spent]) -> Spent:
    """The one that took least by the clock."""
    return min(rows, key=lambda one: one.clock)


def shown(one: Spent) -> str:
    """Seconds of the clock, and of the processors in brackets."""
    return f"{one.clock:7.2f} ({one.processors:6.2f})"


def main() -> None:
    """Measures all, and prints a line for each."""
    parser = argparse.ArgumentParser(description=__doc__)
    parser.add_argument("--runs", type=int, default=RUNS, help=f"how often, without it {RUNS}")
    runs = parser.parse_args().runs
    for name in ("MAKEFLAGS", "MAKELEVEL", "MFLAGS"):
        os.environ.pop(name, None)
    os.environ.setdefault("MKCHECK", str(ROOT / "bin" / "mkcheck"))
    print("program       build s           record s  ratio          update s  ratio")
    for name in PROGRAMS:
        missing = [one for one in ("strace", "gcc", *NEEDS[name]) if shutil.which(one) is None]
        if missing:
            print(f"{name:8} not measured, there is no {' and no '.join(missing)}")
            continue
        each = [measured(name) for _ in range(runs)]
        build, recorded, update = (least([row[number] for row in each]) for number in range(3))
        print(
            f"{name:8} {shown(build)} {shown(recorded)} {recorded.clock / build.clock:6.2f}"
            f" {shown(update)} {update.clock / build.clock:6.3f}",
            flush=True,
        )
    print(
        f"bounds, on four processors that do nothing else: {BOUNDS[0]} builds for a recording,"
        f" {BOUNDS[1]} for an update; the load was {os.getloadavg()[0]:.1f} on {os.cpu_count()}"
    )


if __name__ == "__main__":
    main()
