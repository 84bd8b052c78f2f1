"""Measures `mkcheck repair` beside `mkcheck check`, and prints a table.

Of a build that lines mend it is held against `check` of the makefile as it is and of the one with
these lines, added up, and its memory against that of the latter. Of a build that has findings
without a word it is held against `check` alone. Instructions are those of one run.
"""

import os
import sys
from collections.abc import Callable
from dataclasses import replace
from pathlib import Path

from certificates import unknown
from instructions import counter
from run import DATA, asked
from spending import spent
from verdicts import COMPILE, Build, forgotten, waiting, written

# What is to be reached. The table shows it; no figure makes the run fail.
RATIO_BOUND = 1.3
MEMORY_BOUND = 1.5


def mixed(build: Build) -> Build:
    """The build, where each recipe reads 40 files of the system too."""
    system = [f"/usr/include/library/h{number}.h" for number in range(40)]
    records = [(target, commands, [*reads, *system]) for target, commands, reads in build.records]
    return replace(build, records=records, fixed=["/usr/"])


SHAPES: list[tuple[str, Callable[[], Build], int]] = [
    ("forgotten 2000", lambda: forgotten(2000, COMPILE), 0),
    ("forgotten, system", lambda: mixed(forgotten(2000, COMPILE)), 0),
    ("waiting 1900", lambda: waiting(1900, COMPILE), 0),
    ("waiting, system", lambda: mixed(waiting(1900, COMPILE)), 0),
    ("unknown 4000", lambda: unknown(4000), 1),
]


def amended(makefile: Path, lines: Path) -> Path:
    """The makefile with these lines appended."""
    file = makefile.with_name("amended.mk")
    file.write_bytes(makefile.read_bytes() + lines.read_bytes())
    return file


def measured(
    program: str, build: Build, status: int, count: Callable[[list[str], int], int]
) -> tuple[float, list[int], list[float]]:
    """The megabytes that are read; then of `repair`, of `check`, and of `check` of the amended
    makefile: the instructions in millions, and the peak memory in megabytes."""
    makefile, book = written(build, "whole")
    lines = DATA / "lines"
    repair = [program, "repair", "-f", makefile.name, "-b", book.name]
    spent(repair, {status}, lines)
    commands = [(repair, status), ([program, "check", *repair[2:]], 1)]
    if status == 0:
        file = amended(makefile, lines)
        commands.append(([program, "check", "-f", file.name, "-b", book.name], 0))
    size = (makefile.stat().st_size + book.stat().st_size) / 2**20
    taken = [count(command, ended) // 10**6 for command, ended in commands]
    nothing = Path(os.devnull)
    return size, taken, [spent(command, {ended}, nothing).memory for command, ended in commands]


def main() -> None:
    program = asked(__doc__)[0].path
    DATA.mkdir(exist_ok=True)
    os.chdir(DATA)
    count = counter()
    print(f"instructions of one run in millions; {program}")
    columns = f"{'repair':>8}{'check':>8}{'amended':>9}{'ratio':>7}"
    print(f"{'build':<20}{'MB':>6}{columns}{'repair MB':>11}{'check MB':>10}{'ratio':>7}")
    for label, build, status in SHAPES:
        size, (own, *others), (memory, *peaks) = measured(program, build(), status, count)
        second = f"{others[1]:>9}" if status == 0 else " " * 9
        print(
            f"{label:<20}{size:>6.1f}{own:>8}{others[0]:>8}{second}{own / sum(others):>7.2f}"
            f"{memory:>11.1f}{peaks[-1]:>10.1f}{memory / peaks[-1]:>7.2f}",
            flush=True,
        )
    print(f"{'at most':<51}{RATIO_BOUND:>7.2f}{MEMORY_BOUND:>28.2f}")


if __name__ == "__main__":
    sys.exit(main())
