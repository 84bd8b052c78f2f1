"""Measures `mkcheck check -w` beside `mkcheck check`, and prints a table.

The builds are those of `repairs.py`, which all have findings. Instructions are those of one run.
"""

import os
import sys
from collections.abc import Callable
from pathlib import Path

from instructions import counter
from repairs import SHAPES
from run import DATA, executable, options
from spending import spent
from verdicts import Build, written

# What is to be reached. The table shows it; no figure makes the run fail.
RATIO_BOUND = 1.3
MEMORY_BOUND = 1.5


def measured(
    program: str, build: Build, count: Callable[[list[str], int], int]
) -> tuple[float, list[int], list[float]]:
    """The megabytes that are read; then of `check -w` and of `check` the instructions in millions,
    and the peak memory in megabytes."""
    makefile, book = written(build, "whole")
    check = [program, "check", "-f", makefile.name, "-b", book.name]
    commands = [[*check, "-w"], check]
    size = (makefile.stat().st_size + book.stat().st_size) / 2**20
    taken = [count(command, 1) // 10**6 for command in commands]
    return size, taken, [spent(command, {1}, Path(os.devnull)).memory for command in commands]


def main() -> None:
    parser = options(__doc__)
    parser.add_argument("--shape", action="append", help="this build alone; as often as is needed")
    given = parser.parse_args()
    program = str(executable(given.program))
    DATA.mkdir(exist_ok=True)
    os.chdir(DATA)
    count = counter()
    print(f"instructions of one run in millions; {program}")
    columns = f"{'check -w':>10}{'check':>8}{'ratio':>7}"
    print(f"{'build':<20}{'MB':>6}{columns}{'-w MB':>9}{'check MB':>10}{'ratio':>7}")
    for label, build, _status in SHAPES:
        if given.shape and label not in given.shape:
            continue
        size, (own, other), (memory, peak) = measured(program, build(), count)
        print(
            f"{label:<20}{size:>6.1f}{own:>10}{other:>8}{own / other:>7.2f}"
            f"{memory:>9.1f}{peak:>10.1f}{memory / peak:>7.2f}",
            flush=True,
        )
    print(f"{'at most':<44}{RATIO_BOUND:>7.2f}{MEMORY_BOUND:>26.2f}")


if __name__ == "__main__":
    sys.exit(main())
