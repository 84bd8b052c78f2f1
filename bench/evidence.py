"""Measures `mkcheck check -e 1`, which prints a plan that shows the first finding, beside `mkcheck
check`.

The growth is the time of the former divided by its own on half the targets, and that of the plan
its size divided so. Nothing shows a recipe without record, or a read of a file of which nothing is
known: there the answer is `no plan`.
"""

import os
import sys
from pathlib import Path

from certificates import unknown, unrecorded
from generate import recipe
from run import DATA, RUNS, asked
from spending import in_turns, least, spent
from verdicts import GROWTH_BOUND, Build, forgotten, silent, waiting, written

# What is to be reached. The table shows it; no figure makes the run fail.
RATIO_BOUND = 2.0


def racing(count: int) -> Build:
    """Targets that read the file of the last one, which nothing makes before them."""
    names = [f"r{number}" for number in range(count)]
    last = names[-1]
    text = f"all: {' '.join(names[:2000])}\nall: {' '.join(names[2000:])}\n" + "".join(
        recipe(name, []) for name in names
    )
    records = [(name, [f"touch {name}"], [] if name == last else [last]) for name in names]
    return Build(text, [], records)


NO_PLAN = "no plan\n"
SHAPES = [
    (forgotten, 1000, 2000),
    (waiting, 950, 1900),
    (racing, 2000, 4000),
    (unrecorded, 2000, 4000),
    (unknown, 2000, 4000),
]


def prepared(program: str, build: Build, label: str) -> tuple[list[str], int]:
    """The command `check` of a build, and the size of the plan that `-e 1` gives, which is
    simulated."""
    makefile, book = written(build, label)
    check = [program, "check", "-f", makefile.name, "-b", book.name]
    plan = DATA / "evidence.plan"
    spent([*check, "-e", "1"], {1}, plan)
    if plan.read_text() != NO_PLAN:
        spent([program, "simulate", *check[2:], "-p", plan.name], {0}, Path(os.devnull))
    return check, plan.stat().st_size


def main() -> None:
    program = asked(__doc__)[0].path
    DATA.mkdir(exist_ok=True)
    os.chdir(DATA)
    print(f"processor time, least of {RUNS} runs; {program}")
    print(
        f"{'build':<18}{'check ms':>10}{'-e 1 ms':>10}{'ratio':>7}{'growth':>8}{'half KB':>10}{'plan KB':>10}{'growth':>8}"
    )
    for shape, smaller, count in SHAPES:
        small, fewer = prepared(program, shape(smaller), "half")
        check, size = prepared(program, shape(count), "whole")
        commands = [[*small, "-e", "1"], check, [*check, "-e", "1"]]
        taken = in_turns([silent(command, 1) for command in commands], RUNS)
        half, plain, shown = (least(runs).time for runs in taken)
        label = f"{shape.__name__} {count}"
        times = f"{label:<18}{plain:>10.1f}{shown:>10.1f}{shown / plain:>7.2f}{shown / half:>8.1f}"
        print(f"{times}{fewer / 1024:>10.1f}{size / 1024:>10.1f}{size / fewer:>8.2f}", flush=True)
    print(f"{'at most':<38}{RATIO_BOUND:>7.2f}{GROWTH_BOUND:>8.1f}{GROWTH_BOUND:>28.2f}")


if __name__ == "__main__":
    sys.exit(main())
