"""Measures `mkcheck graph` beside `make -n` and `bmake -n` on large texts, and prints a table."""

import os
import subprocess
import sys
from dataclasses import dataclass

from generate import BOOK, SUFFIXES_BOOK, Generated
from run import DATA, HERE, RUNS, Case, Tool, asked, measure, ratio
from spending import Measure

# What is to be reached. The table shows it; no figure makes the run fail.
RATIO_BOUND = 1.00
GROWTH_BOUND = 2.3
MEMORY_BOUND = 10.0

# Each shape, and its largest size.
SHAPES = {"long": 260, "includes": 990, "macros": 2800, "infer": 2000, "suffixes": 4000}

# The shapes that mkcheck alone is measured on, since others take minutes.
ALONE = {"suffixes"}

# From this many megabytes on, a text is held against the memory: a process has some 13 before it
# reads one.
LARGE = 2

# What mkcheck is asked beside the makefile.
WORDS = {"infer": ("-b", BOOK), "suffixes": ("-b", SUFFIXES_BOOK)}


@dataclass(frozen=True)
class Text:
    """A case whose makefile is written, and left out here, and the size of its texts in megabytes."""

    case: Case
    size: float


def written(shape: str, count: int) -> Text:
    """Writes a makefile, by a process of its own, which takes its memory with it."""
    label = f"{shape} {count}"
    command = [
        sys.executable,
        HERE / "generate.py",
        "--into",
        Case(label, Generated("", 0, 0)).file,
        shape,
        str(count),
    ]
    done = subprocess.run(command, capture_output=True, text=True, check=True)
    nodes, recipes, size = map(int, done.stdout.split())
    return Text(
        Case(label, Generated("", nodes, recipes), words=WORDS.get(shape, ())), size / 2**20
    )


def row(
    text: Text, measured: list[Tool], figures: dict[str, Measure], half: dict[str, Measure]
) -> str:
    """The growth is against a makefile of half the size."""
    own = figures["mkcheck"]
    shown = [f"{figures[tool.name].time:.1f}" if tool.name in figures else "-" for tool in measured]
    times = "".join(f"{time:>11}" for time in shown)
    growth = own.time / half["mkcheck"].time
    by_text = f"{own.memory / text.size:>9.1f}" if text.size >= LARGE else ""
    return f"{text.case.label:<18}{text.size:>6.1f}{times}{ratio(figures):>8}{growth:>8.1f}{own.memory:>11.0f}{by_text}"


def show(shape: str, count: int, measured: list[Tool]) -> None:
    """Measures a shape at half of its largest size and at that, and prints a row."""
    taken = measured[:1] if shape in ALONE else measured
    before = measure(written(shape, count // 2).case, taken)
    text = written(shape, count)
    print(row(text, measured, measure(text.case, taken), before), flush=True)


def main() -> None:
    measured = asked(__doc__)
    DATA.mkdir(exist_ok=True)
    os.chdir(DATA)
    print(f"processor time, least of {RUNS} runs; {', '.join(tool.path for tool in measured)}")
    columns = [f"{'makefile':<18}{'MB':>6}", *(f"{tool.name + ' ms':>11}" for tool in measured)]
    print("".join([*columns, f"{'ratio':>8}{'growth':>8}{'memory MB':>11}{'by text':>9}"]))
    for shape, count in SHAPES.items():
        show(shape, count, measured)
    print(
        f"{'at most':<{24 + 11 * len(measured)}}{RATIO_BOUND:>8.2f}{GROWTH_BOUND:>8.1f}{MEMORY_BOUND:>20.1f}"
    )


if __name__ == "__main__":
    main()
