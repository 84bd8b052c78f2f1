"""Measures `mkcheck since` beside `mkcheck check` of the new build, and prints a table.

The old build is the same one, so that nothing is named, or one with other commands, so that each
file that a recipe wrote is named. Instructions are those of one run.
"""

import os
import sys
from collections.abc import Callable
from dataclasses import replace
from functools import partial
from pathlib import Path

from instructions import counter
from run import DATA, asked
from spending import spent
from verdicts import COMPILE, OPTIONS, Build, Style, inferred, layered, linked, written

# What is to be reached. The table shows it; no figure makes the run fail.
RATIO_BOUND = 2.2
MEMORY_BOUND = 2.0

OTHER = f"{OPTIONS} -Wno-other"
OTHERWISE = replace(
    COMPILE,
    head=f"CC = cc\nCFLAGS = {OTHER}\n",
    recorded=lambda target, files: " ".join([f"cc {OTHER} -c -o {target}", *files]),
)

SHAPES: list[tuple[str, Callable[[Style], Build]]] = [
    ("inferred 2000", partial(inferred, 2000)),
    ("linked 2000", partial(linked, 2000)),
    ("layers 30", partial(layered, 30)),
]


def kept(build: Build, makefile: Path) -> str:
    """The folder that holds this build as an old one."""
    folder = DATA / "built"
    folder.mkdir(exist_ok=True)
    (folder / makefile.name).write_text(build.text)
    (folder / "footprint.json").write_text(build.book())
    return folder.name


def main() -> None:
    program = asked(__doc__)[0].path
    DATA.mkdir(exist_ok=True)
    os.chdir(DATA)
    count = counter()
    print(f"instructions of one run in millions; {program}")
    columns = f"{'since':>8}{'check':>8}{'ratio':>7}{'since MB':>10}{'check MB':>10}{'ratio':>7}"
    print(f"{'build':<16}{'old commands':<14}{columns}")
    nothing = Path(os.devnull)
    for label, shape in SHAPES:
        makefile, book = written(shape(COMPILE), "whole")
        words = ["-f", makefile.name, "-b", book.name]
        check = [program, "check", *words]
        for olden, style in (("the same", COMPILE), ("others", OTHERWISE)):
            since = [program, "since", kept(shape(style), makefile), *words]
            taken = [count(command, 0) / 10**6 for command in (since, check)]
            peaks = [spent(command, {0}, nothing).memory for command in (since, check)]
            print(
                f"{label:<16}{olden:<14}{taken[0]:>8.0f}{taken[1]:>8.0f}{taken[0] / taken[1]:>7.2f}"
                f"{peaks[0]:>10.1f}{peaks[1]:>10.1f}{peaks[0] / peaks[1]:>7.2f}",
                flush=True,
            )
    print(f"{'at most':<46}{RATIO_BOUND:>7.2f}{MEMORY_BOUND:>27.2f}")


if __name__ == "__main__":
    sys.exit(main())
