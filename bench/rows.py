"""Measures the bit rows of mk_graph beside `mkcheck graph` on the same makefiles, and prints a
table."""

import os
import subprocess
import sys
from collections.abc import Callable
from dataclasses import dataclass
from pathlib import Path

from building import built
from generate import Generated, deep, flat, gather, layered, recipe
from run import DATA, Tool, asked
from spending import spent

RUNS = 11
RATIO_BOUND = 1.00
MEMORY_BOUND = 16


def waits(groups: int, width: int) -> Generated:
    """A target with `groups` groups of `width` prerequisites, parted by `.WAIT`, each with a
    command."""
    names = [[f"g{group}n{column}" for column in range(width)] for group in range(groups)]
    line = " .WAIT ".join(" ".join(group) for group in names)
    text = f"all: {line}\n" + "".join(recipe(name, []) for group in names for name in group)
    return Generated(text, nodes=groups * width + 1, recipes=groups * width)


def behind(count: int) -> Generated:
    """A header that is made before a `.WAIT`, and `count` objects behind it that share it, each
    with a source."""
    objects = [f"x{number}.o" for number in range(1, count + 1)]
    rules = [recipe("h.h", []), *(recipe(name, ["h.h", f"{name[:-2]}.c"]) for name in objects)]
    text = f"program: h.h .WAIT {' '.join(objects)}\n\ttouch program\n" + "".join(rules)
    return Generated(text, nodes=2 * count + 2, recipes=count + 2)


SHAPES: list[tuple[str, Callable[..., Generated], tuple[int, ...]]] = [
    ("flat 4000", flat, (4000,)),
    ("deep 4000", deep, (4000,)),
    ("layered 60 by 60", layered, (60, 60)),
    ("64 groups of 60", waits, (64, 60)),
    ("1900 behind", behind, (1900,)),
]


@dataclass(frozen=True)
class Figures:
    """Least times in milliseconds of the rows and of `mkcheck graph`, memory that the rows take
    more, in MB, and rounds."""

    rows: float
    graph: float
    memory: float
    rounds: int


def rows_of(program: Path, file: Path, nodes: int) -> tuple[float, int]:
    """How long the rows take by the program's clock, in milliseconds, and in how many rounds they
    settle."""
    done = subprocess.run([program, "rows", file], capture_output=True, text=True, check=True)
    count, taken, rounds = (int(figure) for figure in done.stdout.split())
    if count != nodes:
        sys.exit(f"bench: {file} has {count} nodes and not {nodes}")
    return taken / 1_000, rounds


def measure(program: Path, own: Tool, makefile: Generated) -> Figures:
    """The rows and `mkcheck graph` take turns. The memory is that of whole processes, with the rows
    and without."""
    file, nothing = DATA / "rows.mk", Path(os.devnull)
    file.write_text(makefile.text)
    taken, graphs, peaks, rounds = [], [], {"rows": 0.0, "graph": 0.0}, 0
    for _ in range(RUNS):
        time, rounds = rows_of(program, file, makefile.nodes)
        taken.append(time)
        graphs.append(spent([own.path, *own.arguments, str(file)], {0}, nothing).time)
    for task in peaks:
        peaks[task] = spent([str(program), task, str(file)], {0}, nothing).memory
    return Figures(min(taken), min(graphs), peaks["rows"] - peaks["graph"], rounds)


def main() -> None:
    own, *_ = asked(__doc__)
    DATA.mkdir(exist_ok=True)
    program = built(
        "rows",
        "mk_lines mk_graph mk_macros mk_read mk_read_parse mk_infer mk_infer_select anyhow",
        "all:\n",
        ["rows"],
    )
    print(f"bit rows beside mkcheck graph, in milliseconds, least of {RUNS} runs")
    print(
        f"{'makefile':<18}{'nodes':>6}{'rows':>8}{'graph':>8}{'ratio':>8}{'memory MB':>11}{'rounds':>8}"
    )
    most = 0
    for label, shape, sizes in SHAPES:
        makefile = shape(*sizes)
        found = measure(program, own, makefile)
        most = max(most, found.rounds)
        print(
            f"{label:<18}{makefile.nodes:>6}{found.rows:>8.1f}{found.graph:>8.1f}"
            f"{found.rows / found.graph:>8.2f}{found.memory:>11.1f}{found.rounds:>8}"
        )
    print(f"{'at most':<40}{RATIO_BOUND:>8.2f}{MEMORY_BOUND:>11}{most:>8}")


if __name__ == "__main__":
    main()
