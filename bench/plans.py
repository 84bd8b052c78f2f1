"""Measures `mkcheck simulate` on long plans beside `mkcheck graph` on the same files, and prints
two tables.

The first is of plans of one make. The ratio is the time of the plan divided by that of `mkcheck
graph -b`, the growth that time divided by its own on half the nodes. The second is of plans of many
makes with edits between; their growth is the time divided by its own on half the lines.
"""

import os
from collections.abc import Callable, Iterator
from dataclasses import dataclass, field
from itertools import chain as joined
from itertools import cycle, islice
from pathlib import Path

from generate import recipe
from instructions import counter
from run import DATA, RUNS, executable, options
from spending import least, spent
from verdicts import Build, ruled, written

# What is to be reached. The table shows it; no figure makes the run fail.
RATIO_BOUND = 10.0
GROWTH_BOUND = 2.3

# How many lines the plans of many makes have, and how many recipes overlap.
LINES = 60_000
JOBS = 4


def flat(count: int) -> Build:
    """Targets without prerequisites, but for the last one, which reads a source."""
    names = [f"f{number}" for number in range(count)]
    return ruled(names, {name: ["s"] if name == names[-1] else [] for name in names}, ["s"])


def own(count: int) -> Build:
    """Half the nodes are sources, each of which one target reads."""
    targets = {f"f{number}": [f"s{number}"] for number in range(count // 2)}
    return ruled(list(targets), targets, [f"s{number}" for number in range(count // 2)])


def chain(count: int) -> Build:
    """A chain over one source; each target is listed before the one that it reads."""
    names = [*(f"f{number}" for number in range(count)), "s"]
    return ruled(names[:1], {name: [below] for name, below in zip(names, names[1:])}, ["s"])


def layers(count: int) -> Build:
    """Layers of 60 targets, each of which reads three of the layer below; the lowest reads a source
    each."""
    width = 60

    def name(layer: int, column: int) -> str:
        return f"l{layer}n{column % width}" if layer else f"s{column % width}"

    targets = {
        name(layer, column): [
            name(layer - 1, column + offset) for offset in (range(3) if layer > 1 else range(1))
        ]
        for layer in range(1, count // width)
        for column in range(width)
    }
    top = [name(count // width - 1, column) for column in range(width)]
    return ruled(top, targets, [f"s{column}" for column in range(width)])


def waits(count: int) -> Build:
    """The same, four targets after four others, with `.WAIT` between."""
    build = own(count)
    names = [target for target, _, _ in build.records]
    groups = [" ".join(names[start : start + JOBS]) for start in range(0, len(names), JOBS)]
    rules = [recipe(target, reads) for target, _, reads in build.records]
    return Build(
        "".join([f"all: {' .WAIT '.join(groups)}\n", *rules]), build.sources, build.records
    )


def order(build: Build) -> list[tuple[str, list[str]]]:
    """The targets with what they read, each behind those that it reads."""
    reads = {target: needed for target, _, needed in build.records}
    done, finished = set(), []
    for target in reads:
        stack = [target]
        while stack:
            missing = [name for name in reads[stack[-1]] if name in reads and name not in done]
            if missing:
                stack.extend(missing)
                continue
            name = stack.pop()
            if name not in done:
                done.add(name)
                finished.append((name, reads[name]))
    return finished


@dataclass
class Contents:
    """What files hold: what a recipe puts into its file depends on what it saw, and each edit is a
    new content."""

    held: dict[str, int] = field(default_factory=dict)
    known: dict[tuple[str, ...], int] = field(default_factory=dict)
    last: int = 1_000_000

    def new(self) -> int:
        """A content that no file has had."""
        self.last += 1
        return self.last

    def edit(self, source: str) -> str:
        """The line of an edit."""
        self.held[source] = self.new()
        return f"edit {source} {self.held[source]}"

    def put(self, target: str, reads: list[str]) -> str:
        """The line by which a recipe writes its file."""
        saw = (target, *(str(self.held.get(name)) for name in reads))
        if saw not in self.known:
            self.known[saw] = self.new()
        self.held[target] = self.known[saw]
        return f"put {target} {target} {self.held[target]}"


def one_make(build: Build) -> list[str]:
    """Each recipe is run, one after another."""
    return [f"make {JOBS}", *(f"run {target}" for target, _ in order(build)), "end"]


def steps(running: dict[str, list[str]], contents: Contents) -> Iterator[str]:
    """What recipes do behind their begin."""
    for target, reads in running.items():
        yield from (f"look {target} {name}" for name in reads)
        yield contents.put(target, reads)
        yield f"done {target}"


def overlapping(build: Build, contents: Contents) -> list[str]:
    """A make step by step; up to four recipes run at once."""
    lines, running = [f"make {JOBS}"], {}
    for target, reads in order(build):
        if len(running) == JOBS or any(name in running for name in reads):
            lines.extend(steps(running, contents))
            running = {}
        lines.append(f"begin {target}")
        running[target] = reads
    return [*lines, *steps(running, contents), "end"]


def passing(build: Build) -> Iterator[list[str]]:
    """Makes with the edit of a source between; what it doesn't concern is passed."""
    yield one_make(build)
    ordered = order(build)
    for source in cycle(build.sources):
        changed, lines = {source}, [f"edit {source}", f"make {JOBS}"]
        for target, reads in ordered:
            if changed.isdisjoint(reads):
                lines.append(f"pass {target}")
            else:
                changed.add(target)
                lines.append(f"run {target}")
        yield [*lines, "end"]


def running_all(build: Build) -> Iterator[list[str]]:
    """The same, but each make runs each recipe."""
    yield one_make(build)
    for source in cycle(build.sources):
        yield [f"edit {source}", *one_make(build)]


def overlapping_all(build: Build) -> Iterator[list[str]]:
    """The same step by step; up to four recipes run at once."""
    contents = Contents()
    yield overlapping(build, contents)
    for source in cycle(build.sources):
        yield [contents.edit(source), *overlapping(build, contents)]


def cut(makes: Iterator[list[str]], lines: int) -> list[str]:
    """The first lines of these makes."""
    return list(islice(joined.from_iterable(makes), lines))


# Each shape, with how many nodes it has.
SHAPES: list[tuple[Callable[[int], Build], int]] = [
    (flat, 4000),
    (own, 4000),
    (chain, 4000),
    (layers, 4000),
    (waits, 4000),
]


@dataclass(frozen=True)
class Files:
    """A makefile and its footprints."""

    makefile: Path
    book: Path

    def words(self, command: str) -> list[str]:
        """The command over these files."""
        return [command, "-f", self.makefile.name, "-b", self.book.name]


def planned(label: str, lines: list[str]) -> Path:
    """Writes a plan."""
    plan = DATA / f"{label}.plan"
    plan.write_text("\n".join([*lines, ""]))
    return plan


def time(command: list[str]) -> float:
    """The least processor time of some runs, in milliseconds."""
    return least([spent(command, {0}, Path(os.devnull)) for _ in range(RUNS)]).time


@dataclass(frozen=True)
class Measured:
    """A program, and what it is measured by."""

    path: str
    cost: Callable[[list[str]], float]

    def graph(self, files: Files) -> float:
        """What the graph of these files costs."""
        return self.cost([self.path, *files.words("graph")])

    def simulated(self, files: Files, lines: list[str]) -> float:
        """What a plan over these files costs."""
        return self.cost([self.path, *files.words("simulate"), "-p", planned("plan", lines).name])


def one_row(program: Measured, shape: Callable[[int], Build], count: int) -> str:
    """The figures of plans of one make."""
    half, whole = shape(count // 2), shape(count)
    few = Files(*written(half, "half"))
    one_of_half = program.simulated(few, one_make(half))
    all_of_half = program.simulated(few, overlapping(half, Contents()))
    files = Files(*written(whole, "whole"))
    graph, one = program.graph(files), program.simulated(files, one_make(whole))
    overlap = program.simulated(files, overlapping(whole, Contents()))
    return (
        f"{f'{shape.__name__} {count}':<14}{graph:>10.1f}{one:>10.1f}{one / graph:>7.1f}{one / one_of_half:>8.1f}"
        f"{overlap:>12.1f}{overlap / all_of_half:>8.1f}"
    )


def many_row(program: Measured, shape: Callable[[int], Build], count: int) -> str:
    """The figures of plans of many makes."""
    whole = shape(count)
    files = Files(*written(whole, "whole"))
    cells = [f"{f'{shape.__name__} {count}':<14}"]
    for makes in (passing, running_all, overlapping_all):
        fewer, many = (
            program.simulated(files, cut(makes(whole), lines)) for lines in (LINES // 2, LINES)
        )
        cells.append(f"{many:>12.1f}{many / fewer:>8.1f}")
    return "".join(cells)


def main() -> None:
    parser = options(__doc__)
    parser.add_argument(
        "--instructions",
        action="store_true",
        help="count millions of instructions in place of milliseconds",
    )
    given = parser.parse_args()
    cost, unit, said = time, "ms", f"processor time, least of {RUNS} runs"
    if given.instructions:
        count_of = counter()
        cost, unit, said = (
            (lambda command: count_of(command, 0) / 10**6),
            "M",
            "instructions of the program, one run",
        )
    program = Measured(str(executable(given.program)), cost)
    DATA.mkdir(exist_ok=True)
    os.chdir(DATA)
    print(f"{said}; {program.path}")
    print(
        f"{'one make':<14}{f'graph {unit}':>10}{f'run {unit}':>10}{'ratio':>7}{'growth':>8}{f'overlap {unit}':>12}{'growth':>8}"
    )
    for shape, count in SHAPES:
        print(one_row(program, shape, count), flush=True)
    print(f"{'at most':<34}{RATIO_BOUND:>7.1f}{GROWTH_BOUND:>8.1f}{GROWTH_BOUND:>20.1f}")
    print(
        f"{f'{LINES} lines':<14}{f'pass {unit}':>12}{'growth':>8}{f'run {unit}':>12}{'growth':>8}{f'overlap {unit}':>12}{'growth':>8}"
    )
    for shape, count in SHAPES:
        print(many_row(program, shape, count), flush=True)
    print(f"{'at most':<14}" + 3 * f"{GROWTH_BOUND:>20.1f}")


if __name__ == "__main__":
    main()
