"""Measures `mkcheck graph` beside `make -n` and `bmake -n` on the same makefiles, and prints a
table."""

import argparse
import os
import sys
from dataclasses import dataclass
from pathlib import Path

from generate import Generated, deep, flat, layered, write
from spending import Measure, least, spent

HERE = Path(__file__).resolve().parent
DATA = HERE / "data"
RUNS = 11

# What is to be reached. The table shows it; no figure makes the run fail.
RATIO_BOUND = 1.00
GROWTH_BOUND = 5.0
MEMORY_BOUND = 64


@dataclass(frozen=True)
class Case:
    """A makefile to measure. The growth is the time against that of the case `smaller`.

    mkcheck gets these words more, which the peers have no need of.
    """

    label: str
    makefile: Generated
    smaller: str | None = None
    words: tuple[str, ...] = ()

    @property
    def file(self) -> str:
        return f"{self.label.replace(' ', '-')}.mk"


@dataclass(frozen=True)
class Tool:
    """A program that reads a makefile and writes a line for each of its recipes, or each of its
    nodes."""

    name: str
    path: str
    arguments: tuple[str, ...]
    writes_nodes: bool = False

    def command(self, case: Case) -> list[str]:
        """The words of the command line."""
        return [self.path, *self.arguments, case.file, *(case.words if self.writes_nodes else ())]

    def lines(self, makefile: Generated) -> int:
        """How many lines it writes: mkcheck one for each node, after that of the goals."""
        return makefile.nodes + 1 if self.writes_nodes else makefile.recipes


CASES = [
    Case("flat 1000", flat(1000)),
    Case("flat 4000", flat(4000), "flat 1000"),
    Case("deep 1000", deep(1000)),
    Case("deep 4000", deep(4000), "deep 1000"),
    Case("layered 25 by 40", layered(25, 40)),
    Case("layered 60 by 60", layered(60, 60)),
    Case("layered 50 by 80", layered(50, 80), "layered 25 by 40"),
]


def installed(name: str) -> str | None:
    """Where the command is that the search path finds under this name."""
    places = (os.path.join(folder, name) for folder in os.get_exec_path())
    return next((place for place in places if os.access(place, os.X_OK)), None)


def tools(program: Path) -> list[Tool]:
    """mkcheck, and after it the peers that are installed here."""
    found = [Tool("mkcheck", str(program), ("graph", "-f"), writes_nodes=True)]
    for name, arguments in (("make", ("-n", "-r", "-f")), ("bmake", ("-n", "-r", "-f"))):
        path = installed(name)
        if path is not None:
            found.append(Tool(name, path, arguments))
    return found


def try_out(tool: Tool, case: Case) -> None:
    """One run before those that count, to see that the tool does the whole work."""
    output = DATA / "output"
    spent(tool.command(case), {0}, output)
    with output.open("rb") as stream:
        lines = sum(1 for _ in stream)
    wanted = tool.lines(case.makefile)
    if lines != wanted:
        sys.exit(
            f"bench: {tool.name} on {case.file}: {lines} lines and not {wanted}, output in {output}"
        )


def measure(case: Case, measured: list[Tool]) -> dict[str, Measure]:
    """The tools take turns, so that what else the machine does falls on all of them."""
    for tool in measured:
        try_out(tool, case)
    runs: dict[str, list[Measure]] = {tool.name: [] for tool in measured}
    for _ in range(RUNS):
        for tool in measured:
            runs[tool.name].append(spent(tool.command(case), {0}, Path(os.devnull)))
    return {name: least(taken) for name, taken in runs.items()}


def ratio(figures: dict[str, Measure]) -> str:
    """The time of mkcheck divided by that of the fastest peer."""
    peers = [figure.time for name, figure in figures.items() if name != "mkcheck"]
    return f"{figures['mkcheck'].time / min(peers):.2f}" if peers else "-"


def header(names: list[str]) -> str:
    columns = [f"{'makefile':<18}{'nodes':>6}", *(f"{name + ' ms':>11}" for name in names)]
    return "".join([*columns, f"{'ratio':>8}{'growth':>8}{'memory MB':>11}"])


def row(case: Case, figures: dict[str, Measure], before: dict[str, dict[str, Measure]]) -> str:
    """Growth and memory stand at the largest size of each shape."""
    own = figures["mkcheck"]
    growth = memory = ""
    if case.smaller is not None:
        growth = f"{own.time / before[case.smaller]['mkcheck'].time:.1f}"
        memory = f"{own.memory:.0f}"
    times = "".join(f"{figure.time:>11.1f}" for figure in figures.values())
    return f"{case.label:<18}{case.makefile.nodes:>6}{times}{ratio(figures):>8}{growth:>8}{memory:>11}".rstrip()


def bounds(tool_count: int) -> str:
    """The last row: what is to be reached at most."""
    return f"{'at most':<{24 + 11 * tool_count}}{RATIO_BOUND:>8.2f}{GROWTH_BOUND:>8.1f}{MEMORY_BOUND:>11}"


def options(description: str) -> argparse.ArgumentParser:
    """What each of the benchmarks takes."""
    parser = argparse.ArgumentParser(description=description)
    parser.add_argument(
        "--program",
        type=Path,
        default=HERE.parent / "bin" / "mkcheck",
        help="the mkcheck to measure",
    )
    return parser


def executable(program: Path) -> Path:
    """The program with its whole path; the benchmark ends where it isn't there."""
    found = program.resolve()
    if not os.access(found, os.X_OK):
        sys.exit(f"bench: {found} is not there: run `make proved` first")
    return found


def asked(description: str) -> list[Tool]:
    """The tools to measure, by the words of the command line."""
    return tools(executable(options(description).parse_args().program))


def main() -> None:
    measured = asked(__doc__)
    DATA.mkdir(exist_ok=True)
    for case in CASES:
        write(case.makefile, DATA / case.file)
    os.chdir(DATA)

    print(f"processor time, least of {RUNS} runs; {', '.join(tool.path for tool in measured)}")
    print(header([tool.name for tool in measured]))
    figures: dict[str, dict[str, Measure]] = {}
    for case in CASES:
        figures[case.label] = measure(case, measured)
        print(row(case, figures[case.label], figures), flush=True)
    print(bounds(len(measured)))


if __name__ == "__main__":
    main()
