"""Measures `mkcheck check` beside reading the makefile and the footprints with other programs, and
prints two tables.

In the first the recipes have the commands of a compiler, which the makefile writes with macros; all
bounds are about it. In the second they have the shortest commands, `touch` and the target, and no
bound of memory.

What it is held against is the processor time of the faster of `make -n -r` and `bmake -n -r` on the
makefile, and that of Python's `json.load` on the footprints, added up.
"""

import json
import os
import subprocess
import sys
from collections.abc import Callable
from dataclasses import dataclass, field
from functools import wraps
from pathlib import Path

from generate import gather
from run import DATA, Tool, asked
from spending import Measure, in_turns, least, spent

# What is to be reached. The table shows it; no figure makes the run fail.
RATIO_BOUND = 1.00
GROWTH_BOUND = 2.3
MEMORY_BOUND = 10.0

# How often each tool runs. Where a machine shares its processors, a longer run may be left alone
# less often than a shorter one, so that growths of few runs look larger than they are.
RUNS = 31

# From this many megabytes on, the time is held against the answer.
LARGE = 2


@dataclass(frozen=True)
class Build:
    """A makefile, its sources, which are written to the disk, and for each recipe its target,
    commands and reads.

    Beside its target a recipe writes the files that `more` has for it.
    """

    text: str
    sources: list[str]
    records: list[tuple[str, list[str], list[str]]]
    fixed: list[str] = field(default_factory=list)
    more: dict[str, list[str]] = field(default_factory=dict)

    def book(self) -> str:
        """The footprints."""
        records = [
            {
                "target": target,
                "commands": commands,
                "reads": reads,
                "writes": [target, *self.more.get(target, [])],
            }
            for target, commands, reads in self.records
        ]
        return json.dumps(
            {"format": 1, "fixed": self.fixed, "sources": self.sources, "records": records}
        )


@dataclass(frozen=True)
class Style:
    """How recipes make a target from files: by the words in a makefile, and as they are recorded.

    What the words in the makefile want to be assigned stands at its head.
    """

    head: str
    written: Callable[[str, list[str]], str]
    recorded: Callable[[str, list[str]], str]

    def rule(self, target: str, reads: list[str]) -> str:
        """The rule of a target with a command."""
        return f"{' '.join([f'{target}:', *reads])}\n\t{self.written(target, reads)}\n"

    def record(
        self, target: str, files: list[str], reads: list[str]
    ) -> tuple[str, list[str], list[str]]:
        """The record of a recipe that makes the target from these files, and reads those."""
        return target, [self.recorded(target, files)], reads


# The options of a compiler, some 170 bytes.
OPTIONS = " ".join(f"-Wno-warning-{number}" for number in range(10))

TOUCH = Style("", lambda target, _: f"touch {target}", lambda target, _: f"touch {target}")
COMPILE = Style(
    f"CC = cc\nCFLAGS = {OPTIONS}\n",
    lambda _, files: " ".join(["$(CC) $(CFLAGS) -c -o $@", *files]),
    lambda target, files: " ".join([f"cc {OPTIONS} -c -o {target}", *files]),
)


def ruled(
    top: list[str], targets: dict[str, list[str]], sources: list[str], style: Style = TOUCH
) -> Build:
    """A build of these targets, each from its prerequisites, which it reads; `all` gathers the top
    ones."""
    rules = [style.rule(target, reads) for target, reads in targets.items()]
    records = [style.record(target, reads, reads) for target, reads in targets.items()]
    return Build(style.head + gather(top) + "".join(rules), sources, records)


def flat(count: int, style: Style = TOUCH) -> Build:
    """Targets without prerequisites."""
    names = [f"f{number}" for number in range(count)]
    return ruled(names, dict.fromkeys(names, []), [], style)


def deep(count: int, style: Style = TOUCH) -> Build:
    """A chain, each target reads the one below it."""
    names = [f"f{number}" for number in range(count)]
    below = [[name] for name in names[1:]] + [[]]
    return ruled(names[:1], dict(zip(names, below)), [], style)


def layered(layers: int, style: Style = TOUCH) -> Build:
    """Layers of 60 targets; each reads three of the next layer."""

    def name(layer: int, column: int) -> str:
        return f"l{layer}n{column % 60}"

    targets = {
        name(layer, column): [name(layer + 1, column + offset) for offset in (0, 1, 2)]
        if layer + 1 < layers
        else []
        for layer in range(layers)
        for column in range(60)
    }
    return ruled([name(0, column) for column in range(60)], targets, [], style)


def objects(count: int) -> tuple[list[str], list[str], list[list[str]], list[str]]:
    """Objects with a source and ten headers each, and all headers."""
    numbers = range(count)
    headers = [f"verdicts/h{number}.h" for number in range(min(80, 7 * count + 3))]
    needed = [
        [headers[(7 * number + column) % len(headers)] for column in range(10)]
        for number in numbers
    ]
    return (
        [f"verdicts/x{n}.o" for n in numbers],
        [f"verdicts/x{n}.c" for n in numbers],
        needed,
        headers,
    )


def inferred(count: int, style: Style = TOUCH, told: bool = True) -> Build:
    """Objects by an inference rule, with ten headers each, which the makefile names or forgets."""
    names, files, needed, headers = objects(count)
    rules = [f"{name}: {' '.join(chosen)}\n" for name, chosen in zip(names, needed)] if told else []
    suffixes = f".SUFFIXES:\n.SUFFIXES: .o .c\n.c.o:\n\t{style.written('$@', ['$<'])}\n"
    records = [
        style.record(name, [file], [file, *chosen])
        for name, file, chosen in zip(names, files, needed)
    ]
    return Build(
        "".join([style.head, suffixes, gather(names), *rules]), [*headers, *files], records
    )


def forgotten(count: int, style: Style = TOUCH) -> Build:
    """The same with all headers forgotten."""
    return inferred(count, style, told=False)


def waiting(count: int, style: Style = TOUCH) -> Build:
    """Objects that read a header which a recipe makes before them, by `.WAIT` alone."""
    names, files = [f"verdicts/x{n}.o" for n in range(count)], [
        f"verdicts/x{n}.c" for n in range(count)
    ]
    header = "verdicts/config.h"
    rules = [
        style.rule(header, []),
        *(style.rule(name, [file]) for name, file in zip(names, files)),
    ]
    text = "".join([style.head, f"all: {header} .WAIT\n", gather(names), *rules])
    reads = [
        (header, [], []),
        *((name, [file], [file, header]) for name, file in zip(names, files)),
    ]
    return Build(text, files, [style.record(*read) for read in reads])


def linked(count: int, style: Style = TOUCH) -> Build:
    """Objects with a source each, and a program that reads all of them."""
    names = [f"verdicts/z{number}.o" for number in range(count)]
    sources = [f"verdicts/z{number}.c" for number in range(count)]
    made = {name: [source] for name, source in zip(names, sources)}
    return ruled(["program"], {"program": names, **made}, sources, style)


def large(count: int) -> Build:
    """Targets with commands of 8 KB, and a source each."""
    names, files = [f"verdicts/y{n}" for n in range(count)], [
        f"verdicts/y{n}.c" for n in range(count)
    ]
    option = " ".join(f"-Dname{number}=value{number}" for number in range(470))
    records = [(name, [f"cc {option} {name}"], [file]) for name, file in zip(names, files)]
    rules = [
        f"{name}: {file}\n\t{commands[0]}\n" for (name, commands, _), file in zip(records, files)
    ]
    return Build(gather(names) + "".join(rules), files, records)


def chained(names: list[str]) -> Build:
    """A chain of these targets in which each reads the 40 below it."""
    rules = [
        TOUCH.rule(name, below) for name, below in zip(names, [*([name] for name in names[1:]), []])
    ]
    records = [
        TOUCH.record(name, [], names[number + 1 : number + 41]) for number, name in enumerate(names)
    ]
    return Build("".join(rules), [], records)


def far(count: int) -> Build:
    """Such a chain in a folder: of 1,500 targets the answer has 59,180 ways, 30,177,064 bytes."""
    return chained([f"objects/library/f{number}" for number in range(count)])


# Each shape with a size, one of twice as many targets, and the status that `check` ends with.
STYLED: list[tuple[Callable[[int, Style], Build], int, int, int]] = [
    (flat, 2000, 4000, 0),
    (deep, 2000, 4000, 0),
    (layered, 30, 60, 0),
    (inferred, 1000, 2000, 0),
    (waiting, 950, 1900, 1),
    (forgotten, 1000, 2000, 1),
    (linked, 1000, 2000, 0),
]
OTHERS: list[tuple[Callable[[int], Build], int, int, int]] = [
    (large, 940, 1880, 0),
    (far, 750, 1500, 0),
]


def styled(shape: Callable[[int, Style], Build], style: Style) -> Callable[[int], Build]:
    """The shape with commands of this style."""

    @wraps(shape)
    def built(count: int) -> Build:
        return shape(count, style)

    return built


@dataclass(frozen=True)
class Figures:
    """What is read and written in megabytes, and of it the answer; mkcheck; the faster make;
    Python's json."""

    size: float
    answer: float
    own: Measure
    make: float
    json: float

    def ratio(self) -> float:
        """The time of mkcheck divided by that of the others together."""
        return self.own.time / (self.make + self.json)


def json_spent(book: Path) -> Measure:
    """The processor time that Python takes to read the footprints."""
    code = "import json,sys,time\nf=open(sys.argv[1]);s=time.process_time();json.load(f);print(time.process_time()-s)"
    done = subprocess.run(
        [sys.executable, "-c", code, book], capture_output=True, text=True, check=True
    )
    return Measure(1000 * float(done.stdout), 0)


def written(build: Build, label: str) -> tuple[Path, Path]:
    """Writes the makefile, its sources and the footprints."""
    makefile, book = DATA / f"{label}.mk", DATA / f"{label}.json"
    makefile.write_text(build.text)
    book.write_text(build.book())
    for name in build.sources:
        file = DATA / name
        file.parent.mkdir(exist_ok=True)
        file.touch()
    return makefile, book


def reads(tool: Tool, makefile: Path) -> bool:
    """Whether the tool reads the makefile: GNU make does without `.WAIT` before its version 4.4."""
    done = subprocess.run(
        [tool.path, *tool.arguments, makefile.name], capture_output=True, check=False
    )
    return done.returncode == 0


def without_wait(makefile: Path) -> Path:
    """A copy without `.WAIT`, for the makes that don't know it: to them it would be a file that
    nothing makes."""
    copy = makefile.with_name(f"plain-{makefile.name}")
    copy.write_text(makefile.read_text().replace(" .WAIT", ""))
    return copy


def silent(command: list[str], status: int) -> Callable[[], Measure]:
    """What a run of this command takes, of which the output is thrown away."""
    return lambda: spent(command, {status}, Path(os.devnull))


def measure(
    half: Build, whole: Build, status: int, measured: list[Tool]
) -> tuple[Measure, Figures]:
    """The half by mkcheck, and the whole by all tools, which take turns; the least time of each
    counts."""
    small, (makefile, book) = written(half, "half"), written(whole, "whole")
    check = [measured[0].path, "check", "-f"]
    output = DATA / "output"
    spent([*check, makefile.name, "-b", book.name], {status}, output)
    peers = measured[1:]
    read = makefile if all(reads(tool, makefile) for tool in peers) else without_wait(makefile)
    answer = output.stat().st_size / 2**20
    size = (makefile.stat().st_size + book.stat().st_size) / 2**20 + answer
    halves, own, loads, *others = map(
        least,
        in_turns(
            [
                silent([*check, small[0].name, "-b", small[1].name], status),
                silent([*check, makefile.name, "-b", book.name], status),
                lambda: json_spent(book),
                *(silent([tool.path, *tool.arguments, read.name], 0) for tool in peers),
            ],
            RUNS,
        ),
    )
    fastest = min((taken.time for taken in others), default=0.0)
    return halves, Figures(size, answer, own, fastest, loads.time)


def row(label: str, half: Measure, whole: Figures) -> str:
    """A row of a table; what is held against the answer stands there where that is large."""
    own, growth = whole.own, whole.own.time / half.time
    by_answer = f"{own.time / whole.answer:.1f}" if whole.answer >= LARGE else ""
    times = f"{own.time:>10.1f}{by_answer:>8}{whole.make:>9.1f}{whole.json:>9.1f}{whole.ratio():>7.2f}{growth:>8.1f}"
    return f"{label:<18}{whole.size:>6.1f}{times}{own.memory:>11.0f}{own.memory / whole.size:>7.1f}"


def show(shapes: list[tuple[Callable[[int], Build], int, int, int]], measured: list[Tool]) -> None:
    """Measures shapes with half of the targets and with all, and prints a row for each."""
    for shape, smaller, count, status in shapes:
        label = f"{shape.__name__} {count}"
        print(row(label, *measure(shape(smaller), shape(count), status, measured)), flush=True)


def main() -> None:
    measured = asked(__doc__)
    DATA.mkdir(exist_ok=True)
    os.chdir(DATA)
    print(f"processor time, least of {RUNS} runs; {', '.join(tool.path for tool in measured)}")
    times = f"{'check ms':>10}{'per MB':>8}{'make ms':>9}{'json ms':>9}{'ratio':>7}{'growth':>8}"
    columns = f"{'MB':>6}{times}{'memory MB':>11}{'by MB':>7}"
    bounds = f"{'at most':<60}{RATIO_BOUND:>7.2f}{GROWTH_BOUND:>8.1f}"
    for title, style, others, bound in (
        ("compiler", COMPILE, OTHERS, f"{MEMORY_BOUND:>18.1f}"),
        ("touch", TOUCH, [], ""),
    ):
        print(f"{title:<18}{columns}")
        show([*((styled(shape, style), *sizes) for shape, *sizes in STYLED), *others], measured)
        print(bounds + bound)


if __name__ == "__main__":
    main()
