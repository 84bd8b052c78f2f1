"""Measures `mkcheck verify` on the certificates of large builds, and of one that it refuses, and
`mkcheck check` on builds of which it finds much.
"""

import json
import os
import sys
from collections.abc import Callable
from dataclasses import dataclass
from pathlib import Path

from generate import gather
from run import DATA, RUNS, asked
from spending import Measure, in_turns, least, spent
from verdicts import GROWTH_BOUND, Build, chained, deep, flat, ruled, silent, written

# What is to be reached. The table shows it; no figure makes the run fail.
MEMORY_BOUND = 8.0


def own(count: int) -> Build:
    """Targets that read a source each."""
    targets = {f"o{number}": [f"certificates/s{number}"] for number in range(count)}
    return ruled(list(targets), targets, [file for files in targets.values() for file in files])


def reading(count: int) -> Build:
    """Targets that read a source each, and 200 files of the system, which never change."""
    build = own(count)
    system = [f"/usr/include/h{number}.h" for number in range(200)]
    records = [(target, commands, [*reads, *system]) for target, commands, reads in build.records]
    return Build(build.text, build.sources, records, ["/usr/"])


def compiled(count: int) -> Build:
    """Targets with a command as compilers get it, of some 200 bytes, that read one of 64 sources
    and 20 files of the system."""
    options = " ".join(f"-Wno-warning-{number}" for number in range(10))
    system = [f"/usr/include/h{number}.h" for number in range(20)]
    sources = [f"certificates/s{number}" for number in range(64)]
    targets = {f"o{number}": sources[number % 64] for number in range(count)}
    commands = {
        target: f"cc {options} -c -o {target} {source}" for target, source in targets.items()
    }
    rules = [f"{target}: {source}\n\t{commands[target]}\n" for target, source in targets.items()]
    records = [
        (target, [commands[target]], [source, *system]) for target, source in targets.items()
    ]
    return Build(gather(list(targets)) + "".join(rules), sources, records, ["/usr/"])


def carrying(layers: int) -> Build:
    """Layers of 60 targets, each of which reads all of the next layer, and so carries its recipes."""
    names = [[f"l{layer}n{column}" for column in range(60)] for layer in range(layers)]
    below = [*names[1:], []]
    return ruled(
        names[0], {name: reads for layer, reads in zip(names, below) for name in layer}, []
    )


def far(count: int) -> Build:
    """A chain in which each target reads the 40 below it."""
    return chained([f"f{number}" for number in range(count)])


def outputs(count: int) -> Build:
    """Targets that read a source each, and whose recipes write a second file each, which is no
    target."""
    build = own(count)
    more = {target: [f"{target}.map"] for target, _, _ in build.records}
    return Build(build.text, build.sources, build.records, more=more)


def logged(count: int) -> Build:
    """Targets whose recipes all append to one file: a finding for any two of them."""
    build = flat(count)
    return Build(
        build.text, [], build.records, more={target: ["log"] for target, _, _ in build.records}
    )


def unrecorded(count: int) -> Build:
    """Targets of which nothing is recorded: a finding for each."""
    build = flat(count)
    return Build(build.text, [], [])


def unknown(count: int) -> Build:
    """Targets that read 100 files each of which nothing is known: a finding for each read."""
    build = flat(count)
    files = [f"certificates/u{number}" for number in range(100)]
    return Build(
        build.text, [], [(target, commands, files) for target, commands, _ in build.records]
    )


# Each shape with a size, and one of twice as many targets.
VERIFIED: list[tuple[Callable[[int], Build], int, int]] = [
    (own, 1000, 2000),
    (deep, 2000, 4000),
    (compiled, 2000, 4000),
    (reading, 1000, 2000),
    (carrying, 30, 60),
    (far, 970, 1940),
    (outputs, 1000, 2000),
]
REFUSED: list[tuple[Callable[[int], Build], int, int]] = [(logged, 2000, 4000)]
FOUND: list[tuple[Callable[[int], Build], int, int]] = [
    (unrecorded, 2000, 4000),
    (unknown, 2000, 4000),
]


@dataclass(frozen=True)
class Command:
    """A command with the status that it ends with, and what it reads, in megabytes."""

    run: Callable[[], Measure]
    size: float


def command_of(words: list[str], status: int, read: list[Path]) -> Command:
    """This command, which reads these files."""
    return Command(silent(words, status), sum(file.stat().st_size for file in read) / 2**20)


def verified(program: str, build: Build, label: str) -> Command:
    """`verify` of the certificate that `check` gives."""
    makefile, book = written(build, label)
    certificate = DATA / f"{label}.cert"
    words = ["-f", makefile.name, "-b", book.name]
    spent([program, "check", *words, "-c"], {0}, certificate)
    return command_of(
        [program, "verify", *words, "-k", certificate.name], 0, [makefile, book, certificate]
    )


def refused(program: str, build: Build, label: str) -> Command:
    """`verify` of a certificate without ways, of a build in which two recipes write one file."""
    makefile, book = written(build, label)
    certificate, output = DATA / f"{label}.cert", DATA / "output"
    certificate.write_text(json.dumps({"format": 1, "goals": ["all"], "ways": []}))
    command = [program, "verify", "-f", makefile.name, "-b", book.name, "-k", certificate.name]
    spent(command, {2}, output)
    if not output.read_text().startswith("refused 76 writers "):
        sys.exit(f"bench: {' '.join(command)}: another refusal, output in {output}")
    return command_of(command, 2, [makefile, book, certificate])


def found(program: str, build: Build, label: str) -> Command:
    """`check` of a build that is found to be wrong without a search for ways."""
    makefile, book = written(build, label)
    return command_of([program, "check", "-f", makefile.name, "-b", book.name], 1, [makefile, book])


def show(label: str, size: float, half: Measure, whole: Measure) -> None:
    """A row of the table."""
    growth, by_size = whole.time / half.time, whole.memory / size
    print(
        f"{label:<18}{size:>6.1f}{whole.time:>10.1f}{growth:>8.1f}{whole.memory:>11.0f}{by_size:>7.1f}",
        flush=True,
    )


def rows(
    program: str,
    command: Callable[[str, Build, str], Command],
    shapes: list[tuple[Callable[[int], Build], int, int]],
) -> None:
    """Measures shapes with half of the targets and with all, which take turns, and prints a row for
    each."""
    for shape, smaller, count in shapes:
        half, whole = command(program, shape(smaller), "half"), command(
            program, shape(count), "whole"
        )
        show(
            f"{shape.__name__} {count}",
            whole.size,
            *map(least, in_turns([half.run, whole.run], RUNS)),
        )


def main() -> None:
    program = asked(__doc__)[0].path
    DATA.mkdir(exist_ok=True)
    (DATA / "certificates").mkdir(exist_ok=True)
    os.chdir(DATA)
    print(f"processor time, least of {RUNS} runs; {program}")
    print(f"{'verify':<18}{'MB':>6}{'ms':>10}{'growth':>8}{'memory MB':>11}{'by MB':>7}")
    rows(program, verified, VERIFIED)
    rows(program, refused, REFUSED)
    print(f"{'check':<18}")
    rows(program, found, FOUND)
    print(f"{'at most':<34}{GROWTH_BOUND:>8.1f}{MEMORY_BOUND:>18.1f}")


if __name__ == "__main__":
    sys.exit(main())
