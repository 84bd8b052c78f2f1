"""Measures mkcheck on texts that were made to be slow, each beside one of half its size, and prints
a table."""

import json
import os
import sys
from collections.abc import Callable
from dataclasses import dataclass
from pathlib import Path

from instructions import counter
from run import DATA, RUNS, executable, options
from spending import least, spent
from verdicts import GROWTH_BOUND

COPY = "b: a\n\tcp a b\n"
RECORD = {"target": "b", "commands": ["cp a b"], "reads": ["a"], "writes": ["b"]}
BOOK = json.dumps({"format": 1, "fixed": [], "sources": ["a"], "records": [RECORD]})
LINE = 60_000


@dataclass(frozen=True)
class Case:
    """The texts of a run, the words behind the command's name, and the status that it ends with."""

    command: str
    makefile: str
    status: int
    book: str = BOOK
    more: str = ""

    def words(self) -> list[str]:
        """The words of the command line; the last text is a certificate or a plan."""
        book = [] if self.command == "graph" else ["-b", "hostile.json"]
        more = {"verify": ["-k", "hostile.more"], "simulate": ["-p", "hostile.more"]}.get(
            self.command, []
        )
        return [self.command, "-f", "hostile.mk", *book, *more]


def lined(head: str, words: list[str]) -> str:
    """Lines that begin with this, each with as many of the words as it may have."""
    lines, line = [], head
    for word in words:
        if len(line) + len(word) >= LINE:
            lines.append(line)
            line = head
        line += f" {word}"
    return "\n".join([*lines, line, ""])


def deep_json(count: int) -> Case:
    """Brackets that are never closed."""
    return Case("check", COPY, 2, book="[" * count)


def nested_values(count: int) -> Case:
    """Lists in one another, as deep as they may be, again and again, under a key that isn't known."""
    value = "[" * 125 + "]" * 125
    return Case("check", COPY, 2, book=f'{BOOK[:-1]},"deep":[{",".join([value] * count)}]}}')


def one_key(count: int) -> Case:
    """The same key again and again."""
    return Case("check", COPY, 0, book=BOOK[:-1] + ',"format":1' * count + "}")


def many_records(count: int) -> Case:
    """Records of what no goal reaches."""
    records = ",".join(
        f'{{"target":"t{number}","commands":[],"reads":[],"writes":[]}}' for number in range(count)
    )
    return Case("check", COPY, 0, book=BOOK[:-2] + f",{records}]}}")


def long_names(count: int) -> Case:
    """Prerequisites with names of 4,096 bytes."""
    return Case("graph", lined("all:", [f"{number:04}" + "n" * 4092 for number in range(count)]), 0)


def references(count: int) -> Case:
    """Lines with 65,536 references each, most of them in one another."""
    chain = "".join(f"A{number} = $(A{number - 1})$(A{number - 1})\n" for number in range(1, 16))
    return Case("graph", "A0 =\n" + chain + "all: $(A15)$(A0)\n" * count, 0)


def suffixes(count: int) -> Case:
    """A long list of suffixes."""
    return Case(
        "graph",
        lined(".SUFFIXES:", [f".s{number}" for number in range(count)]) + "all.s1: b.s2\n",
        0,
    )


def rules_for(names: int, listed: int) -> Case:
    """`listed` suffixes, each with a rule for objects, and as many prerequisites. Their names have
    some 250 bytes; `names` of them differ."""
    rules = "".join(f".s{number}.o:\n\ttouch $@\n" for number in range(listed))
    words = [f"{'n' * 245}{number % names:04}.o" for number in range(listed)]
    known = lined(".SUFFIXES:", [f".s{number}" for number in range(listed)]) + ".SUFFIXES: .o\n"
    return Case(
        "graph", f".SUFFIXES:\n{known}{lined('all:', words)}{rules}", 2 if names > 4095 else 0
    )


def rules_and_names(count: int) -> Case:
    """All of the prerequisites differ: from the 4,096th on they are too many."""
    return rules_for(count, count)


def rules_and_repeats(count: int) -> Case:
    """Each of the prerequisites comes twice."""
    return rules_for(count // 2, count)


def phony_words(count: int) -> Case:
    """A long list of phony names."""
    return Case(
        "graph", lined(".PHONY:", [f"p{number}" for number in range(count)]) + "all: p1\n", 0
    )


def many_targets(count: int) -> Case:
    """One line with many targets."""
    return Case("graph", " ".join(f"t{number}" for number in range(count)) + ": x\n", 0)


def many_entries(count: int) -> Case:
    """A certificate with the same entry again and again."""
    entry = '{"end":"source","file":"a","path":["b"],"recipe":"b"}'
    return Case(
        "verify", COPY, 2, more=f'{{"format":1,"goals":["b"],"ways":[{",".join([entry] * count)}]}}'
    )


def distinct_entries(count: int) -> Case:
    """A certificate with a way for each pair of a recipe and one of 1,000 sources that it needs and
    reads."""
    sources = [f"s{number:03}" for number in range(1000)]
    recipes = [f"r{number:03}" for number in range(count // 1000)]
    rules = "".join(f"{name}: $(ALL)\n\t{name}\n" for name in recipes)
    records = [
        {"target": name, "commands": [name], "reads": sources, "writes": [name]} for name in recipes
    ]
    ways = [
        f'{{"end":"source","file":"{source}","path":["{name}"],"recipe":"{name}"}}'
        for name in recipes
        for source in sources
    ]
    makefile = f"ALL = {' '.join(sources)}\n" + lined("all:", recipes) + rules
    book = json.dumps({"format": 1, "fixed": [], "sources": sources, "records": records})
    return Case(
        "verify",
        makefile,
        0,
        book=book,
        more=f'{{"format":1,"goals":["all"],"ways":[{",".join(ways)}]}}',
    )


def repeated_prerequisites(count: int) -> Case:
    """One prerequisite again and again, and behind it one that leads to all that make what the
    target reads."""
    made = [f"w{number}" for number in range(count // 500)]
    rules = "".join(f"{name}:\n\ttouch {name}\n" for name in made)
    makefile = (
        lined("t:", ["x"] * count) + "t: m\n\tt\nx:\n" + lined("m:", made) + "m:\n\tm\n" + rules
    )
    reads = {"t": made, "m": made, **{name: [] for name in made}}
    records = [
        {
            "target": name,
            "commands": [name if name in ("t", "m") else f"touch {name}"],
            "reads": files,
            "writes": [name],
        }
        for name, files in reads.items()
    ]
    return Case(
        "check",
        makefile,
        0,
        book=json.dumps({"format": 1, "fixed": [], "sources": [], "records": records}),
    )


def makes_and_stops(count: int) -> Case:
    """A plan of makes that are stopped at once, over 4,000 targets."""
    names = [f"f{number}" for number in range(4000)]
    makefile = lined("all:", names) + "".join(f"{name}:\n\ttouch {name}\n" for name in names)
    return Case(
        "simulate",
        makefile,
        0,
        book='{"format":1,"fixed":[],"sources":[],"records":[]}',
        more="make 1\nstop\n" * count,
    )


def appended(count: int) -> Case:
    """A macro to which something is added again and again."""
    return Case("graph", "X = x\n" + "X += y\n" * count + "all: z\n", 0)


SHAPES: list[tuple[Callable[[int], Case], int]] = [
    (deep_json, 16_000_000),
    (nested_values, 66_000),
    (one_key, 1_000_000),
    (many_records, 280_000),
    (long_names, 4_000),
    (references, 60),
    (suffixes, 300_000),
    (rules_and_names, 8_000),
    (rules_and_repeats, 8_000),
    (phony_words, 1_000_000),
    (many_targets, 9_000),
    (many_entries, 300_000),
    (distinct_entries, 266_000),
    (repeated_prerequisites, 1_000_000),
    (makes_and_stops, 32_768),
    (appended, 65_000),
]


@dataclass(frozen=True)
class Figures:
    """How much is read, in megabytes; milliseconds, or millions of instructions; the peak memory in
    megabytes, where it is measured."""

    size: float
    taken: float
    memory: str


def written(case: Case) -> float:
    """Writes the texts, and says how much they are."""
    texts = {"hostile.mk": case.makefile, "hostile.json": case.book, "hostile.more": case.more}
    for name, text in texts.items():
        Path(name).write_text(text)
    return sum(len(text) for text in texts.values()) / 2**20


def timed(command: list[str], status: int) -> tuple[float, str]:
    """The least time of some runs, and their peak memory."""
    taken = least([spent(command, {status}, Path(os.devnull)) for _ in range(RUNS)])
    return taken.time, f"{taken.memory:.0f}"


def measured(
    program: Path, case: Case, measure: Callable[[list[str], int], tuple[float, str]]
) -> Figures:
    """What a run over the texts takes."""
    size = written(case)
    taken, memory = measure([str(program), *case.words()], case.status)
    return Figures(size, taken, memory)


def show(
    program: Path,
    shape: Callable[[int], Case],
    count: int,
    measure: Callable[[list[str], int], tuple[float, str]],
) -> None:
    """Measures a shape at half of its size and at the whole, and prints a row."""
    half = measured(program, shape(count // 2), measure)
    whole = measured(program, shape(count), measure)
    label = f"{shape.__name__.replace('_', ' ')} {count}"
    print(
        f"{label:<24}{whole.size:>6.1f}{whole.taken:>10.1f}{whole.taken / half.taken:>8.2f}{whole.memory:>11}",
        flush=True,
    )


def main() -> None:
    parser = options(__doc__)
    parser.add_argument(
        "--instructions", action="store_true", help="count instructions in place of milliseconds"
    )
    parser.add_argument(
        "--shape",
        action="append",
        help="measure this shape alone, named as in the table, without its size",
    )
    given = parser.parse_args()
    program = executable(given.program)
    DATA.mkdir(exist_ok=True)
    os.chdir(DATA)
    measure, unit = timed, "ms"
    if given.instructions:
        count_of = counter()
        measure, unit = (
            lambda command, status: (count_of(command, status) / 10**6, "")
        ), "million"
    said = (
        "instructions of the program, one run"
        if given.instructions
        else f"processor time, least of {RUNS} runs"
    )
    print(f"{said}; {program}")
    print(
        f"{'texts':<24}{'MB':>6}{unit:>10}{'growth':>8}{'' if given.instructions else 'memory MB':>11}".rstrip()
    )
    for shape, count in SHAPES:
        if not given.shape or shape.__name__.replace("_", " ") in given.shape:
            show(program, shape, count, measure)
    print(f"{'at most':<40}{GROWTH_BOUND:>8.1f}")


if __name__ == "__main__":
    sys.exit(main())
