"""Measures the two lowest crates alone, beside `wc -l` and `make -n`, on the same texts, and prints
a table."""

import os
import sys
from dataclasses import dataclass
from pathlib import Path

from building import built
from run import DATA, Tool, installed
from spending import Measure, least, spent

RUNS = 11
GROWTH_BOUND = 2.5

LINES = 65_536
LINE = 255
REFERENCES = 60_000


def comments(count: int) -> str:
    """A makefile of lines of a comment, and a target without commands on the last one."""
    line = "#".ljust(LINE, "x") + "\n"
    return line * (count - 1) + "all:\n"


def references(count: int) -> str:
    """A text of references, each with a suffix to replace, 17 bytes each."""
    return "$(N:.c=.o) words " * count


def assigned(text: str) -> str:
    """A makefile that expands the text as it is read."""
    return f"N = x.c\nV ::= {text}\nall:\n"


@dataclass(frozen=True)
class Case:
    """What is measured: a task of the program over a text, and a peer over its own file."""

    label: str
    task: str
    text: str
    peer: tuple[str, ...]
    peer_text: str


def cases() -> list[tuple[Case, Case]]:
    """Each case, with the same of half the size."""
    make = ("make", "-n", "-r", "-f")
    found = []
    for label, task, size, write, wrap, peer in (
        ("16 MB of lines", "lines", LINES, comments, str, ("wc", "-l")),
        ("60,000 references", "expand", REFERENCES, references, assigned, make),
    ):
        whole, half = write(size), write(size // 2)
        found.append(
            (
                Case(label, task, whole, peer, wrap(whole)),
                Case(f"half: {label}", task, half, peer, wrap(half)),
            )
        )
    return found


def measure(case: Case, program: Path) -> tuple[Measure, Measure]:
    """The program and the peer take turns."""
    own_file, peer_file = DATA / "reading.txt", DATA / "reading.mk"
    own_file.write_text(case.text)
    peer_file.write_text(case.peer_text)
    own = Tool("mkcheck", str(program), (case.task,))
    path = installed(case.peer[0])
    if path is None:
        sys.exit(f"bench: {case.peer[0]} is not there")
    peer = Tool(case.peer[0], path, case.peer[1:])
    taken: tuple[list, list] = ([], [])
    for _ in range(RUNS):
        for tool, file, usages in ((own, own_file, taken[0]), (peer, peer_file, taken[1])):
            usages.append(spent([tool.path, *tool.arguments, str(file)], {0}, Path(os.devnull)))
    return least(taken[0]), least(taken[1])


def main() -> None:
    DATA.mkdir(exist_ok=True)
    program = built("reading", "mk_lines mk_macros anyhow", "", ["lines"])
    os.chdir(DATA)
    print(f"processor time, least of {RUNS} runs")
    print(
        f"{'text':<20}{'own ms':>9}{'peer':>8}{'peer ms':>9}{'ratio':>8}{'growth':>8}{'memory MB':>11}"
    )
    for whole, half in cases():
        own, peer = measure(whole, program)
        own_half, _ = measure(half, program)
        growth = own.time / own_half.time
        print(
            f"{whole.label:<20}{own.time:>9.1f}{whole.peer[0]:>8}{peer.time:>9.1f}{own.time / peer.time:>8.2f}{growth:>8.1f}{own.memory:>11.0f}"
        )
    print(f"{'growth at most':<46}{GROWTH_BOUND:>16.1f}")


if __name__ == "__main__":
    main()
