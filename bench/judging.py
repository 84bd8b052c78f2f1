"""Measures `static_findings` and `verify` alone, over a subject that is made from bytes once, and
the making of that subject, and prints a table.

The times are those of the program's own clock. The instructions are what ten calls more take,
divided by ten.
"""

import os
import subprocess
import sys
from dataclasses import dataclass
from pathlib import Path

from building import built
from certificates import VERIFIED
from instructions import counter
from run import DATA, RUNS, asked
from spending import in_turns, spent
from verdicts import GROWTH_BOUND, Build, written

LIBRARIES = (
    "mk_build mk_cert mk_cert_text mk_find mk_foot mk_graph mk_infer mk_infer_select mk_lines "
    "mk_read mk_read_parse mk_subject anyhow"
)
# What the run that builds the program is given: a makefile of one target, and its footprints.
EMPTY = "all:\n"
NO_BOOK = '{"format":1,"fixed":[],"sources":[],"records":[]}'
# How many calls `often` makes more than `once`.
MORE_CALLS = 10


@dataclass(frozen=True)
class Call:
    """A call over the build of these files: of `verify`, where the last one is a certificate."""

    program: Path
    files: list[str]

    def words(self, often: str) -> list[str]:
        """The words of the command line."""
        return [str(self.program), often, *self.files]

    def times(self, often: str = "often") -> tuple[float, float]:
        """The least milliseconds of its calls, and those of the making of the subject; nothing is
        found of these builds."""
        done = subprocess.run(self.words(often), capture_output=True, text=True, check=True)
        taken, found, made = done.stdout.split()
        if found != "0":
            sys.exit(f"bench: {' '.join(self.words(often))}: {found} findings")
        return int(taken) / 1_000, int(made) / 1_000

    def time(self) -> float:
        """The least milliseconds of its calls."""
        return self.times()[0]

    def time_once(self) -> float:
        """The milliseconds of one call, right behind the making of the subject."""
        return self.times("once")[0]

    def time_made(self) -> float:
        """The milliseconds of the making of the subject."""
        return self.times("once")[1]


def calls(program: Path, mkcheck: str, build: Build, label: str) -> list[Call]:
    """`static_findings` of a build, and `verify` of the certificate that `check` gives."""
    makefile, book = written(build, label)
    certificate = DATA / f"{label}.cert"
    spent([mkcheck, "check", "-f", makefile.name, "-b", book.name, "-c"], {0}, certificate)
    files = [str(makefile), str(book)]
    return [Call(program, files), Call(program, [*files, str(certificate)])]


def main() -> None:
    mkcheck = asked(__doc__)[0].path
    DATA.mkdir(exist_ok=True)
    (DATA / "certificates").mkdir(exist_ok=True)
    (DATA / "judging.book").write_text(NO_BOOK)
    program = built("judging", LIBRARIES, EMPTY, ["once"], [str(DATA / "judging.book")])
    os.chdir(DATA)
    count = counter()
    print(
        f"elapsed time in milliseconds, least of {RUNS} runs with {MORE_CALLS + 1} calls each, and with one, and millions of instructions of one call"
    )
    print(
        f"{'build':<18}{'call':<17}{'ms':>8}{'growth':>8}{'once ms':>10}{'growth':>8}{'million':>10}{'growth':>8}"
    )
    for shape, smaller, whole in VERIFIED:
        sizes = [
            calls(program, mkcheck, shape(size), label)
            for size, label in ((smaller, "half"), (whole, "whole"))
        ]
        for name, half, full in zip(("static_findings", "verify"), *sizes):
            small, great = map(min, in_turns([half.time, full.time], RUNS))
            first, last = map(min, in_turns([half.time_once, full.time_once], RUNS))
            few, many = (
                (count(one.words("often"), 0) - count(one.words("once"), 0)) / MORE_CALLS / 10**6
                for one in (half, full)
            )
            times = f"{great:>8.2f}{great / small:>8.2f}{last:>10.2f}{last / first:>8.2f}{many:>10.1f}{many / few:>8.2f}"
            print(f"{f'{shape.__name__} {whole}':<18}{name:<17}{times}", flush=True)
        small, great = map(min, in_turns([size[0].time_made for size in sizes], RUNS))
        print(
            f"{f'{shape.__name__} {whole}':<18}{'the subject':<33}{great:>10.2f}{great / small:>8.2f}",
            flush=True,
        )
    print(f"{'at most':<35}{GROWTH_BOUND:>16.2f}{GROWTH_BOUND:>18.2f}{GROWTH_BOUND:>18.2f}")


if __name__ == "__main__":
    main()
