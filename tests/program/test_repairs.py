"""What `repair` adds to makefiles that are long, large or real."""

from __future__ import annotations

from pathlib import Path

import pytest
from program.runs import MOST, ROOT, Run, assert_answers, footprints

EXAMPLES = ROOT / "examples"
# An object, of whose header the makefile says nothing.
OBJECT = "p: a.o\n\tcc -o p a.o\na.o: a.c\n\tcc -c a.c\n"
HEADED = "p: a.o > p = cc -o p a.o; a.o: a.c h.h > a.o = cc -c a.c"
LACKING = "\na.o: h.h\n"
TOO_LONG = "with the lines that mend this the makefile would have more than 16777216 bytes\n"


def assert_repair(status: int, text: str, files: dict[str, str], folder: Path) -> None:
    """Asserts what `repair` prints, and that it mends; with status 1 on standard error alone."""
    out, err = ("", text) if status == 1 else (text, "")
    assert_answers(Run(["repair", "-b", "B"], status, out, err, files=files), folder)


def lines_of(lines: list[str]) -> str:
    """The lines, each with its newline."""
    return "".join(f"{line}\n" for line in lines)


def filled(text: str, size: int) -> str:
    """The text, with comments behind it, so that it has this size."""
    line = "#" + "x" * 65_534 + "\n"
    count, rest = divmod(size - len(text), len(line))
    return text + line * count + ("#" * (rest - 1) + "\n" if rest else "")


@pytest.mark.parametrize(
    "more, status, printed",
    [(0, 0, LACKING), (1, 1, "no stale a.o h.h\n" + TOO_LONG)],
    ids=["fits", "doesnt"],
)
def test_the_mended_makefile_must_fit(more: int, status: int, printed: str, tmp_path: Path) -> None:
    """With the added lines the makefile has at most 16,777,216 bytes."""
    makefile = filled(OBJECT, MOST - len(LACKING) + more)
    files = {"makefile": makefile, "B": footprints("a.c h.h", HEADED)}
    assert_repair(status, printed, files, tmp_path)


def chain(count: int) -> dict[str, str]:
    """A recipe r0 that reads a source s1, whose rule leads to a recipe r1 that reads a source s2,
    and so on: each round finds one read more, so there are as many rounds as sources."""
    rules = "".join(f"s{n}: r{n}\nr{n}:\n\tdo\n" for n in range(1, count + 1))
    reads = [f"r{n}: s{n + 1} > r{n} = do" for n in range(count)]
    sources = " ".join(f"s{n}" for n in range(1, count + 1))
    records = "; ".join([*reads, f"r{count}: > r{count} = do"])
    return {"makefile": "r0:\n\tdo\n" + rules, "B": footprints(sources, records)}


@pytest.mark.parametrize("count", [2, 63])
def test_each_round_may_find_more(count: int, tmp_path: Path) -> None:
    """The lines of all rounds are printed."""
    lines = [f"r{n}: s{n + 1}" for n in range(count)]
    assert_repair(0, "\n" + lines_of(lines), chain(count), tmp_path)


def test_a_makefile_is_judged_64_times(tmp_path: Path) -> None:
    """What a 65th round would mend is told."""
    tried = [f"tried r{n}: s{n + 1}" for n in range(63)]
    said = "with these lines mkcheck check says:"
    limit = "the makefile was judged 64 times: append these lines, and run mkcheck repair again"
    lines = ["no stale r0 s1", *tried, said, "no stale r63 s64", limit]
    assert_repair(1, lines_of(lines), chain(64), tmp_path)


SIZES = pytest.mark.parametrize("size, parts", [(666, [3]), (667, [2, 1])])


def names_of(letter: str, size: int, parts: list[int]) -> tuple[list[str], list[str]]:
    """Three names of this size, and the same as the words of lines with so many of them."""
    names = [f"{letter}{n}".ljust(size, letter) for n in range(3)]
    cuts = [names[: parts[0]], names[parts[0] :]]
    return names, [" ".join(cut) for cut in cuts if cut]


@SIZES
def test_prerequisites_of_a_line_are_cut(size: int, parts: list[int], tmp_path: Path) -> None:
    """Prerequisites of over 2,000 bytes go on another line."""
    headers, lines = names_of("h", size, parts)
    reads = " ".join(headers)
    files = {"makefile": "a:\n\tmk\n", "B": footprints(reads, f"a: {reads} > a = mk")}
    assert_repair(0, "\n" + lines_of([f"a: {line}" for line in lines]), files, tmp_path)


@SIZES
def test_targets_of_a_line_are_cut(size: int, parts: list[int], tmp_path: Path) -> None:
    """Targets of over 2,000 bytes go on another line, also those that become phony."""
    targets, lines = names_of("t", size, parts)
    rules = "".join(f"{name}:\n\tmk\n" for name in targets)
    makefile = f"all: {' '.join(targets)}\n{rules}"
    reads = "; ".join(f"{name}: h > {name} = mk" for name in targets)
    files = {"makefile": makefile, "B": footprints("h", reads)}
    assert_repair(0, "\n" + lines_of([f"{line}: h" for line in lines]), files, tmp_path)
    tried = "; ".join(f"{name}: > = mk" for name in targets)
    files = {"makefile": makefile, "B": footprints("", tried)}
    assert_repair(0, "\n" + lines_of([f".PHONY: {line}" for line in lines]), files, tmp_path)


def test_lines_in_sentences_are_cut(tmp_path: Path) -> None:
    """`check -w` cuts the lines to add as `repair` does."""
    headers, added = names_of("h", 667, [2, 1])
    reads = " ".join(headers)
    files = {"makefile": "a:\n\tmk\n", "B": footprints(reads, f"a: {reads} > a = mk")}
    lines = [
        f"makefile:1: a reads {headers[0]}, {headers[1]} and 1 more, but doesn't depend on "
        "them: when one changes, a stays old [stale]",
        *(f"  add: a: {line}" for line in added),
        "3 findings in 1 group; 2 lines mend all of them",
    ]
    assert_answers(Run(["check", "-w", "-b", "B"], 1, lines_of(lines), files=files), tmp_path)


def example(name: str, makefile: str) -> dict[str, str]:
    """The makefile and the footprints of an example."""
    folder = EXAMPLES / name
    book = (folder / "footprint.json").read_text()
    return {makefile: (folder / makefile).read_text(), "B": book}


def test_mends_the_makefile_of_figlet(tmp_path: Path) -> None:
    """Two objects lack one header."""
    lines = "\nfiglet.o utf8.o: utf8.h\n"
    assert_repair(0, lines, example("figlet", "Makefile"), tmp_path)


def test_right_examples_lack_nothing(tmp_path: Path) -> None:
    """The makefiles of lua and wordcount."""
    lua = Run(["repair", "all", "-b", "B"], 0, "", files=example("lua", "Makefile"))
    assert_answers(lua, tmp_path)
    assert_repair(0, "", example("wordcount", "makefile"), tmp_path)


def test_two_writers_of_awk_are_not_mended(tmp_path: Path) -> None:
    """The findings are printed, as they are stored, and why no lines are known."""
    found = (EXAMPLES / "awk" / "check.txt").read_text()
    found += (
        "no line mends `no writers awkgram.tab.c awkgram.tab.h awkgram.tab.h`: two recipes write"
        " one file; mkcheck check -w says what to do\n"
    )
    assert_repair(1, found, example("awk", "makefile"), tmp_path)


@pytest.mark.parametrize(
    "line, header", [("main.o", "table.h"), ("main.o", "reader.h"), ("reader.o", "reader.h")]
)
def test_finds_a_header_that_is_forgotten(line: str, header: str, tmp_path: Path) -> None:
    """The makefile of wordcount without one of its prerequisites."""
    files = example("wordcount", "makefile")
    rule = next(one for one in files["makefile"].splitlines() if one.startswith(f"{line}:"))
    forgotten = files["makefile"].replace(rule, rule.replace(f" {header}", ""))
    printed = f"\n{line}: {header}\n"
    assert_repair(0, printed, {**files, "makefile": forgotten}, tmp_path)
