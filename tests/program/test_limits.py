"""Makefiles at their limits, and one step beyond them."""

from __future__ import annotations

from pathlib import Path

import pytest
from program.runs import Run, assert_answers


def assert_graph(makefile: str, printed: str, folder: Path) -> None:
    """Asserts what `graph` prints of a makefile."""
    status = 2 if printed.startswith("refused") else 0
    assert_answers(Run(["graph"], status, printed, files={"makefile": makefile}), folder)


@pytest.mark.parametrize(
    "count, printed", [(256, "goals all\nall:\n"), (257, "refused 14 makefile:258\n")]
)
def test_values_may_nest_256_deep(count: int, printed: str, tmp_path: Path) -> None:
    """Macros, each of which is in the value of the one before it."""
    chain = "".join(f"A{number} = $(A{number + 1})\n" for number in range(1, count))
    assert_graph(f"{chain}A{count} =\nall: $(A1)\n", printed, tmp_path)


def doubled(first: str, operator: str, count: int) -> str:
    """Definitions of macros, each of which refers twice to the one before it."""
    lines = [
        f"A{number} {operator} $(A{number - 1})$(A{number - 1})\n" for number in range(1, count)
    ]
    return f"A0 {operator} {first}\n" + "".join(lines)


@pytest.mark.parametrize(
    "line, printed",
    [
        ("all: $(A15)$(A0)\n", "goals all\nall:\n"),
        ("all: $(A15)$(A0)$(A0)\n", "refused 14 makefile:17\n"),
    ],
)
def test_a_text_may_have_65536_references(line: str, printed: str, tmp_path: Path) -> None:
    """References within values are counted too."""
    assert_graph(doubled("", "=", 16) + line, printed, tmp_path)


@pytest.mark.parametrize(
    "lines, printed",
    [
        ("B ::= $(A10)\nall:\n", "goals all\nall:\n"),
        ("B ::= $(A10)x\nall:\n", "refused 15 makefile:12\n"),
        ("all:$(A10)\n", "refused 27 makefile:12\n"),
        ("all:x$(A10)\n", "refused 15 makefile:12\n"),
    ],
)
def test_a_value_may_have_1048576_bytes(lines: str, printed: str, tmp_path: Path) -> None:
    """Of values that are stored, and of lines that are expanded."""
    assert_graph(doubled("x" * 1_024, "::=", 11) + lines, printed, tmp_path)


def star(count: int) -> str:
    """The rule line of a target with this many prerequisites."""
    return "all:" + "".join(f" n{number}" for number in range(count))


def test_goals_may_reach_4096_names(tmp_path: Path) -> None:
    """A target and 4,095 prerequisites."""
    nodes = "".join(f"n{number}:\n" for number in range(4_095))
    assert_graph(star(4_095), f"goals all\n{nodes}{star(4_095)}\n", tmp_path)


def test_goals_may_not_reach_4097_names(tmp_path: Path) -> None:
    """A target and 4,096 prerequisites."""
    assert_graph(star(4_096), "refused 43\n", tmp_path)
