"""Which recipes leave the same where a write to their target fails.

A compiler is a driver that starts an assembler, and a project has hundreds of such recipes, whose
commands are the same but for the names of one file. What these leave is decided by the assembler
and by what started it, and both are the same. An assembler may go on until it has written as much
as fits into its buffer, so the smallest and the largest target of such recipes are tried.
"""

from __future__ import annotations

import os
import re
from collections.abc import Iterable
from dataclasses import dataclass

from mkcheck_tools.replay.differences import is_file
from mkcheck_tools.replay.worlds import Trial
from mkcheck_tools.run.paths import Name


@dataclass(frozen=True)
class Way:
    """How recipes make their targets: commands in which names of the target's stem are left out,
    each with whether its failure is ignored; the folder, without such names too; the assembler, and
    what those read that started it."""

    commands: tuple[tuple[str, bool], ...]
    folder: str
    assembler: tuple[Name, ...]


def way_of(trial: Trial) -> Way | None:
    """How a recipe makes its target; None where an assembler alone doesn't write it."""
    target, effects = Name(trial.recipe.target), trial.effects
    if effects is None or not effects.assembled or not is_file(trial.after.get(target)):
        return None
    folder, base = os.path.split(target)
    names = "|".join(map(re.escape, stems_of(base)))
    stem = re.compile(rf"(?<![\w+-])(?:{names})(?=\.)")
    commands = tuple(
        ("\0".join(stem.sub("%", word) for word in command.words), command.ignored)
        for command in trial.recipe.commands
    )
    return Way(commands, stem.sub("%", folder), effects.assembled)


def stems_of(name: str) -> list[str]:
    """What the names of a target's files begin with, longest first: `a` for `a.o`, `a.c` and `a`
    for CMake's `a.c.o`, and `p-a` and `a` for Automake's `p-a.o`."""
    found = [os.path.splitext(name)[0]]
    while (shorter := os.path.splitext(found[-1])[0]) != found[-1]:
        found.append(shorter)
    _, dash, last = found[-1].partition("-")
    return [*found, last] if dash and last else found


def groups_of(trials: Iterable[tuple[int, Trial, int]]) -> list[list[int]]:
    """The numbers of recipes that are alike, the smallest and the largest target of each group
    first. The recipes come with the sizes of their targets."""
    found: dict[Way | int, list[tuple[int, int]]] = {}
    for number, trial, size in trials:
        found.setdefault(way_of(trial) or number, []).append((size, number))
    groups = [[number for _, number in sorted(group)] for group in found.values()]
    return [[*group[:1], *group[:0:-1]] for group in groups]
