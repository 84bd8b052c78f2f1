"""Reads the plan that `check -e` prints: makes, edits, and what recipes look at and write."""

from __future__ import annotations

from dataclasses import dataclass, field
from typing import Union


@dataclass
class Run:
    """A recipe in a make: its steps that matter, in order, or that it was passed."""

    target: str
    passed: bool = False
    steps: list[tuple[str, str]] = field(default_factory=list)

    def does(self, what: str, file: str) -> bool:
        """Whether it looks at a file (`look`) or writes it (`put`)."""
        return (what, file) in self.steps


@dataclass
class Make:
    """A make, with its recipes in the order in which they began."""

    runs: list[Run] = field(default_factory=list)


@dataclass(frozen=True)
class Edit:
    """An edit of a source between makes."""

    file: str


Phase = Union[Make, Edit]


def phases_of(lines: list[str], reader: str, file: str) -> list[Phase]:
    """The phases of a plan as `check -e` writes it: one job, and no `run` or `finish`. Of the steps
    those are kept that look at a file or write it, and what a reader writes."""
    phases: list[Phase] = []
    # A plan has a line for each read of each recipe, of which these are few.
    fronts = ("make", "edit ", "begin ", "pass ", f"put {reader} ")
    of_file = f" {file}"
    for line in [one for one in lines if one.startswith(fronts) or of_file in one]:
        word, _, rest = line.partition(" ")
        make = phases[-1] if phases else None
        if word == "make":
            phases.append(Make())
        elif word == "edit":
            phases.append(Edit(rest.split(" ")[0]))
        elif not isinstance(make, Make):
            continue
        elif word in ("begin", "pass"):
            make.runs.append(Run(rest, word == "pass"))
        elif word in ("look", "put"):
            name = rest.split(" ")[1]
            run = make.runs[-1]
            if name == file or (word == "put" and run.target == reader):
                run.steps.append((word, name))
    return phases
