"""What ends a recording: each fault has its message and the status of the program."""

from __future__ import annotations

import errno
import os
import traceback
from collections.abc import Sequence
from dataclasses import dataclass

# The errors of a disk that is full, or of which a user may have no more.
FULL = (errno.ENOSPC, errno.EDQUOT)
# What the sentence on a recipe that failed has behind the name of its target, and no other one.
FAILED = " failed, status "
# How many of the last lines are shown of what such a recipe printed, and of the details of a fault.
LINES_AT_MOST = 10


class Fault(Exception):
    """Something is missing, or is not as it has to be: nothing can be recorded."""

    status = 2


class RecipeFault(Fault):
    """A recipe failed, or did what no footprint can say. `targets` names the recipes that have no
    record for that, if the fault is that of a whole footprint file. `makers` are targets that are
    made later, and that the recipe looked for in vain."""

    status = 1

    def __init__(
        self, text: str, targets: Sequence[str] = (), makers: Sequence[str] = ()
    ) -> None:
        super().__init__(text)
        self.targets, self.makers = tuple(targets), tuple(makers)


class MakeFault(RecipeFault):
    """A recipe starts a make, in this folder, `.` for the project's own. The text is the fact and
    what helps."""

    def __init__(self, fact: str, cure: str, folder: str) -> None:
        super().__init__(f"{fact}; {cure}")
        self.fact, self.folder = fact, folder


@dataclass(frozen=True)
class Failure:
    """Why the recipe of a target has no record."""

    target: str
    text: str
    fact: str = ""
    """The text without what helps, where that is known; else empty."""

    make_in: str | None = None
    """The folder in which the recipe starts a make, if it does."""

    makers: tuple[str, ...] = ()
    """Targets that are made later, and that a recipe which failed looked for in vain."""


def last_lines(text: str, log: str) -> str:
    """What is said of a recipe that failed, with the last lines of what it printed; the file `log`
    has all. Of another fault the sentence with its details, such as the line that differs."""
    first, *rest = text.rstrip("\n").split("\n")
    if FAILED in first and rest:
        shown = [f"        {line}" for line in rest[-LINES_AT_MOST:]]
        return "\n".join([f"{first}; its last lines, of all in {log}:", *shown])
    shown = [f"        {line.removeprefix(chr(9))}" for line in rest[:LINES_AT_MOST]]
    left = len(rest) - len(shown)
    if left:
        shown.append(f"        and {left} more line{'s' * (left > 1)} in {log}")
    return "\n".join([first, *shown])


def failure_of(error: Exception, target: str) -> Failure:
    """That a recipe can't be recorded for an error, which may be the recorder's mistake."""
    if isinstance(error, MakeFault):
        return Failure(target, str(error), error.fact, error.folder)
    if isinstance(error, RecipeFault):
        return Failure(target, str(error), makers=error.makers)
    text = f"the recipe of {target} can't be recorded: {mistake_of(error, 'recorder')}"
    return Failure(target, text)


def sentence_of(error: Exception, program: str) -> str:
    """What is said of an error; one that nobody thought of is a mistake of the program itself."""
    return mistake_of(error, program, ", and nothing is written")


def mistake_of(error: Exception, program: str, more: str = "") -> str:
    """The same, with what it means besides where it is the program's mistake."""
    if isinstance(error, OSError) and error.errno in FULL:
        where = error.filename or "a file"
        return f"{where} can't be written, since the disk is full: make room there, and try again"
    if isinstance(error, (Fault, OSError)):
        return str(error)
    last = traceback.extract_tb(error.__traceback__)[-1]
    where = f"{os.path.basename(last.filename)}, line {last.lineno}"
    return (
        f"this is a mistake of the {program} itself{more}:"
        f" {type(error).__name__} in {where}: {error}"
    )
