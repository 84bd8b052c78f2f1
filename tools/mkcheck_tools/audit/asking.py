"""What an audit is asked for: by its words, and by the project's settings."""

from __future__ import annotations

import os
from collections.abc import Sequence
from dataclasses import dataclass, replace

from mkcheck_tools.audit.accepting import Accepted
from mkcheck_tools.audit.readers import Reader, Wanted
from mkcheck_tools.audit.settings import Settings
from mkcheck_tools.faults import Fault
from mkcheck_tools.run.paths import RealPath

TEXT, JSON, SARIF, GITHUB, HTML = "text", "json", "sarif", "github", "html"
FORMATS = (TEXT, JSON, SARIF, GITHUB, HTML)


@dataclass(frozen=True)
class Output:
    """A form of the answer, and the path of the file it goes to; standard output without one."""

    form: str
    path: str | None = None


@dataclass(frozen=True)
class Asked:
    """An audit: of which project, and what becomes of the answer."""

    root: RealPath
    below: str = "."
    makefile: str | None = None
    reader: str | None = None
    words: tuple[str, ...] = ()
    """Goals and macro operands."""

    fixed: tuple[str, ...] = ()
    trusted: tuple[str, ...] = ()
    jobs: int | None = None
    replay: bool = True
    record: bool = True
    """Whether what has changed is recorded; else what was recorded before is judged."""

    fresh_only: bool = False
    """Whether footprints of other sources than today's are no evidence."""

    allow_unjudged: bool = False
    accepted: tuple[Accepted, ...] = ()
    new_baseline: str | None = None
    """The file into which all findings of today are written as accepted."""

    outputs: tuple[Output, ...] = (Output(TEXT),)
    """Where the answer goes, in which forms."""

    @property
    def wanted(self) -> Wanted:
        """What is to be read."""
        return Wanted(self.root, self.below, self.makefile, self.reader, self.words)

    def wanted_by(self, reader: Reader) -> Wanted:
        """The same by the reader that was picked. A makefile that mkcheck takes by itself isn't
        named to it."""
        return Wanted(self.root, reader.below, self.makefile, reader.kind, self.words)


# The forms of files, by the ends of their names.
ENDS = {".json": JSON, ".sarif": SARIF, ".html": HTML, ".htm": HTML, ".txt": TEXT}
# Those that no other form has.
OWN_ENDS = (SARIF, HTML)


def outputs_of(words: Sequence[tuple[str, str]]) -> tuple[Output, ...]:
    """The outputs that options ask for, which are given in their order: `format` with a form, and
    `o` with a file, which belongs to the form in front of it, unless its name ends as another one.
    Raises Fault where they don't fit."""
    found: list[Output] = []
    for option, value in words:
        if option == "format":
            found.append(Output(value))
            continue
        path = os.path.abspath(value)
        named = ENDS.get(os.path.splitext(value)[1])
        waits = bool(found) and found[-1].path is None
        if waits and (named not in OWN_ENDS or named == found[-1].form):
            found[-1] = replace(found[-1], path=path)
        elif named is not None:
            found.insert(len(found) - waits, Output(named, path))
        else:
            raise Fault(f"-o {value}: say its form in front of it, as in --format json -o {value}")
    printed = [one.form for one in found if one.path is None]
    if len(printed) > 1:
        raise Fault(
            f"only one form goes to standard output, and {' and '.join(printed)} would: give the"
            " others a file by -o"
        )
    return (*found,) if printed else (Output(TEXT), *found)


def words_over(given: Sequence[str], settings: Settings) -> tuple[str, ...]:
    """Goals and macros of the command line, and those of the settings that it leaves open."""
    macros = {name_of(word): word for word in settings.macros}
    macros.update((name_of(word), word) for word in given if "=" in word)
    goals = [word for word in given if "=" not in word]
    return (*macros.values(), *(goals or settings.goals))


def name_of(word: str) -> str:
    """The name of a macro operand."""
    return word.partition("=")[0].rstrip(": \t")


def use_processors(jobs: int | None) -> None:
    """Lets this program, and all that it starts, use at most `jobs` processors; all without it."""
    if jobs is not None and hasattr(os, "sched_setaffinity"):
        os.sched_setaffinity(0, sorted(os.sched_getaffinity(0))[:jobs])
