"""What is said of a build that fails: what failed, and the lines of its output that say why."""

from __future__ import annotations

import errno
import os
import re
from dataclasses import dataclass

from mkcheck_tools.faults import Fault
from mkcheck_tools.imports.builds import in_folder, path_name
from mkcheck_tools.imports.database import Rule
from mkcheck_tools.imports.gnumake import Make
from mkcheck_tools.imports.transcripts import printed

# How many lines of the output are shown, and how many of these come from its end.
SHOWN, OF_END = 20, 5
# How many lines are shown before the first error (such as "In file included from .."), and of a
# command.
IN_FRONT, OF_COMMAND = 3, 5
WIDTH = 400
OUTSIDE = re.escape(os.strerror(errno.EROFS))
# What an error looks like. The first line that matches the first pattern is taken; without one, the
# first that matches the second.
ERRORS = (
    re.compile(r"error( [A-Z]*\d+)?:|^Traceback \(|undefined reference|multiple definition", re.I),
    re.compile(
        r"\berror\b(?!\.[a-z])|not found|no such file|cannot|can't|could not|couldn't|unable to"
        r"|denied|failed|failure|fatal|abort|invalid|unrecognized|unexpected|missing|\*\*\* \[",
        re.I,
    ),
)
# What make says of what ends it.
OWN = re.compile(r"(?:\S*make(?:\[\d+\])?|\S+:\d+): \*\*\* ")
OF_RECIPE = re.compile(r"\S*make(?:\[\d+\])?: \*\*\* \[")
# The target of that line, and what stands in front of and behind the text of another one.
TARGET = re.compile(r"\*\*\* \[(?:\S+:\d+: )?(.*)\] ")
FRONT, END = re.compile(r".*?\*\*\* "), re.compile(r"(?:\.? +Stop)?\.?$")
# What ninja prints for a command that fails, and in front of each command that has ended.
FAILED = re.compile(r"FAILED: (?:\[code=-?\d+\] )?(.*?)\s*")
COUNT = re.compile(r"\[(\d+)/(\d+)\] ")
NINJA_STATUS = "[%f/%t] "
STOPPED = "ninja: build stopped: "


@dataclass(frozen=True)
class Failure:
    """What failed, its commands if known, and the lines of its output."""

    what: str
    commands: list[str]
    lines: list[str]
    others: str = ""
    """What else failed, in a sentence."""

    @property
    def brief(self) -> str:
        """What failed, with the first line of the error."""
        at = first_error(self.lines)
        said = self.lines[-1 if at is None else at].strip() if self.lines else "it printed nothing"
        return f"{self.what}: {said}" if self.what else said


class BuildFault(Fault):
    """A build failed. `front` says where, `end` what to do; `whole` leaves no line out."""

    def __init__(self, front: str, failure: Failure, end: str) -> None:
        self.front, self.failure, self.end = front, failure, end
        super().__init__(self.whole)

    @property
    def whole(self) -> str:
        """All of it."""
        return self.text(self.failure.commands, self.failure.lines)

    def short(self, log: str) -> str:
        """The same, with no more of the output than is needed, where the file `log` has all."""
        commands, lines = self.failure.commands, self.failure.lines
        if len(commands) > OF_COMMAND:
            left_out = len(commands) - OF_COMMAND + 1
            commands = [*commands[: OF_COMMAND - 1], f"({left_out} more lines, see {log})"]
        shown = self.text(*(list(map(cut, part)) for part in (commands, excerpt(lines, log))))
        return f"{shown}\n{log} has all that was printed"

    def text(self, commands: list[str], lines: list[str]) -> str:
        """The message with these lines."""
        shown = [f"\t{line}" for line in commands]
        others = [self.failure.others] if self.failure.others else []
        return "\n".join([self.front, *shown, *(lines or ["(no output)"]), *others, self.end])


def build_fault(failure: Failure, command: str, advice: str = "") -> BuildFault:
    """The fault of a build that fails; `command` is what has to succeed, and `advice` stands behind
    all."""
    where = f" at {failure.what}" if failure.what else ""
    if any(re.search(OUTSIDE, line) for line in failure.lines):
        front = f"the build failed{where}, since it writes outside of the project, which an import"
        front += " doesn't allow:"
        end = "let it write in the project or in the folders for temporary files, or import goals"
        end += " that don't need it"
    else:
        front = f"the build failed{where}, so it can't be recorded:"
        end = f"mend it until {command} succeeds, and import again"
    return BuildFault(front, failure, end + advice)


def cut(line: str) -> str:
    """A line without what is too long."""
    return line if len(line) <= WIDTH else f"{line[:WIDTH]} .."


def first_error(lines: list[str]) -> int | None:
    """The place of the first line that looks like an error; None where no line does."""
    for pattern in (re.compile(OUTSIDE), *ERRORS):
        for at, line in enumerate(lines):
            if pattern.search(line):
                return at
    return None


def excerpt(lines: list[str], log: str) -> list[str]:
    """The lines that matter: around the first error, and the last ones."""
    if len(lines) <= SHOWN:
        return lines
    end, at = len(lines) - OF_END, first_error(lines)
    latest = end - (SHOWN - OF_END)
    start = latest if at is None else max(min(at - IN_FRONT, latest), 0)
    stop = start + SHOWN - OF_END
    return [
        *left_out(start, log),
        *lines[start:stop],
        *left_out(end - stop, log),
        *lines[end:],
    ]


def left_out(count: int, log: str) -> list[str]:
    """The line that stands for lines that aren't shown."""
    return [f"({count} line{'s' if count > 1 else ''} left out, see {log})"] if count else []


def lines_of(text: str) -> list[str]:
    """The lines of a text, without empty ones at its ends."""
    return text.strip("\n").splitlines() if text.strip() else []


def failure_of_make(root: str, top: Make, makes: list[Make]) -> Failure:
    """What failed in a make that failed, which is one of `makes`: its last command, or that of a
    make below it."""
    make = top
    while below := below_last(make, makes):
        make = below
    errors = lines_of(make.last_errors)
    spots = make.transcript.spots
    if not spots or not any(OF_RECIPE.match(line) for line in errors):
        what = "" if make is top else f"make {in_folder(path_name(root, make.folder, '.'))}"
        first = next((at for at, line in enumerate(errors) if OWN.match(line)), None)
        # With -k make goes on after what fails.
        return Failure(what, [], lines_of(make.errors) if first is None else errors[first:])
    rule, command = spots[-1].rule, spots[-1].command
    name = path_name(root, make.folder, rule.name)
    if rule.makefile:
        name += f" ({path_name(root, make.folder, rule.makefile)}:{rule.line})"
    what = f"the recipe of {name}"
    if make.transcript.is_one_shell:
        # The output can't be told from the commands.
        return Failure(what, [], [*lines_of(printed(command.text)), *errors])
    output = lines_of(make.transcript.last_output)
    return Failure(what, lines_of(command.text), [*output, *errors])


def failure_of_asking(root: str, makes: list[Make]) -> str:
    """Where `make -n` failed, and the last line of the first error; empty where it didn't."""
    failed = [make for make in makes if make.status != 0]
    above = {id(make.parent) for make in failed}
    make = next((one for one in failed if id(one) not in above), None)
    if make is None:
        return ""
    lines = lines_of(make.errors)
    at = next((at for at, line in enumerate(lines) if "*** " in line), None)
    where = in_folder(path_name(root, make.folder, "."))
    if at is None:
        return f"{where}: {lines[-1] if lines else 'it printed nothing'}"
    found = TARGET.search(lines[at])
    if found is None:
        return f"{where}: {END.sub('', FRONT.sub('', lines[at]))}"
    said = lines[at - 1] if at and not OWN.match(lines[at - 1]) else "it printed nothing"
    rules = make.base.rules.get(found.group(1), [])
    commands = [command.text for rule in rules for command in rule.commands]
    command = f"the command `{' '.join(commands[-1].split())}`" if commands else "the recipe"
    return f"{where} at {command} of {found.group(1)}: {said.strip()}"


def failed_rule(top: Make, makes: list[Make]) -> tuple[Make, Rule] | None:
    """The rule whose recipe failed in a make that failed, which is one of `makes`, with its make;
    None where no recipe did."""
    make = top
    while below := below_last(make, makes):
        make = below
    spots = make.transcript.spots
    if not spots or not any(OF_RECIPE.match(line) for line in lines_of(make.last_errors)):
        return None
    return make, spots[-1].rule


def below_last(make: Make, makes: list[Make]) -> Make | None:
    """The first make that failed of those that the last command of a make started."""
    spots = make.transcript.spots
    command = spots[-1].command if spots else None
    return next(
        (
            one
            for one in makes
            if one.parent is make and one.started_by is command and one.status != 0
        ),
        None,
    )


def failure_of_ninja(output: str, errors: str) -> Failure:
    """What failed first in a build by ninja, which was to print `NINJA_STATUS`."""
    lines, said = lines_of(output), lines_of(errors)
    places = [at for at, line in enumerate(lines) if FAILED.fullmatch(line)]
    if not places:
        return Failure("", [], [*lines, *said])
    if lines[-1].startswith(STOPPED):
        del lines[-1]
    first = places[0]
    begin = max((at for at in range(first) if COUNT.match(lines[at])), default=0)
    behind = range(first + 1, len(lines))
    end = next((at for at in behind if comes_after(lines[at], lines[begin])), len(lines))
    # A command of the pool `console` prints its output itself, before ninja says that it failed.
    block = [*lines[begin + 1 : first], *lines[first + 2 : end], *said]
    later = [at for at in places if at >= end and comes_after(lines[at - 1], lines[begin])]
    others = [name_of(lines[at]) for at in later]
    some = ", ".join(others[:5]) + (" .." if len(others) > 5 else "")
    return Failure(
        f"the command of {name_of(lines[first])}",
        lines[first + 1 : first + 2],
        block,
        f"({len(others)} more failed: {some})" if others else "",
    )


def name_of(line: str) -> str:
    """The outputs of a command that failed, by the line that says so."""
    found = FAILED.fullmatch(line)
    return found.group(1) if found else ""


def comes_after(line: str, earlier: str) -> bool:
    """Whether ninja prints a line for a later command than an earlier line of the same build; a
    command may start a ninja of its own."""
    found, known = COUNT.match(line), COUNT.match(earlier)
    if found is None or known is None:
        return False
    return found.group(2) == known.group(2) and int(found.group(1)) > int(known.group(1))
