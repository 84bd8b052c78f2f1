"""Other runs of the same recipes, and where they differ from the first."""

from __future__ import annotations

import shlex
import shutil
import stat
from dataclasses import dataclass
from pathlib import Path

from mkcheck_tools.answers.graphs import Recipe
from mkcheck_tools.faults import Fault, RecipeFault
from mkcheck_tools.judge.footprints import Footprint, footprint_of
from mkcheck_tools.judge.notes import Kind, Note, Warn, ignore
from mkcheck_tools.record.recording import Recorded, Workshop
from mkcheck_tools.run import places
from mkcheck_tools.run.folders import Naming, plain_folder, temporary_folder
from mkcheck_tools.run.paths import SeenPath
from mkcheck_tools.trace import tracing
from mkcheck_tools.trace.accesses import Accesses, Follower

# The shell that make is told to use: it traces each command, and notes in which order they came.
# Inside a traced command it is the plain shell, since a make that a recipe starts gets it too.
# GNU make puts its name into the variable SHELL where the environment has none, which is undone.
SHELL_NAME = "shell"
SHELL = """#!/bin/sh
{restored}
if [ -n "$MKCHECK_RECORD_TRACED" ]; then exec {shell} "$@"; fi
MKCHECK_RECORD_TRACED=1; export MKCHECK_RECORD_TRACED
for text; do :; done
printf '%s' "$text" > {folder}/$$.text
echo $$ >> {folder}/order
exec {strace} {folder}/$$.trace {shell} "$@"
"""


@dataclass(frozen=True)
class Traced:
    """A command that make ran: its text, and the file of its trace."""

    text: str
    trace: Path


def compare_again(first: Recorded, second: Recorded, warn: Warn) -> None:
    """Warns of each file that a second run of its recipe left with other contents."""
    others = {
        footprint.recipe.target: contents
        for footprint, contents in zip(second.footprints, second.contents)
    }
    for footprint, one in zip(first.footprints, first.contents):
        two = others.get(footprint.recipe.target, one)
        for name in [*one, *(name for name in two if name not in one)]:
            if one.get(name) != two.get(name):
                target = footprint.recipe.target
                text = (
                    f"{name} differs in a second run: the recipe of {target} isn't a function of"
                    " what it reads"
                )
                warn(Note(target, Kind.AGAIN, text))


def compare_make(shop: Workshop, words: list[str], recorded: Recorded, warn: Warn) -> None:
    """Lets make run the recipes on another copy, and warns of reads and writings that differ."""
    if shutil.which("make") is None:
        raise Fault("make isn't there, which --make lets run the recipes")
    tree = shop.set_up(warn)
    # make takes the name of a shell apart at blanks and the like.
    above = plain_folder(shop.scratch)
    with temporary_folder(above) as traces:
        made = run_make(shop, words, traces, shell_of(recorded))
        naming = Naming(shop.place.seen, shop.fixed, shop.steady)
        commands = assigned([footprint.recipe for footprint in recorded.footprints], made, warn)
        for footprint in recorded.footprints:
            accesses = Accesses(tree)
            if len(commands[footprint.recipe.target]) != len(footprint.recipe.commands):
                continue
            for traced in commands[footprint.recipe.target]:
                Follower(accesses, shop.place.seen).follow(tracing.read_trace(traced.trace))
                # A make that the recipe starts gets the shell of this one, which is none of the
                # project's files.
                accesses.reads.pop(SeenPath(str(traced.trace.parent / SHELL_NAME)), None)
            accesses.servers.clear()
            other = footprint_of(footprint.recipe, accesses, naming, ignore)
            differences(footprint, other, warn)


def run_make(shop: Workshop, words: list[str], traces: str, own: str) -> list[Traced]:
    """Runs make by a shell that traces and then is `own`; returns its commands in order."""
    shell = Path(traces, SHELL_NAME)
    given = tracing.environment(shop.place, {})
    named = given.get(tracing.SHELL)
    text = SHELL.format(
        restored="unset SHELL" if named is None else f"SHELL={shlex.quote(named)}; export SHELL",
        folder=shlex.quote(traces),
        strace=shlex.join(tracing.strace()),
        shell=shlex.join(own.split()),
    )
    shell.write_text(text)
    shell.chmod(shell.stat().st_mode | stat.S_IXUSR)
    # By its bare name, since that is then the value of MAKE, as it is in mkcheck's default text.
    done = places.run(["make", *words, f"SHELL={shell}"], shop.place, given)
    if done.status != 0:
        raise RecipeFault(f"make failed, status {done.status}\n{done.output}".rstrip())
    order = Path(traces, "order")
    numbers = order.read_text().split() if order.exists() else []
    return [
        Traced(Path(traces, f"{number}.text").read_text(), Path(traces, f"{number}.trace"))
        for number in numbers
    ]


def shell_of(recorded: Recorded) -> str:
    """The shell by which the recipes were run."""
    return next((footprint.recipe.shell for footprint in recorded.footprints), "/bin/sh")


def assigned(recipes: list[Recipe], made: list[Traced], warn: Warn) -> dict[str, list[Traced]]:
    """The commands that make ran, by their recipes; of equal ones the first that waits."""
    waiting: dict[str, list[str]] = {}
    for recipe in recipes:
        for command in recipe.commands:
            waiting.setdefault(plain(command.text), []).append(recipe.target)
    found: dict[str, list[Traced]] = {recipe.target: [] for recipe in recipes}
    for traced in made:
        targets = waiting.get(plain(traced.text))
        if targets:
            found[targets.pop(0)].append(traced)
        else:
            warn(Note("", Kind.MAKE, f"make runs a command that no recipe has: {traced.text}"))
    for text, targets in waiting.items():
        for target in targets:
            warn(Note(target, Kind.MAKE, f"make doesn't run a command of {target}: {text}"))
    return found


def plain(text: str) -> str:
    """A command by its words, since makes differ in the blanks that they keep."""
    return " ".join(text.replace("\\\n", " ").split())


def differences(own: Footprint, other: Footprint, warn: Warn) -> None:
    """Warns of what only one of two footprints has."""
    target = own.recipe.target
    for verb, ours, theirs in (
        ("reads", own.reads, other.reads),
        ("writes", own.writes, other.writes),
    ):
        for name in (name for name in ours if name not in set(theirs)):
            warn(Note(target, Kind.MAKE, f"{target} {verb} {name}, but not when make runs it"))
        for name in (name for name in theirs if name not in set(ours)):
            warn(Note(target, Kind.MAKE, f"{target} {verb} {name} when make runs it, but not else"))
