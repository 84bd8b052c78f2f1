"""Runs GNU make, and reads what it and all makes that it starts say of a build.

Three handles, none of which changes a makefile:

- The macro `IFS`, which GNU make expands before each command: it prints a mark with the target and
  the shell.
- `MAKE=WRAPPER`: each recursive make goes through a script that keeps its words, folder,
  environment and output apart.
- `-p`: the data base, with joined prerequisites, implicit rules that were found, order-only and
  phony ones.
"""

from __future__ import annotations

import functools
import hashlib
import os
import re
import shlex
import shutil
import subprocess
from collections.abc import Mapping, Sequence
from dataclasses import dataclass, field
from pathlib import Path

from mkcheck_tools.faults import Fault
from mkcheck_tools.imports.database import OWN, Database, Shown, joined
from mkcheck_tools.imports.jobs import jobs_by_makefiles, jobs_of, may_say_jobs
from mkcheck_tools.imports.transcripts import (
    BEGINNING,
    MARK,
    MARKING,
    Transcript,
    marking,
    read_transcript,
)
from mkcheck_tools.run.paths import SeenPath
from mkcheck_tools.run.places import Place, run
from mkcheck_tools.trace.tracing import UNCACHED

# Variables that make and the shell set for each process, and those of this program.
OF_THE_TOOL = re.compile(
    r"(MAKE|MAKEFLAGS|MAKELEVEL|MAKEOVERRIDES|MAKEFILES|MAKE_(COMMAND|RESTARTS|TERMOUT|TERMERR)"
    r"|MFLAGS|GNUMAKEFLAGS|MKIMPORT_\w+|PWD|OLDPWD|SHLVL|_|IFS)$"
)
# Options of make with a value, by their letters and their long names.
WITH_VALUE = "CfIoWE"
LONG_WITH_VALUE = (
    "--directory", "--file", "--makefile", "--include-dir", "--old-file", "--assume-old",
    "--what-if", "--new-file", "--assume-new", "--eval",
)  # fmt: skip
# An option that names the folder of a make, perhaps behind others without a value.
FOLDER = re.compile(r"(-[^-CfIoWEl=]*)C(.*)|(--directory)(?:=(.*))?", re.DOTALL)
# Options that change neither which rules a make knows nor what they do.
HARMLESS = re.compile(
    r"-C.*|--directory.*|-[bmknpstwS]*(j\s*\d*)?|--(no-)?print-directory|--silent|--quiet"
    r"|--keep-going|--(jobs|output-sync|trace|debug)\S*|-[jlO]\S*|MAKE=.*|(MKIMPORT_)?IFS=.*",
    re.DOTALL,
)
# Options by which a make runs nothing, or takes files for up to date or for new.
PASSING = re.compile(
    r"-[BbdeikmprRsSvw]*[tqnoW].*|--(touch|question|just-print|dry-run|recon|old-file|assume-old"
    r"|what-if|new-file|assume-new)\b.*",
    re.DOTALL,
)
# The name of a makefile that is never there. Make tries to make it before the goals, and so writes
# down the environment of recipes.
ENVIRONMENT = f"{OWN}environment"
EVAL = f"""unexport IFS {MARKING}
$(info {BEGINNING})
-include {ENVIRONMENT}
{ENVIRONMENT}: ; +@env -0 > "$$MKIMPORT_ENV"
.DEFAULT_GOAL :="""

# The time, in seconds, of a file that stands for one that another make makes.
OLD = 1
WRAPPER = r"""#!/bin/sh
# One line of arguments a make; each has files of its own. Names with an underscore behind them are
# this script's: one of the environment that had such a name would get another value.
D_=@SCRATCH@
# What only other makes make stands there while a make is asked, and not while makes below it are.
show() {
    [ ! -f "$1" ] || while read -r f_; do [ -e "$f_" ] || touch -d @1 "$f_" 2>/dev/null; done < "$1"
}
hide() {
    [ ! -f "$1" ] || while read -r f_; do
        [ ! "$f_" -ot "$D_/lacks/old" ] || rm -f "$f_"
    done < "$1"
}
t_=0
while ! mkdir "$D_/lock" 2>/dev/null; do
    # Another make has the lock for a moment: one that stays is of a make that was killed. Where
    # there is none, it can't be made.
    [ -d "$D_/lock" ] && t_=$((t_ + 1)) || t_=$((t_ + 30))
    if [ ! -w "$D_" ] || [ $t_ -gt 6000 ]; then
        echo "mkcheck-import: a recipe starts make where $D_ can't be written" >&2
        exit 2
    fi
    sleep 0.01
done
n_=$(cat "$D_/count"); n_=$((n_ + 1)); echo $n_ > "$D_/count"
rmdir "$D_/lock"
at_=$(stat -c %s "$MKIMPORT_OUT" 2>/dev/null || stat -f %z "$MKIMPORT_OUT")
up_=$MKIMPORT_OUT
MKIMPORT_OUT=$D_/$n_.out MKIMPORT_ERR=$D_/$n_.err MKIMPORT_ENV=$D_/$n_.env
export MKIMPORT_OUT MKIMPORT_ERR MKIMPORT_ENV
printf '%s\0' "$PWD" "$up_" "$at_" "$@" > "$D_/$n_.args"
if [ -d "$D_/lacks" ]; then
    above_=$MKIMPORT_LACKS MKIMPORT_LACKS=$D_/$n_.lacks
    export MKIMPORT_LACKS
    own_=$D_/lacks/$(printf '%s\0' "$PWD" "$@" | sha256sum | cut -c 1-64)
    [ ! -f "$own_" ] || cp "$own_" "$MKIMPORT_LACKS"
    hide "$above_"; show "$MKIMPORT_LACKS"
fi
# One job, whatever its words say: with several a race could show, and outputs come mixed. Behind
# `--` there are no options.
case " $* " in
(*" -- "*) @MAKE@ --no-print-directory "$@" > "$D_/$n_.out" 2>> "$MKIMPORT_ERR" ;;
(*) @MAKE@ --no-print-directory "$@" -j1 > "$D_/$n_.out" 2>> "$MKIMPORT_ERR" ;;
esac
s_=$?
if [ -d "$D_/lacks" ]; then
    hide "$MKIMPORT_LACKS"; show "$above_"
fi
echo $s_ > "$D_/$n_.status"
sed -z 's/@MARK@//g' "$D_/$n_.err" >&2
exit $s_
"""


@dataclass(frozen=True)
class Start:
    """How a make is started."""

    program: str
    folder: str
    """The path of the folder in which it starts, as it sees it."""

    words: tuple[str, ...]
    more: Mapping[str, str] = field(default_factory=dict)
    """Further variables of its environment."""

    def command(self, *words: str, program: str = "") -> list[str]:
        """The words that start it with these options, or another program with them."""
        enter = 'cd "$1" && shift && exec "$@"'
        words = (program or self.program, *words, *self.words)
        return ["/bin/sh", "-c", enter, "sh", self.folder, *words]

    @property
    def environment(self) -> dict[str, str]:
        """The environment in which it is started."""
        return {**outer_environment(), **self.more}


@dataclass(frozen=True)
class Wait:
    """A target of the makes in a folder that is to wait for another one, which its makefile doesn't
    say."""

    folder: str
    target: str
    maker: str

    @property
    def text(self) -> str:
        """What tells makes so."""
        rule = f"$(eval {self.target}: | {self.maker})"
        return f"$(if $(filter {self.folder},$(CURDIR)),{rule})\n"


@dataclass(frozen=True)
class Question:
    """What a make that is started is to do and to show."""

    is_real: bool
    """Whether it builds; else it only shows commands (`-n`)."""

    watched: Sequence[str] = ()
    """The macros whose values are shown with the commands of each target."""

    seconds: float | None = None
    """How long it may take."""

    lacks: Mapping[str, Sequence[str]] = field(default_factory=dict)
    """By calls of make the paths of files that stand there while that make runs, empty and old."""

    waits: Sequence[Wait] = ()
    """What waits for something else than makefiles say."""


@dataclass
class Make:
    """One make that ran: where, with which words, and what it said."""

    number: int
    words: list[str]
    folder: str
    environment: dict[str, str]
    transcript: Transcript
    status: int
    errors: str
    parent: "Make | None" = None
    started_by: Shown | None = None
    """The command of the parent that started it."""

    last_errors: str = ""
    """What stands in `errors` behind the output of all but the last command."""

    jobs_by_makefiles: int | None = None
    """How many jobs its makefiles say that it has, where its words don't."""

    call: str = ""
    """What tells its call from those of others, in each question the same."""

    @property
    def base(self) -> Database:
        """Its data base."""
        return self.transcript.base

    @property
    def goals(self) -> list[str]:
        """Its goals, as its makefile names them."""
        values = self.base.values
        words = values.get("MAKECMDGOALS", "").split() or values.get(".DEFAULT_GOAL", "").split()
        return joined(words, self.base)

    @property
    def makefiles(self) -> list[str]:
        """The makefiles that it read, as it names them."""
        return self.base.values.get("MAKEFILE_LIST", "").split()

    @property
    def ignores_failures(self) -> bool:
        """Whether it was told to go on whatever fails, by `-i`."""
        flags = re.match(r"[A-Za-z]*", self.environment.get("MAKEFLAGS", ""))
        return flags is not None and "i" in flags.group()

    @functools.cached_property
    def has_one_job(self) -> bool:
        """Whether it, or else the nearest one above it that was told how many jobs to have, has one
        alone. Words come before what makefiles say. The make that is started first is told that by
        the user, who may say another number."""
        if self.parent is None:
            return False
        jobs = jobs_of(self.words)
        jobs = self.jobs_by_makefiles if jobs is None else jobs
        return self.parent.has_one_job if jobs is None else jobs == 1

    @functools.cached_property
    def key(self) -> tuple[object, ...]:
        """Makes with one key know the same rules and macros."""
        options = tuple(word for word in options_of(self.words) if not is_harmless(word))
        return (self.folder, options, tuple(sorted(own_environment(self.environment).items())))


def own_environment(environment: dict[str, str]) -> dict[str, str]:
    """The environment without what make and the shell set for each process."""
    return {name: value for name, value in environment.items() if not OF_THE_TOOL.match(name)}


def options_of(words: list[str]) -> list[str]:
    """The words of a make that aren't goals; an option and its value are one."""
    return [" ".join(option) for option in option_words(words)]


def option_words(words: list[str]) -> list[list[str]]:
    """The options and macros among the words of a make, each with its value, where that is a word
    of its own."""
    found: list[list[str]] = []
    at = 0
    while at < len(words):
        option = [words[at]]
        at += 1
        if option[0] == "--":
            break
        is_short = re.fullmatch(rf"-[^-]*[{WITH_VALUE}]", option[0]) is not None
        if (is_short or option[0] in LONG_WITH_VALUE) and at < len(words):
            option.append(words[at])
            at += 1
        if option[0].startswith("-") or "=" in option[0]:
            found.append(option)
    return found


def without_folder(words: Sequence[str]) -> list[str]:
    """The words of a make without the options that name its folder: so it is started in there."""
    found: list[str] = []
    is_name = False
    for at, word in enumerate(words):
        if word == "--":
            return [*found, *words[at:]]
        match = None if is_name else FOLDER.fullmatch(word)
        if match is not None:
            found += [match.group(1)] if len(match.group(1) or "") > 1 else []
        elif not is_name:
            found.append(word)
        is_name = match is not None and not (match.group(2) or match.group(4))
    return found


def is_harmless(option: str) -> bool:
    """Whether an option changes neither which rules a make knows nor what they do."""
    return HARMLESS.fullmatch(option) is not None


def passing(make: Make) -> str:
    """The option by which a make doesn't do what its makefile says; empty if there is none."""
    return next((word for word in options_of(make.words) if PASSING.fullmatch(word)), "")


def find_make() -> str:
    """The program of GNU make: what GNUMAKE names, else `gmake` or `make`."""
    named = os.environ.get("GNUMAKE")
    for name in [named] if named else ["make", "gmake"]:
        found = shutil.which(name)
        if found and "GNU Make" in version_of(found):
            return found
    if named:
        raise Fault(f"GNUMAKE names {named}, which isn't GNU make: set it to the path of GNU make")
    raise Fault(
        "GNU make isn't there: install it (Debian: apt-get install make), or set GNUMAKE to its"
        " path"
    )


def version_of(program: str) -> str:
    """The first line of what `--version` prints."""
    words = [program, "--version"]
    done = subprocess.run(words, stdin=subprocess.DEVNULL, capture_output=True, check=False)
    return done.stdout.decode("utf-8", "replace").partition("\n")[0]


def outer_environment() -> dict[str, str]:
    """The environment in which the build tool is started."""
    left_out = ("MAKEFLAGS", "MAKELEVEL", "MFLAGS", "MAKEOVERRIDES", "GNUMAKEFLAGS", "IFS")
    kept = {name: value for name, value in os.environ.items() if name not in left_out}
    return {**kept, **UNCACHED}


def run_make(start: Start, place: Place, scratch: str, asked: Question) -> list[Make]:
    """Runs make in a place, and gives it and all makes that it started, in the order of their
    starts.

    `scratch` is a folder that this function empties and uses. Raises `Fault` where make can't be
    started, or doesn't end in its time.
    """
    shutil.rmtree(scratch, ignore_errors=True)
    os.makedirs(scratch)
    wrapper = wrapper_in(scratch)
    os.makedirs(os.path.dirname(wrapper))
    text = WRAPPER.replace("@SCRATCH@", shlex.quote(scratch)).replace("@MARK@", f"\\n{MARK}\\n")
    Path(wrapper).write_text(text.replace("@MAKE@", shlex.quote(start.program)))
    os.chmod(wrapper, 0o755)
    os.symlink(wrapper, os.path.join(os.path.dirname(wrapper), "gmake"))
    Path(scratch, "count").write_text("0")
    if asked.lacks:
        lists = Path(scratch, "lacks")
        lists.mkdir()
        (lists / "old").touch()
        os.utime(lists / "old", (OLD + 1, OLD + 1))
        for call, paths in asked.lacks.items():
            (lists / call).write_text("".join(f"{path}\n" for path in paths))
    Path(scratch, "top.out").touch()
    outer = start.environment
    search = f"{os.path.dirname(wrapper)}:{outer.get('PATH', os.defpath)}"
    environment = {**outer, "PATH": search, "MKIMPORT_OUT": os.path.join(scratch, "top.out")}
    how = ["--trace"] if asked.is_real else ["-n", "-k", "--trace"]
    # Where a make has several jobs, what recipes print doesn't come between a mark and its command.
    own = [*how, "-p", "-j1", "-Otarget", f"MAKE={wrapper}"]
    waits = "".join(wait.text for wait in asked.waits)
    own += [*marking(list(asked.watched), asked.is_real), f"--eval={waits}{EVAL}"]
    ended = run(start.command(*own, program=wrapper), place, environment, asked.seconds)
    if ended.timed_out:
        raise Fault(f"GNU make didn't end in {asked.seconds:g} seconds")
    count = int(Path(scratch, "count").read_text() or 0)
    if count == 0:
        raise Fault(f"GNU make could not be started: {last_words(ended.output)}")
    watched = list(asked.watched)
    words_of_first = [set(own), *([set[str]()] * (count - 1))]
    makes = [
        read_make(scratch, number, left_out, watched)
        for number, left_out in enumerate(words_of_first, 1)
    ]
    attach(makes, scratch)
    for make in makes[1:]:
        make.jobs_by_makefiles = jobs_said(make, start.program, place)
    return makes


def jobs_said(make: Make, program: str, place: Place) -> int | None:
    """How many jobs the makefiles of a make say that it has; None where its words say that, or
    nothing does."""
    paths = [place.real(SeenPath(os.path.join(make.folder, name))) for name in make.makefiles]
    if jobs_of(make.words) is not None or not may_say_jobs(paths):
        return None
    words = without_folder(make.words)
    options = [word for option in option_words(words) for word in option]
    command = Start(program, make.folder, tuple(options)).command()
    goals = make.base.values.get("MAKECMDGOALS", "")
    return jobs_by_makefiles(command, goals, place, make.environment)


def wrapper_in(scratch: str) -> str:
    """The script that stands for make, in a folder of its own, which is the first on the search
    path."""
    return os.path.join(scratch, "bin", "make")


def content(path: str) -> bytes:
    """What a file holds; nothing where it isn't there."""
    try:
        return Path(path).read_bytes()
    except OSError:
        return b""


def texts_in(path: str) -> list[str]:
    """The texts that a file holds, each with a zero after it."""
    return content(path).decode("utf-8", "surrogateescape").split("\0")[:-1]


def read_make(scratch: str, number: int, own: set[str], watched: list[str]) -> Make:
    """What the wrapper kept of one make."""
    front = os.path.join(scratch, str(number))
    folder, _, _, *words = texts_in(front + ".args")
    environment = dict(pair.partition("=")[::2] for pair in texts_in(front + ".env"))
    own_place = os.path.dirname(wrapper_in(scratch)) + ":"
    if "PATH" in environment:
        environment["PATH"] = environment["PATH"].replace(own_place, "")
    transcript = read_transcript(content(front + ".out"), watched)
    status = content(front + ".status").decode().strip()
    errors = content(front + ".err").decode("utf-8", "replace").split(f"\n{MARK}\n")
    return Make(
        number,
        [word for word in words if word not in own],
        os.path.realpath(transcript.base.values.get("CURDIR", folder)),
        environment,
        transcript,
        int(status) if status else 2,
        "".join(errors),
        last_errors=errors[-1],
        call=digest_of_call([folder, *words]),
    )


def digest_of_call(words: Sequence[str]) -> str:
    """What tells a call of make from others: a digest of its folder and its words."""
    text = "".join(f"{word}\0" for word in words)
    return hashlib.sha256(text.encode("utf-8", "surrogateescape")).hexdigest()


def attach(makes: list[Make], scratch: str) -> None:
    """Hands each make to the command that started it: the last one that its parent had shown by
    then."""
    by_output = {os.path.join(scratch, f"{make.number}.out"): make for make in makes}
    for make in makes[1:]:
        _, up, offset, *_ = texts_in(os.path.join(scratch, f"{make.number}.args"))
        parent = by_output.get(up)
        if parent is None:
            continue
        make.parent = parent
        before = [spot for spot in parent.transcript.spots if spot.offset < int(offset)]
        make.started_by = before[-1].command if before else None


def last_words(errors: str) -> str:
    """The last lines of what a make said, on one line."""
    lines = [line.strip() for line in errors.splitlines() if line.strip()]
    return "; ".join(lines[-3:])[-400:] or "it said nothing"
