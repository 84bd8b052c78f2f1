"""What a recipe finds besides its files when it runs again: shell options, variables that make or
its user sets, the machine, the time, standard input, a terminal, stamps of folders, the order of
those of sources, second names of the files that it reads, and files that it or another one may have
left before an edit.

The recording has one of each. Where the outputs are there already, the recipe runs amid all others
at once, which takes no run of its own. Where that run shows something, each is tried alone.
"""

from __future__ import annotations

import contextlib
import functools
import glob
import os
import re
import subprocess
import tempfile
import time
from collections.abc import Iterator, Mapping, Sequence
from dataclasses import dataclass

from mkcheck_tools.answers.graphs import Command
from mkcheck_tools.replay.orders import KEPT
from mkcheck_tools.replay.worlds import OTHER_BYTES
from mkcheck_tools.run.machines import elsewhere, other_user
from mkcheck_tools.run.places import Place
from mkcheck_tools.run.terminals import Terminal, has_terminals, terminal

FLAGS, JOBS, CLOCK, INPUT = "flags", "jobs", "clock", "input"
NAMES, FOLDERS, TERMINAL, SOURCES = "names", "folders", "terminal", "sources"
MACHINE, VARIABLES = "machine", "variables"
# A file that the recipe, or another one, may have left before an edit of what it is made from.
EARLIER, STALE = "earlier", "stale"
# Runs of their own: folders list their names the other way round, or lie in memory.
LISTING, MEMORY = "listing", "memory"
# Variables by which Python and Perl take an order of sets and hashes, and don't draw one.
SEEDS = ("PYTHONHASHSEED", "PERL_HASH_SEED")
# What else a user may have: a name, a time zone that is no other's, and a language.
OF_USER = {"USER": "mkcheck", "LOGNAME": "mkcheck", "TZ": "MKC-13:07"}
# Words of commands that ask who the user is. Others run as the same user, whose number is that of
# their files, which archives hold.
ASKS = re.compile(r"(?<![\w./-])(?:/usr/bin/)?(?:id|whoami|logname|groups)(?![\w./=-])")
# The user's folder, which gets another spelling, so that programs find there what they need.
HOME = "HOME"
LANGUAGES = ("LC_ALL", "LC_COLLATE", "LANG")
# The languages that sort by bytes, without their encodings.
PLAIN = ("", "C", "POSIX")
# What GNU make 4 gives to recipes where it has two jobs.
OF_JOBS = {"MAKEFLAGS": " -j2 --jobserver-auth=3,4", "MAKELEVEL": "1"}
# What GNU make 4 gives to recipes where its output goes to a terminal, by the name of that.
OF_TERMINAL = ("MAKE_TERMOUT", "MAKE_TERMERR")
# So much later each part of a date is another one: the year, the month, the day of the month and of
# the week, the hour, the minute.
LATER = ((400 * 24 + 13) * 60 + 7) * 60 + 9
LIBRARIES = (
    "/usr/lib/*/faketime/libfaketimeMT.so.1",
    "/usr/lib64/faketime/libfaketimeMT.so.1",
    "/usr/lib/faketime/libfaketimeMT.so.1",
    "/usr/local/lib/faketime/libfaketimeMT.so.1",
)
# What the library leaves of a program that is killed or ends at once, as shells do, by the number
# of its process.
LEFT = ("/dev/shm/faketime_shm_{}", "/dev/shm/sem.faketime_sem_{}")
CLOSE = 3600


@dataclass(frozen=True)
class Surroundings:
    """What a run has other than the recording: kinds of those above. `makers` are the targets whose
    recipes left something before an edit; None for all. `seed` chooses an order of hashes; where it
    is None, each program draws one."""

    others: frozenset[str] = frozenset()
    makers: frozenset[str] | None = None
    seed: int | None = None

    def __contains__(self, kind: str) -> bool:
        return kind in self.others

    def __iter__(self) -> Iterator[str]:
        return iter(sorted(self.others))

    def words(self, command: Command) -> list[str]:
        """The words that start a command amid them. `-e` is taken away, or added."""
        words = list(command.words)
        if FLAGS in self.others and not command.ignored:
            words[-2] = "-c" if command.strict else "-ec"
        if CLOCK in self.others:
            words = ["env", *later(library() or ""), *words]
        is_asked = VARIABLES in self.others and ASKS.search(command.text) is not None
        return [*other_user(), *words] if is_asked else words

    def environment(self, given: Mapping[str, str], source: int | Terminal) -> dict[str, str]:
        """The variables of a run with this input. Macro operands stay in MAKEFLAGS."""
        if isinstance(source, Terminal):
            given = {**given, **dict.fromkeys(OF_TERMINAL, source.name)}
        if self.seed is not None:
            given = {**dict.fromkeys(SEEDS, str(self.seed)), **given}
        if VARIABLES in self.others:
            others = {**OF_USER, LANGUAGES[0]: other_language()}
            if os.environ.get(HOME, "").startswith("/"):
                others[HOME] = f"{os.environ[HOME]}/."
            own = {name for name in others if given.get(name) == os.environ.get(name)}
            given = {**given, **{name: others[name] for name in own}}
        if JOBS not in self.others:
            return dict(given)
        operands = given.get("MAKEFLAGS", "")
        flags = OF_JOBS["MAKEFLAGS"] + (f" -- {operands}" if operands else "")
        return {**given, **OF_JOBS, "MAKEFLAGS": flags}

    @contextlib.contextmanager
    def input(self) -> Iterator[int | Terminal]:
        """A descriptor for standard input, or a terminal."""
        given = OTHER_BYTES if INPUT in self.others else b""
        if TERMINAL in self.others:
            with terminal(given) as found:
                yield found
        elif not given:
            yield subprocess.DEVNULL
        else:
            with tempfile.TemporaryFile() as file:
                file.write(given)
                file.seek(0)
                yield file.fileno()

    def place(self, place: Place) -> Place:
        """Where a command runs amid them."""
        return elsewhere(place) if MACHINE in self.others and place.is_bound else place

    def among(self, way: str) -> str:
        """How sources lie among themselves by their stamps, where these may come in this way."""
        return way if SOURCES in self.others else KEPT

    def name_again(self, folder: str, names: Sequence[str]) -> None:
        """Gives files second names beside the folder, which the recipe doesn't see."""
        if NAMES not in self.others:
            return
        aside = beside(folder)
        os.makedirs(aside, exist_ok=True)
        for number, name in enumerate(names):
            with contextlib.suppress(OSError):
                os.link(
                    os.path.join(folder, name),
                    os.path.join(aside, str(number)),
                    follow_symlinks=False,
                )

    def touch_folders(self, folder: str) -> None:
        """Gives all folders of a project a stamp of two seconds from now: the clock may not have
        gone on to another second since the recording."""
        stamp = time.time() + 2.0
        for path, _, _ in os.walk(folder) if FOLDERS in self.others else ():
            with contextlib.suppress(OSError):
                os.utime(path, (stamp, stamp))


def beside(folder: str) -> str:
    """Where the second names of the files in a folder are."""
    return f"{folder}.names"


def later(path: str) -> list[str]:
    """The variables that set the clock of programs forward, by a library that they load. The stamps
    of files stay as they are."""
    loaded = os.environ.get("LD_PRELOAD", "")
    return [
        f"LD_PRELOAD={path}{':' if loaded else ''}{loaded}",
        f"FAKETIME=+{LATER}",
        "NO_FAKE_STAT=1",
        "FAKETIME_DONT_FAKE_MONOTONIC=1",
        "DONT_FAKE_MONOTONIC=1",
    ]


@functools.cache
def other_language() -> str:
    """A language that sorts otherwise than that of the environment, if there is one; else another
    one."""
    own = next(filter(None, map(os.environ.get, LANGUAGES)), "")
    if own.partition(".")[0] not in PLAIN:
        return "C.UTF-8"
    with contextlib.suppress(OSError):
        said = subprocess.run(["locale", "-a"], capture_output=True, text=True, check=False).stdout
        for name in said.split():
            if "_" in name and "utf" in name.lower():
                return name
    return "C" if "UTF" in own.upper() else "C.UTF-8"


@functools.cache
def library() -> str | None:
    """The library that sets clocks forward, where there is one and it works."""
    for path in (path for pattern in LIBRARIES for path in sorted(glob.glob(pattern))):
        done = subprocess.run(
            ["env", *later(path), "date", "+%s"], capture_output=True, text=True, check=False
        )
        said = done.stdout.strip()
        if said.isdigit() and abs(int(said) - LATER - time.time()) < CLOSE:
            return path
    return None


def clear(process: int) -> None:
    """Removes what the library leaves of a program that has ended."""
    for path in LEFT:
        with contextlib.suppress(OSError):
            os.unlink(path.format(process))


def all_others(strict: bool, bound: bool) -> Surroundings:
    """All other surroundings that there can be. Under `.POSIX` make starts shells by `-e` in any
    case. Where the folder of a run isn't `bound`, nothing may be beside it."""
    found = {JOBS, INPUT, FOLDERS, EARLIER, STALE, SOURCES, VARIABLES}
    if not strict:
        found.add(FLAGS)
    if bound:
        found.update({NAMES, MACHINE})
    if library() is not None:
        found.add(CLOCK)
    if has_terminals():
        found.add(TERMINAL)
    return Surroundings(frozenset(found))


AS_RECORDED = Surroundings()
