"""Runs commands under strace."""

from __future__ import annotations

import contextlib
import fcntl
import functools
import os
import re
import shutil
import signal
import subprocess
import tempfile
import threading
from collections.abc import Callable, Mapping
from dataclasses import dataclass, field
from pathlib import Path

from mkcheck_tools.faults import Fault
from mkcheck_tools.run import places, stopping
from mkcheck_tools.run.paths import SeenPath
from mkcheck_tools.run.places import Place
from mkcheck_tools.trace.calls import (
    DUPLICATIONS,
    ENDED,
    LOOKS,
    OF_LINKS,
    TRACED,
    WRITES,
    WRITINGS,
    Call,
    Trace,
    cut,
)
from mkcheck_tools.trace.makes import Makes

# What a make hands down to the makes that it starts says nothing of this one.
OF_MAKE = (
    *("MAKEFLAGS", "MAKELEVEL", "MFLAGS", "MAKEOVERRIDES"),
    *("MAKE_TERMOUT", "MAKE_TERMERR"),
)
# A variable of this name that no macro changes, by POSIX.
SHELL = "SHELL"
# The variable that `cd` sets.
OLD_FOLDER = "OLDPWD"
STOPPED = (
    "the trace ends before the command does: strace was killed, or couldn't go on, so nothing is"
    " recorded; record again"
)
# The beginning of the call by which a process kills strace.
KILLING = re.compile(r"\d+ +t?g?kill\(")
# What would end a word of MAKEFLAGS.
SPECIAL = re.compile(r"[\s\\]")
# What lets ccache start the compiler alone: what its cache holds decides nothing.
UNCACHED = {"CCACHE_DISABLE": "1"}
# Calls by which files could be opened and read unseen. Programs that are told that there are none
# do without.
REFUSED = ("io_uring_setup",)
# The words of a command by which its processes go on side by side: what runs in the background, and
# programs that start several others at once.
BESIDE = re.compile(
    r"(?<![&<>|\\])&(?![&>])|\bxargs\b.*\s(?:-\w*P|--max-procs)|\bparallel\b", re.DOTALL
)
# fcntl's number for the size of a pipe, which Python 3.9 has no name for, and the most that users
# may ask for.
SET_PIPE_SIZE = 1031
# How long a process that is left may go on before it is killed, in seconds.
MOMENT = 0.2
# The same for one to which a signal was sent that ends it.
PATIENCE = 10.0
PIPE_SIZE = 1 << 20
# How long a trace is left to grow before it is read again, in seconds. Else strace wakes this
# program at each line, and a compiler makes a thousand calls that are traced.
PAUSE = 0.005
# How long the words of commands may be that are written out.
TEXT_AT_MOST = str(1 << 20)


@dataclass(frozen=True)
class Done:
    """What a command gave: its calls, output and status, and the processes that it left."""

    calls: list[Call]
    output: str
    status: int
    left: tuple[str, ...] = ()
    ended: Mapping[int, int] = field(default_factory=dict)
    """For each process its end, among the orders of the calls."""

    minded: frozenset[int] = frozenset()
    """Processes to which another one sent a signal, or of which it asked whether they are there."""


@dataclass(frozen=True)
class Watch:
    """What a trace has."""

    links: bool = True
    """Whether it has the calls that read symbolic links: compilers make hundreds of them."""

    looking: bool = False
    """Whether it has the calls that only look at names."""

    texts: bool = False
    """Whether it has the words of commands, and tells where their output goes."""

    writes: bool = False
    """Whether it has the calls that write to what is open, as a process that others started may."""


@functools.cache
def first_words() -> tuple[str, ...]:
    """The program strace, and the options by which it follows processes, and stops them at traced
    calls alone if it can."""
    program = shutil.which("strace")
    if program is None:
        raise Fault(
            "strace isn't there, by which recipes are traced (Debian: apt-get install strace)"
        )
    asked = subprocess.run([program, "-h"], capture_output=True, text=True, check=False).stdout
    return (program, "-f", *(("--seccomp-bpf",) if "--seccomp-bpf" in asked else ()))


@functools.cache
def strace(watch: Watch = Watch()) -> tuple[str, ...]:
    """The words by which strace is started, before the file of its output."""
    names = [*TRACED, *REFUSED, *(LOOKS if watch.looking else ())]
    names += DUPLICATIONS if watch.texts else ()
    names += WRITES if watch.writes else ()
    calls = ",".join(f"?{name}" for name in names if watch.links or name not in OF_LINKS)
    refused = ",".join(f"?{name}" for name in REFUSED)
    return (
        *(*first_words(), "-y", "-q", "-s", TEXT_AT_MOST if watch.texts else "0"),
        *("-e", f"trace={calls}"),
        *("-e", f"inject={refused}:error=ENOSYS", "-o"),
    )


def is_side_by_side(text: str) -> bool:
    """Whether processes of a command may go on side by side, as far as its words tell."""
    return BESIDE.search(text) is not None


@functools.cache
def failing(path: SeenPath) -> tuple[str, ...]:
    """The words by which a command is started whose writes to a file fail, as on a full disk."""
    calls = ",".join(f"?{name}" for name in WRITES)
    return (
        *(*first_words(), "-qq", "-o", os.devnull, "-P", path),
        *("-e", f"trace={calls}", "-e", f"inject={calls}:error=ENOSPC"),
    )


def environment(
    place: Place, operands: dict[str, str], macros: Mapping[str, str] | None = None
) -> dict[str, str]:
    """What recipes find in their environment: macro operands too, as make hands them down, and in
    MAKEFLAGS, for makes that recipes start. `macros` are variables to which the makefile gives
    other values.

    SHELL stays as it is, also where it isn't set: no macro changes it. PWD stays as it is where it
    names the folder, be it over a link, as a make started there would leave it. In a bound place
    there is no OLDPWD, since shells may set that on the way into it.
    """
    kept = {name: value for name, value in os.environ.items() if name not in OF_MAKE}
    handed = {name: value for name, value in operands.items() if name != SHELL}
    named = kept.get("PWD", "")
    try:
        same = named.startswith("/") and os.path.samefile(named, place.seen)
    except OSError:
        same = False
    flags = {"MAKEFLAGS": flags_of(operands)} if operands else {}
    own = {**UNCACHED, "PWD": named if same else place.seen}
    found = {**kept, **(macros or {}), **handed, **flags, **own}
    if place.is_bound:
        found.pop(OLD_FOLDER, None)
    return found


def flags_of(operands: dict[str, str]) -> str:
    """Macro operands as words of MAKEFLAGS, which a make takes apart and expands."""
    words = (f"{name}={value.replace('$', '$$')}" for name, value in operands.items())
    return " ".join(SPECIAL.sub(r"\\\g<0>", word) for word in words)


@dataclass
class Listener:
    """Reads a trace from a pipe while the command runs, so that no disk can be too full for it.

    `left` has the processes that go on when the first one has ended. They are killed, since no make
    waits for them, but a moment later, in which most of them start the program that tells the user
    who they are. One to which a signal was sent isn't left if it ends and writes nothing.

    `makes`, where it is there, ends the command as soon as a make begins to work, and `told` is
    given each call as it comes.
    """

    pipe: int
    trace: Trace = field(default_factory=Trace)
    makes: Makes | None = None
    told: Callable[[Call], None] | None = None
    left: set[int] = field(default_factory=set)
    fault: Fault | None = None
    ending: bool = False
    """Whether the command is made to end."""

    waiting: bool = False
    """Whether the processes that go on are waited for."""

    taken: int = 0
    """How many of the trace's calls were seen."""

    over: threading.Event = field(default_factory=threading.Event)
    """Set when the command has ended, so that the rest is read at once."""

    def listen(self) -> None:
        """Reads to the end of the trace, many lines at a time. What is wrong with it is kept for
        later."""
        rest = b""
        try:
            while found := os.read(self.pipe, PIPE_SIZE):
                *lines, rest = (rest + found).split(b"\n")
                for line in lines:
                    self.take_bytes(line + b"\n")
                self.over.wait(PAUSE)
            if rest:
                self.take_bytes(rest)
        finally:
            os.close(self.pipe)

    def take_bytes(self, line: bytes) -> None:
        """Takes a line, unless one before was wrong."""
        if self.fault is None:
            self.take(line.decode("utf-8", "surrogateescape"))

    def take(self, line: str) -> None:
        """Takes a line.

        The last one has no end where strace kills itself by the signal that killed the command.
        """
        try:
            if not line.endswith("\n") and not ENDED.search(line):
                raise Fault(STOPPED) if KILLING.match(line) else cut(line)
            self.trace.feed(line.rstrip("\n"))
        except Fault as fault:
            self.fault = fault
            self.kill()
        calls, self.taken = self.trace.found[self.taken :], len(self.trace.found)
        if self.told is not None:
            for call in calls:
                self.told(call)
        if self.makes is not None and any([self.makes.take(call) for call in calls]):
            self.ending = True
        if self.ending:
            self.kill()
        elif self.trace.first in self.trace.ended and self.trace.alive:
            self.wait(calls)

    def wait(self, calls: list[Call]) -> None:
        """Waits for processes that go on when the first one has ended, which just made these calls:
        a moment, and longer for those that were sent a signal."""
        dying = self.trace.signalled - {call.process for call in calls if is_writing(call)}
        if not self.left and not self.waiting:
            going = bool(self.trace.alive - dying)
            waiting = threading.Timer(MOMENT if going else PATIENCE, self.kill_left)
            waiting.daemon = True
            waiting.start()
            self.waiting = True
        self.left.update(self.trace.alive - dying)

    def kill_left(self) -> None:
        """Notes and kills the processes that go on."""
        self.left.update(self.trace.alive)
        self.kill()

    def kill(self) -> None:
        """Kills all processes of the command that haven't ended."""
        for process in list(self.trace.alive):
            with contextlib.suppress(ProcessLookupError, PermissionError):
                os.kill(process, signal.SIGKILL)


def is_writing(call: Call) -> bool:
    """Whether a call makes, changes or removes a file."""
    if call.name not in ("open", "openat", "openat2"):
        return call.name in WRITINGS
    return any(flag in " ".join(call.arguments[1:]) for flag in ("O_WRONLY", "O_RDWR", "O_CREAT"))


@dataclass(frozen=True)
class Tracer:
    """Runs commands in a place, with this environment, and traces them. `scratch` is a folder for
    what it needs."""

    place: Place
    environment: Mapping[str, str]
    scratch: str
    told: Callable[[Call], None] | None = None
    """What is given each call as it comes."""

    def run(self, words: list[str], watch: Watch, makes: Makes | None = None) -> Done:
        """Runs a command. No process of it is left then. With `makes` a make that it starts is
        ended as it begins to work."""
        pipe = os.path.join(self.scratch, "trace.pipe")
        with contextlib.suppress(FileNotFoundError):
            os.unlink(pipe)
        os.mkfifo(pipe)
        descriptor = os.open(pipe, os.O_RDONLY | os.O_NONBLOCK)
        listener = Listener(descriptor, Trace(watch.looking), makes, self.told)
        own_end = os.open(pipe, os.O_WRONLY)
        os.set_blocking(listener.pipe, True)
        with contextlib.suppress(OSError):
            fcntl.fcntl(own_end, SET_PIPE_SIZE, PIPE_SIZE)
        reading = threading.Thread(target=listener.listen, daemon=True)
        reading.start()
        try:
            text, status = self.put_out([*strace(watch), pipe, *words])
        finally:
            os.close(own_end)
            listener.over.set()
            listener.kill()
            reading.join()
        return ended(listener, text, status)

    def put_out(self, words: list[str]) -> tuple[str, int]:
        """What a command puts out, and its status."""
        with tempfile.TemporaryFile(dir=self.scratch) as output:
            traced, seen = self.place.words(words), self.place.seen
            with places.started(traced, seen, self.environment, output.fileno()) as process:
                status = places.waited(process)
            output.seek(0)
            return output.read().decode("utf-8", "replace"), status


def ended(listener: Listener, output: str, status: int) -> Done:
    """What there is to tell of a command that has ended.

    A trace that doesn't tell all is a fault.
    """
    if listener.fault is not None:
        raise listener.fault
    trace = listener.trace
    if not any(call.name == "execve" for call in trace.found):
        raise Fault(f"strace traced nothing, status {status}: {output.strip()}")
    if not trace.is_whole() and not listener.left:
        raise Fault(f"{STOPPED}\n{output}".rstrip())
    names = dict.fromkeys(
        trace.programs.get(process, "a process") for process in sorted(listener.left)
    )
    minded = frozenset(trace.signalled | trace.asked)
    return Done(trace.calls(), output, status, tuple(names), trace.ended, minded)


def read_trace(path: Path, looking: bool = False) -> list[Call]:
    """The calls that a file of strace's output tells, with those that look in vain, if wanted."""
    trace = Trace(looking)
    with path.open(encoding="utf-8", errors="surrogateescape", newline="\n") as lines:
        for line in lines:
            stopping.go_on()
            trace.feed(line.rstrip("\n"))
    if not trace.is_whole():
        raise Fault(
            "the trace ends before the command does: strace was killed, or the disk is full; record"
            " again"
        )
    return trace.calls()
