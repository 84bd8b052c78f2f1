"""Runs commands in a folder that appears at the project's own path.

A `Place` has two paths: `folder`, where its files lie for this program, and `seen`, where commands
see them. Where the two differ, each command gets a mount namespace of its own in which `folder` is
bound over `seen`. So other processes of the machine never see the mount, and it ends with the last
process of the command. In a place that is `shut` all else is read-only, but for folders for
temporary files and devices.
"""

from __future__ import annotations

import contextlib
import functools
import math
import os
import select
import shlex
import shutil
import signal
import subprocess
import tempfile
import threading
import time
from collections.abc import Iterable, Iterator, Mapping, Sequence
from dataclasses import dataclass, replace
from pathlib import Path

from mkcheck_tools.faults import Fault
from mkcheck_tools.run import stopping
from mkcheck_tools.run.escapes import unescaped
from mkcheck_tools.run.folders import temporary_folder
from mkcheck_tools.run.paths import RealPath, SeenPath, unbound
from mkcheck_tools.run.terminals import Terminal

# Folders for temporary files, which stay open, and what no file system of a disk holds.
TEMPORARY = ("/tmp", "/var/tmp")
DEVICES = "/dev"
KERNEL = (DEVICES, "/proc", "/sys")
# What is mounted so is no folder with files, or one that isn't there yet.
NO_FOLDERS = ("autofs", "nsfs")
# Flags of a mount, as /proc/self/mountinfo has them, that have to stay when it gets another one.
KEPT_FLAGS = ("nosuid", "nodev", "noexec", "nosymfollow", "noatime", "nodiratime", "relatime")
# Binds a folder over another one, and enters it by the name that PWD has. OLDPWD, which `cd` sets,
# is removed, since make sets none.
ENTER = (
    ' --bind "$1" "$2" && cd "$PWD" && unset OLDPWD && shift 2 && exec "$@"; echo'
    " 'mkcheck-record: the folder could not be mounted at the path of the project' >&2; exit 125"
)
NOT_ENTERED = "mkcheck-record: the folder could not be mounted at the path of the project"

# How long a wait goes on before signals are looked for, in milliseconds.
WAKING = 200

_running: dict[int, None] = {}
_lock = threading.Lock()


def mounter() -> str:
    """The program that mounts, for a shell whose PATH may be that of a makefile."""
    return shlex.quote(shutil.which("mount") or "mount")


@dataclass(frozen=True)
class Namespace:
    """The words that make a mount namespace, and those that give the user back in it."""

    enter: tuple[str, ...]
    user: tuple[str, ...]

    def words(self, folder: str, seen: str, command: Sequence[str], front: str = "") -> list[str]:
        """The words that run a command in `folder`, bound over `seen`, after the shell's commands
        `front`."""
        text = front + mounter() + ENTER
        return [*self.enter, "/bin/sh", "-c", text, "sh", folder, seen, *self.user, *command]


@functools.cache
def namespace() -> Namespace | None:
    """The first way to a mount namespace that works here, found by trying; None where the system
    allows none.

    The namespace has its own System V shared memory and message queues too: a trace doesn't show
    what one command leaves there for another. Root needs no user namespace. Other users get one, in
    which they are root for the mount and then themselves again; where unshare is too old for that,
    programs see the user 0. New files always belong to the user who started this program.
    """
    unshare = shutil.which("unshare")
    if unshare is None or shutil.which("mount") is None:
        return None
    root = (unshare, "--user", "--map-root-user", "--mount", "--ipc", "--")
    back = (unshare, "--user", f"--map-user={os.getuid()}", f"--map-group={os.getgid()}", "--")
    own = [Namespace((unshare, "--mount", "--ipc", "--"), ()), Namespace(root, ())]
    others = [Namespace(root, back), Namespace(root, ())]
    return next((way for way in (own if os.getuid() == 0 else others) if works(way)), None)


def works(way: Namespace, front: str = "") -> bool:
    """Whether a namespace can be made so, and a file is seen over the mount."""
    with temporary_folder() as scratch:
        folder, seen = Path(scratch, "folder"), Path(scratch, "seen")
        folder.mkdir()
        seen.mkdir()
        (folder / "file").touch()
        words = way.words(str(folder), str(seen), ["/bin/sh", "-c", "test -f file"], front)
        done = subprocess.run(
            words, cwd=seen, stdin=subprocess.DEVNULL, capture_output=True, check=False
        )
        return done.returncode == 0


@dataclass(frozen=True)
class Mount:
    """What is mounted at a path: its kind, and its flags."""

    path: str
    kind: str
    flags: tuple[str, ...]

    @property
    def is_open(self) -> bool:
        """Whether files on it can be written, as far as it goes."""
        return "rw" in self.flags and self.kind not in NO_FOLDERS

    @property
    def shutting(self) -> str:
        """The shell's command that makes it read-only."""
        kept = [flag for flag in self.flags if flag in KEPT_FLAGS]
        times = [] if {"noatime", "relatime"} & set(kept) else ["strictatime"]
        options = ",".join(["remount", "bind", "ro", *kept, *times])
        return f"{mounter()} -o {options} {shlex.quote(self.path)}"


def mounts(lines: Iterable[str]) -> list[Mount]:
    """The mounts that lines of /proc/self/mountinfo name, without those that another one hides."""
    found: dict[str, Mount] = {}
    above: dict[tuple[str, str], str] = {}
    for line in lines:
        front, _, behind = line.partition(" - ")
        number, parent, _, _, path, flags = front.split(" ")[:6]
        found[number] = Mount(unescaped(path), behind.split(" ")[0], tuple(flags.split(",")))
        above[parent, found[number].path] = number
    first = next((parent for parent, path in above if path == "/" and parent not in found), "")
    return [mount for number, mount in found.items() if last_of(mount.path, above, first) == number]


def last_of(path: str, above: Mapping[tuple[str, str], str], first: str) -> str:
    """The number of the mount to which a path leads, where `above` has the mount that is at a path
    of another one."""
    parts = [part for part in path.split("/") if part]
    current = first
    for count in range(len(parts) + 1):
        here = "/" + "/".join(parts[:count])
        while (current, here) in above:
            current = above[current, here]
    return current


def is_below(path: str, folders: Sequence[str]) -> bool:
    """Whether a path is one of these, or lies in one."""
    return any(f"{path}/".startswith(f"{folder}/") for folder in folders)


@functools.cache
def shut() -> str | None:
    """The shell's commands that make all read-only in a namespace, but for folders for temporary
    files and devices, tested once; None where the system doesn't allow that.

    A folder that stays open is bound over itself, where nothing is mounted there yet.
    """
    way = namespace()
    if way is None:
        return None
    try:
        with open("/proc/self/mountinfo", encoding="utf-8", errors="surrogateescape") as lines:
            there = mounts(lines)
    except (OSError, ValueError):
        return None
    own = {os.path.realpath(path) for path in (*TEMPORARY, tempfile.gettempdir(), DEVICES)}
    left = [
        path
        for path in sorted(own)
        if os.path.isdir(path) and not is_below(os.path.dirname(path), tuple(own))
    ]
    known = {mount.path for mount in there}
    if "/" not in known:
        return None
    commands = [
        *(
            f"{mounter()} --rbind {shlex.quote(path)} {shlex.quote(path)}"
            for path in left
            if path not in known
        ),
        *(
            mount.shutting
            for mount in there
            if mount.is_open and not is_below(mount.path, (*left, *KERNEL))
        ),
    ]
    front = " && ".join([*commands, ""])
    return front if works(way, front) else None


def probe() -> None:
    """Finds out what the system allows, so that it is known later. Where that fails, it fails then
    again."""
    with contextlib.suppress(Exception):
        shut()


@dataclass(frozen=True)
class Place:
    """A folder in which commands run: it lies at `folder`, and they see it at `seen`.

    Both are real paths. In one that is `shut` commands can write nowhere else, where the system
    allows that and the two paths differ; but for folders for temporary files and devices. Where the
    folder lies in another mount namespace, which is shut already, `way` leads there, and `inner` is
    its path there. In one that `is_ready` it is also bound there already, and the way leads into
    it. Commands of other bound places begin in further `spaces`, as unshare names them, after
    further words (`enter`) and commands of the shell (`first`).
    """

    folder: RealPath
    seen: SeenPath
    shut: bool = False
    way: Namespace | None = None
    inner: str = ""
    spaces: tuple[str, ...] = ()
    enter: tuple[str, ...] = ()
    first: str = ""
    is_ready: bool = False

    @property
    def is_bound(self) -> bool:
        """Whether commands see the folder at another path than the one where it lies."""
        return unbound(self.folder) != self.seen

    def words(self, command: Sequence[str]) -> list[str]:
        """The words that run a command here. They are to be started in the folder `seen`."""
        if not self.is_bound:
            return list(command)
        way = self.way or namespace()
        if way is None:
            raise Fault(
                f"the system allows no mount namespace, so {self.folder} can't appear at"
                f" {self.seen}"
            )
        if self.is_ready:
            return [*way.enter, *way.user, *command]
        # The words of a way end with those of unshare.
        way = replace(way, enter=(*way.enter[:-1], *self.spaces, "--", *self.enter))
        front = self.first + ((shut() if self.shut and self.way is None else None) or "")
        return way.words(self.inner or self.folder, self.seen, command, front)

    @classmethod
    def of(cls, folder: RealPath) -> Place:
        """A folder that commands see where it lies."""
        return cls(folder, unbound(folder))

    def real(self, path: SeenPath) -> RealPath:
        """Where this program finds what commands see at a path."""
        if self.is_bound and (path == self.seen or path.startswith(self.seen + "/")):
            return RealPath(self.folder + path[len(self.seen) :])
        return RealPath(path)


@dataclass(frozen=True)
class Ended:
    """A command that has ended: its status (negative for a signal), its output, whether it was
    killed since its time was up, and the number of its first process."""

    status: int
    output: str
    timed_out: bool = False
    process: int = 0


def run(
    command: Sequence[str],
    place: Place,
    environment: Mapping[str, str],
    seconds: float | None = None,
    given: int | Terminal = subprocess.DEVNULL,
) -> Ended:
    """Runs a command in a place, with no input, the one that is given, or at a terminal, and waits
    until it ends; `seconds` limits its time, after which it is killed.

    The output has both of its streams. However this function ends, all processes of the command's
    group are killed, so that none goes on in the background. Threads may call it.
    """
    with tempfile.TemporaryFile() as file:
        words = place.words(command)
        source, output = given, file.fileno()
        if isinstance(source, Terminal):
            source = output = source.inner
        with started(words, place.seen, environment, output, source) as process:
            try:
                status, timed_out = waited(process, seconds), False
            except subprocess.TimeoutExpired:
                status, timed_out = -signal.SIGKILL, True
        file.seek(0)
        said = file.read().decode("utf-8", "replace")
        text = given.text() if isinstance(given, Terminal) else said
    refuse_unentered(place, status, text)
    return Ended(status, text, timed_out, process.pid)


def refuse_unentered(place: Place, status: int, text: str) -> None:
    """Refuses a command that wasn't run since its place could not be entered, by its status and
    what was put out."""
    if status == 125 and text.rstrip().endswith(NOT_ENTERED):
        raise Fault(f"{place.folder} could not be mounted at {place.seen}: {text.strip()}")


@contextlib.contextmanager
def started(
    words: Sequence[str],
    folder: str,
    environment: Mapping[str, str],
    output: int,
    given: int = subprocess.DEVNULL,
) -> Iterator[subprocess.Popen[bytes]]:
    """A process in a group of its own, with both streams to `output` and `given` as its input; the
    group is killed at the end."""
    process = None
    try:
        with stopping.held(), _lock:
            if stopping.is_ending():
                raise Fault("the program ends, so no command is started")
            process = subprocess.Popen(
                words,
                cwd=folder,
                env=dict(environment),
                stdin=given,
                stdout=output,
                stderr=subprocess.STDOUT,
                start_new_session=True,
            )
            _running[process.pid] = None
        yield process
    finally:
        if process is not None:
            kill_group(process.pid)
            process.wait()
            with _lock:
                _running.pop(process.pid, None)


def waited(process: subprocess.Popen[bytes], seconds: float | None = None) -> int:
    """Waits for a process, and gives its status as soon as it has ended: `Popen.wait` with a time
    only looks now and then. Raises `TimeoutExpired` after so many seconds.

    A signal that comes just before a wait begins, or that another thread takes, doesn't end that;
    so this wakes now and then.
    """
    try:
        descriptor = os.pidfd_open(process.pid)
    except (AttributeError, OSError):
        return process.wait(seconds)
    until = math.inf if seconds is None else time.monotonic() + seconds
    try:
        poll = select.poll()
        poll.register(descriptor, select.POLLIN)
        while not poll.poll(min(WAKING, max(0.0, 1000 * (until - time.monotonic())))):
            if seconds is not None and time.monotonic() >= until:
                raise subprocess.TimeoutExpired(process.args, seconds)
    finally:
        os.close(descriptor)
    return process.wait()


def kill_group(leader: int) -> None:
    """Kills all processes of a group, where there are any."""
    with contextlib.suppress(ProcessLookupError, PermissionError):
        os.killpg(leader, signal.SIGKILL)


def end_all() -> None:
    """Kills the groups of all commands that run, for a program that ends before they do. From then
    on none is started."""
    stopping.end_threads()
    with _lock:
        for leader in _running:
            kill_group(leader)
