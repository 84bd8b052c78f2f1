"""The folder of a project: its files, a fresh copy of it, and the names of its files."""

from __future__ import annotations

import contextlib
import fcntl
import functools
import os
import re
import shutil
import stat
import tempfile
import time
from collections.abc import Iterator, Mapping
from dataclasses import dataclass, field

from mkcheck_tools.faults import Fault
from mkcheck_tools.run import stopping
from mkcheck_tools.run.paths import Name, RealPath, SeenPath, resolved, seen_in

# Where programs and libraries of the system lie.
SYSTEM = ("/usr/", "/lib/", "/lib64/", "/bin/", "/etc/", "/opt/")
# Where well-known programs have a user's configuration, below the home folder.
CONFIGURATION = (
    *(".gitconfig", ".config/git/config", ".config/git/attributes", ".config/git/ignore"),
    *(".hgrc", ".config/hg/hgrc", ".subversion/config", ".subversion/servers"),
    *(".curlrc", ".wgetrc", ".netrc", ".inputrc", ".indent.pro", ".gnupg/gpg.conf"),
    *(".ccache/ccache.conf", ".config/ccache/ccache.conf", ".cargo/config.toml", ".cargo/config"),
    *(".config/pip/pip.conf", ".pip/pip.conf", ".pydistutils.cfg", ".npmrc", ".gemrc"),
    *(".config/go/env", ".m2/settings.xml", ".latexmkrc", ".perltidyrc", ".ctags"),
)
# Where programs for versions keep what they know of a folder.
VERSIONS = (".git", ".hg", ".svn")
# What git keeps of the files at which it looked last, and the file by which it writes that.
CACHE = re.compile(r"(?:.*/)?\.git/(?:.*/)?index(?:\.lock)?")
# What lies here is no file, or none that lasts, unless it is the project's own.
UNWRITTEN = ("/proc/", "/sys/")
NAME_AT_MOST = 4096
BLANK_OR_CONTROL = re.compile(rb"[\x00-\x20\x7f]")
# A path that a makefile can hold as it is.
PLAIN = re.compile(r"[A-Za-z0-9/._+-]+")
# Where a copy may lie, if the folder for temporary files is the project's own.
OTHER_PLACES = ("/tmp", "/var/tmp", "/dev/shm")
CLONE = 0x40049409
# How often a scratch folder is removed that comes again, and how long to wait between.
TRIES = 20
MOMENT = 0.05
# How long a program that a signal ends waits for that.
SECONDS_TO_REMOVE = 1.0
PIECE = 1 << 20


@dataclass(frozen=True)
class Naming:
    """How files are named: relative to the folder, or as they lie under a fixed prefix."""

    root: SeenPath
    fixed: tuple[str, ...]
    files: tuple[str, ...] = ()
    """Single files that never change, as they were given."""

    own: Mapping[Name, Name] = field(default_factory=dict)
    """The names that the makefile has for files, over links, by those without links."""

    def name(self, path: SeenPath) -> Name | None:
        """The name of the file at a path without links, where it has one."""
        if path.startswith(self.root + "/"):
            return Name(path[len(self.root) + 1 :])
        if path in self.steady:
            return self.steady[path]
        for prefix in self.fixed:
            if path.startswith(prefix):
                return Name(path)
        for prefix, real in self.real_prefixes:
            if path.startswith(real):
                return Name(prefix + path[len(real) :])
        return None

    def name_or_path(self, path: SeenPath) -> Name:
        """The name of the file at a path without links; the path, where it has none."""
        return self.name(path) or Name(path)

    @functools.cached_property
    def real_prefixes(self) -> list[tuple[str, str]]:
        """Each fixed prefix with its real path."""
        found = ((prefix, os.path.join(self.root, prefix)) for prefix in self.fixed)
        return [(prefix, os.path.realpath(path) + "/") for prefix, path in found]

    @functools.cached_property
    def steady(self) -> dict[SeenPath, Name]:
        """The real paths of single files that never change, and of the configuration that
        well-known programs have in the user's home folder, each with its name."""
        home = os.path.expanduser("~")
        known = (os.path.join(home, name) for name in CONFIGURATION) if home.startswith("/") else ()
        found = {SeenPath(os.path.realpath(path)): Name(path) for path in known}
        found = {real: path for real, path in found.items() if not self.has(real)}
        given = [seen_in(self.root, name) for name in self.files]
        return found | {
            SeenPath(os.path.realpath(path)): Name(
                os.path.relpath(path, self.root) if self.has(path) else path
            )
            for path in given
        }

    def has(self, path: SeenPath) -> bool:
        """Whether a path lies in the folder."""
        return path.startswith(self.root + "/")

    def is_configuration(self, path: SeenPath) -> bool:
        """Whether a file is a well-known program's configuration in the home folder, and wasn't
        given as one that never changes."""
        return self.steady.get(path, Name("")).startswith(os.path.expanduser("~/")) and not any(
            os.path.realpath(os.path.join(self.root, name)) == path for name in self.files
        )

    def is_steady(self, path: SeenPath) -> bool:
        """Whether the file at a path without links is one of these single files."""
        return path in self.steady

    def is_fixed(self, name: str) -> bool:
        """Whether a name is under a fixed prefix."""
        return name.startswith(self.fixed)


@functools.lru_cache(1 << 16)
def is_plain_path(name: str) -> bool:
    """Whether a name may stand in footprints: each file has one such spelling."""
    try:
        text = name.encode("utf-8")
    except UnicodeEncodeError:
        return False
    if not 1 <= len(text) <= NAME_AT_MOST or BLANK_OR_CONTROL.search(text):
        return False
    parts = name.removeprefix("/").split("/")
    if "" in parts or "." in parts:
        return False
    ups = (
        0
        if name.startswith("/")
        else next((at for at, part in enumerate(parts) if part != ".."), len(parts))
    )
    return ".." not in parts[ups:]


def is_cache(name: str) -> bool:
    """Whether a file is git's cache of what it saw of the files last, which decides nothing."""
    return CACHE.fullmatch(name) is not None


def is_of_versions(name: str) -> bool:
    """Whether a file is one in which a program for versions keeps what it knows."""
    return any(part in VERSIONS for part in name.split("/")[:-1])


def is_own(name: str) -> bool:
    """Whether a name is that of a file in the project's folder."""
    return not name.startswith("/") and name.split("/", 1)[0] != ".."


def plain_folder(folder: str) -> str:
    """A folder for temporary files whose path a makefile can hold as it is: this one, else /tmp."""
    return folder if PLAIN.fullmatch(folder) else "/tmp"


def prefix_of(asked: str) -> str:
    """A fixed prefix that was asked for, with the slash at its end."""
    front = asked.rstrip("/")
    if front and not is_plain_path(front):
        raise Fault(f"--fixed {asked}: no plain path")
    return front + "/"


def files_in(root: str) -> list[str]:
    """The names of the files in a folder, sorted. Each folder is read once.

    Those behind a link to another folder of it are listed by that name too, but for those behind a
    second link.
    """
    found: dict[str, list[str]] = {}
    links: list[tuple[str, str]] = []
    waiting = [""]
    while waiting:
        front = waiting.pop()
        found[front] = []
        for entry in entries_of(os.path.join(root, front)):
            name = os.path.join(front, entry.name)
            if entry.is_dir(follow_symlinks=False):
                waiting.append(name)
            elif entry.is_symlink() and entry.is_dir():
                links.append((name, os.path.realpath(entry.path)))
            else:
                found[front].append(name)
    names = [name for inside in found.values() for name in inside]
    for link, goal in links:
        front = os.path.relpath(goal, root) if goal != root else ""
        if front in found and not front.startswith(".."):
            names += behind(link, front, found)
    return sorted(names)


def entries_of(folder: str) -> list[os.DirEntry[str]]:
    """What a folder holds; nothing where it can't be read."""
    try:
        with os.scandir(folder) as entries:
            return list(entries)
    except OSError:
        return []


def behind(link: str, goal: str, found: dict[str, list[str]]) -> Iterator[str]:
    """The files of a folder by names that go over a link to it."""
    start = goal + "/" if goal else ""
    for folder, names in found.items():
        if folder == goal or folder.startswith(start):
            yield from (os.path.join(link, name[len(start) :]) for name in names)


def sources_in(root: RealPath, naming: Naming) -> list[str]:
    """The files of a folder that may be sources: what has no plain name is none."""
    return [
        name
        for name in files_in(root)
        if is_plain_path(name)
        and not naming.is_fixed(name)
        and os.path.isfile(os.path.join(root, name))
    ]


def copy(root: str, goal: str, targets: frozenset[str]) -> list[str]:
    """Copies a folder afresh, without what recipes are to make.

    Returns the names of what it had to leave out.
    """
    remove(goal)
    copier = Copier(frozenset(os.path.join(root, target) for target in targets))
    try:
        copier.folder(root, goal)
    except OSError as error:
        raise Fault(
            f"the folder can't be copied to {goal}: {error.strerror}; TMPDIR names where copies lie"
        ) from None
    return [os.path.relpath(path, root) for path in copier.passed]


@dataclass
class Copier:
    """Copies one file after another.

    Those that are one file by several names are so in the copy too.
    """

    left_out: frozenset[str]
    copied: dict[tuple[int, int], str] = field(default_factory=dict)
    passed: list[str] = field(default_factory=list)

    def folder(self, path: str, goal: str) -> None:
        """Copies a folder. Its own mode comes last, since it may forbid to write in it."""
        os.mkdir(goal)
        try:
            with os.scandir(path) as found:
                entries = list(found)
        except PermissionError:
            self.passed.append(path)
            entries = []
        for entry in entries:
            if not is_left_out(entry.path, self.left_out):
                self.entry(entry, os.path.join(goal, entry.name))
        shutil.copystat(path, goal)

    def entry(self, entry: os.DirEntry[str], goal: str) -> None:
        """Copies what stands at a path itself."""
        status = entry.stat(follow_symlinks=False)
        if stat.S_ISDIR(status.st_mode):
            self.folder(entry.path, goal)
        elif stat.S_ISLNK(status.st_mode):
            os.symlink(os.readlink(entry.path), goal)
            shutil.copystat(entry.path, goal, follow_symlinks=False)
        elif not stat.S_ISREG(status.st_mode):
            self.passed.append(entry.path)
        elif (status.st_dev, status.st_ino) in self.copied:
            os.link(self.copied[status.st_dev, status.st_ino], goal)
        else:
            self.file(entry.path, goal, status)

    def file(self, path: str, goal: str, status: os.stat_result) -> None:
        """Copies a file, whose holes stay holes."""
        try:
            source = open(path, "rb")
        except PermissionError:
            self.passed.append(path)
            return
        with source, open(goal, "wb") as copied:
            pour(source.fileno(), copied.fileno(), status.st_size)
        shutil.copystat(path, goal)
        self.copied[status.st_dev, status.st_ino] = goal


def pour(source: int, goal: int, size: int) -> None:
    """Copies what a file holds: by the file system at once where it can, else from data to data."""
    with contextlib.suppress(OSError):
        fcntl.ioctl(goal, CLONE, source)
        return
    at = 0
    while at < size:
        try:
            at = os.lseek(source, at, os.SEEK_DATA)
        except OSError:
            break
        end = os.lseek(source, at, os.SEEK_HOLE)
        os.lseek(source, at, os.SEEK_SET)
        os.lseek(goal, at, os.SEEK_SET)
        while at < end:
            piece = os.read(source, min(PIECE, end - at))
            if not piece:
                return
            at += len(piece)
            while piece:
                piece = piece[os.write(goal, piece) :]
    os.ftruncate(goal, size)


def remove(folder: str) -> None:
    """Takes a folder away with all that is in it, also where it may not be written in."""
    for path, folders, _ in os.walk(folder):
        for name in folders:
            inner = os.path.join(path, name)
            if not os.path.islink(inner):
                with contextlib.suppress(OSError):
                    os.chmod(inner, 0o700)
    shutil.rmtree(folder, ignore_errors=True)


@contextlib.contextmanager
def scratch_folder(project: RealPath) -> Iterator[RealPath]:
    """A folder for a recording, that is gone at the end.

    It lies outside the project, which is mounted over.
    """
    asked = (tempfile.gettempdir(), *OTHER_PLACES)
    places = [place for place in asked if is_outside(place, project)]
    # Programs that recipes make have to start there.
    above = next((place for place in places if not os.statvfs(place).f_flag & os.ST_NOEXEC), None)
    above = above or next(iter(places), None)
    if above is None:
        raise Fault(
            "there is no folder for temporary files outside the project's: set TMPDIR to one"
        )
    with temporary_folder(above) as scratch:
        yield resolved(scratch)


@contextlib.contextmanager
def temporary_folder(above: str | None = None) -> Iterator[str]:
    """A new folder, gone at the end, also where a signal comes while it is made or removed. Where
    there is much in it, a program that a signal ends doesn't wait until it is gone."""
    made: list[str] = []
    removing = remove_all
    try:
        with stopping.held():
            made.append(tempfile.mkdtemp(prefix="mkcheck-record-", dir=above))
        yield made[0]
    except stopping.Stopped:
        removing = remove_behind
        raise
    finally:
        try:
            removing(made)
        except stopping.Stopped:
            # A signal has cut that short, and a second one does nothing.
            remove_behind(made)
            raise


def remove_behind(folders: list[str]) -> None:
    """Takes folders away in a process of its own, and waits for that no longer than a moment."""
    try:
        child = os.fork()
    except OSError:
        remove_all(folders)
        return
    if child == 0:
        try:
            os.setsid()
            nothing = os.open(os.devnull, os.O_RDWR)
            for number in range(3):
                os.dup2(nothing, number)
            os.closerange(3, os.sysconf("SC_OPEN_MAX"))
            remove_all(folders)
        finally:
            os._exit(0)
    until = time.monotonic() + SECONDS_TO_REMOVE
    while os.waitpid(child, os.WNOHANG)[0] == 0 and time.monotonic() < until:
        time.sleep(MOMENT)


def remove_all(folders: list[str]) -> None:
    """Takes folders away. What was killed just now may still end a call that makes a file."""
    for folder in folders:
        for _ in range(TRIES):
            if not os.path.lexists(folder):
                break
            remove(folder)
            if os.path.lexists(folder):
                time.sleep(MOMENT)


def is_outside(place: str, project: str) -> bool:
    """Whether a folder can be written to, and lies outside of another one."""
    real = os.path.realpath(place)
    inside = real == project or real.startswith(project + "/")
    return not inside and os.path.isdir(real) and os.access(real, os.W_OK | os.X_OK)


def is_left_out(path: str, left_out: frozenset[str]) -> bool:
    """Whether a copy omits this path: a target, and a folder only if nothing else is in it."""
    if path not in left_out:
        return False
    if os.path.islink(path) or not os.path.isdir(path):
        return True
    return all(
        os.path.join(folder, name) in left_out
        for folder, _, names in os.walk(path)
        for name in names
    )
