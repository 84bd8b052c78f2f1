"""Copies of the project's folder, in which the build tool runs at the project's own path."""

from __future__ import annotations

import contextlib
import os
import re
import shutil
import subprocess
import tempfile
from dataclasses import dataclass, field, replace

from mkcheck_tools.faults import Fault
from mkcheck_tools.run.folders import Copier
from mkcheck_tools.run.paths import RealPath, SeenPath
from mkcheck_tools.run.places import Place, kill_group, namespace, waited

# How long a program may take to clear up, when it is asked to end.
SECONDS_TO_END = 20
TAIL_SIZE = 4096
# Files in which a build tool keeps commands, which may name the project's folder.
BUILD_FILES = re.compile(
    r"([Mm]akefile.*|GNUmakefile|.*\.(mk|mak|make|ninja|cmake)|config\.status)$"
)


@dataclass
class ProjectCopier(Copier):
    """Copies a project without some folders."""

    unwanted: frozenset[str] = frozenset()
    """The real paths that aren't copied."""

    def entry(self, entry: os.DirEntry[str], goal: str) -> None:
        """Copies what stands at a path itself."""
        if entry.path not in self.unwanted:
            super().entry(entry, goal)


@dataclass
class Copies:
    """Fresh copies of a folder, each by a word.

    Where the system allows mount namespaces each copy appears at the path of the folder. Else the
    copy that is used lies at one path of its own, and the others wait beside it.
    """

    root: str
    """The real path of the project's folder."""

    scratch: str
    left_out: tuple[str, ...] = ()
    """Real paths that aren't copied."""

    hidden: set[str] = field(default_factory=set)
    """Files and folders of the project that copies don't have."""

    used: str = ""
    made: set[str] = field(default_factory=set)

    @property
    def seen(self) -> str:
        """The path at which commands see a copy."""
        if namespace() is not None:
            return self.root
        return os.path.join(self.scratch, "here", os.path.basename(self.root) or "project")

    def kept(self, word: str) -> str:
        """Where a copy lies while it isn't used, or always, where it is mounted."""
        return os.path.join(self.scratch, f"copy-{word}", os.path.basename(self.root) or "project")

    def place(self, word: str) -> Place:
        """The copy of a word, which is made where it isn't there yet."""
        if word not in self.made:
            self.made.add(word)
            self.make(self.kept(word))
        if namespace() is not None:
            return Place(RealPath(self.kept(word)), SeenPath(self.root))
        if self.used != word:
            os.makedirs(os.path.dirname(self.seen), exist_ok=True)
            if self.used:
                os.rename(self.seen, self.kept(self.used))
            os.rename(self.kept(word), self.seen)
            self.used = word
        return Place.of(RealPath(self.seen))

    def copy(self, word: str, other: str) -> str:
        """Makes the copy of another word one of the copy of a word, as that is now; gives where it
        lies."""
        origin = self.place(word).folder
        self.made.add(other)
        os.makedirs(os.path.dirname(self.kept(other)), exist_ok=True)
        ProjectCopier(frozenset()).folder(origin, self.kept(other))
        return self.place(other).folder

    def shut(self, word: str) -> Place:
        """The same for commands of the build: they can write nowhere else, where the system allows
        that, but in folders for temporary files."""
        return replace(self.place(word), shut=True)

    def hide(self, names: set[str]) -> None:
        """Lets copies be without these files and folders, those too that are there already."""
        self.hidden |= names
        for word in self.made:
            self.take_away(self.place(word).folder, names)

    def show(self, names: set[str]) -> None:
        """Lets copies have such files again; each copy is made anew where it is asked for."""
        self.hidden -= names
        self.forget()

    def forget(self) -> None:
        """Removes all copies: each is made anew where it is asked for."""
        for word in self.made:
            shutil.rmtree(self.seen if word == self.used else self.kept(word), ignore_errors=True)
        self.made.clear()
        self.used = ""

    def renew(self, word: str) -> None:
        """Removes the copy of a word, which is made anew where it is asked for."""
        if word not in self.made:
            return
        shutil.rmtree(self.place(word).folder, ignore_errors=True)
        self.made.discard(word)
        self.used = "" if self.used == word else self.used

    def rename(self, word: str, other: str) -> None:
        """Lets the copy of a word be that of another one, which isn't there yet."""
        folder = self.place(word).folder
        os.makedirs(os.path.dirname(self.kept(other)), exist_ok=True)
        os.rename(folder, self.kept(other))
        self.made ^= {word, other}
        self.used = "" if self.used == word else self.used

    def take_away(self, folder: str, names: set[str]) -> None:
        """Takes files and folders away from a copy; folders only where they are empty then."""
        for name in sorted(names, key=len, reverse=True):
            path = os.path.join(folder, name.rstrip("/"))
            with contextlib.suppress(OSError):
                if os.path.isdir(path) and not os.path.islink(path):
                    os.rmdir(path)
                else:
                    os.unlink(path)

    def make(self, goal: str) -> None:
        """Copies the folder. What can't be read isn't copied, and devices and sockets aren't."""
        if namespace() is None:
            self.refuse_own_path()
        os.makedirs(os.path.dirname(goal), exist_ok=True)
        copier = ProjectCopier(frozenset(), unwanted=frozenset([*self.left_out, self.scratch]))
        try:
            copier.folder(self.root, goal)
        except OSError as error:
            raise Fault(
                f"{self.root} can't be copied to {goal}: {error.strerror}; TMPDIR names where"
                " copies lie"
            ) from None
        self.take_away(goal, self.hidden)

    def refuse_own_path(self) -> None:
        """Raises `Fault` where a copy at another path could change the folder itself."""
        word = os.fsencode(self.root) + b"/"
        for folder, _, names in os.walk(self.root):
            for name in filter(BUILD_FILES.match, names):
                path = os.path.join(folder, name)
                try:
                    with open(path, "rb") as file:
                        is_named = word in file.read()
                except OSError:
                    continue
                if is_named:
                    raise Fault(
                        f"{os.path.relpath(path, self.root)} names the folder {self.root}, so the"
                        " build can't run in a copy at another path, and this system allows no"
                        " mount namespace: run mkcheck-import as root, or where `unshare --user"
                        " --map-root-user --mount` works"
                    )


def listing(folder: str) -> set[str]:
    """The names of the files and folders in a folder; of a folder also the name with a slash."""
    found: set[str] = set()
    for above, folders, files in os.walk(folder):
        front = "" if above == folder else above[len(folder) + 1 :] + "/"
        found.update(front + name for name in files)
        for name in folders:
            found.add(front + name)
            if not os.path.islink(os.path.join(above, name)):
                found.add(f"{front}{name}/")
            elif os.path.isdir(os.path.join(above, name)):
                found.add(f"{front}{name}/")
    return found


def links_in(folder: str) -> dict[str, str]:
    """The links to folders in a folder: the name of each, and that of the folder behind it."""
    found: dict[str, str] = {}
    real = os.path.realpath(folder)
    for above, folders, _ in os.walk(folder):
        for name in folders:
            path = os.path.join(above, name)
            if os.path.islink(path):
                behind = os.path.realpath(path)
                if behind.startswith(real + "/"):
                    found[path[len(folder) + 1 :]] = behind[len(real) + 1 :]
    return found


class Tail:
    """The end of what a command has printed so far, for who wants to know how far it is."""

    def __init__(self) -> None:
        self.files: list[int] = []

    def text(self) -> str:
        """The last of its lines."""
        found = b""
        for number in self.files:
            with contextlib.suppress(OSError):
                size = os.fstat(number).st_size
                found += os.pread(number, TAIL_SIZE, max(size - TAIL_SIZE, 0))
        return found.decode("utf-8", "replace")


def run_here(
    place: Place, command: list[str], environment: dict[str, str], tail: Tail | None = None
) -> tuple[int, str, str]:
    """Runs a command in a place: its status and its two streams, whose ends `tail` has meanwhile.

    When this function is left by an exception, the command is asked to end, and then all that it
    started is killed.
    """
    with tempfile.TemporaryFile() as output, tempfile.TemporaryFile() as errors:
        if tail is not None:
            tail.files = [output.fileno(), errors.fileno()]
        process = subprocess.Popen(
            place.words(command),
            cwd=place.seen,
            env=environment,
            stdin=subprocess.DEVNULL,
            stdout=output,
            stderr=errors,
            start_new_session=True,
        )
        try:
            status = waited(process)
        finally:
            if tail is not None:
                tail.files = []
            if process.poll() is None:
                process.terminate()
                with contextlib.suppress(subprocess.TimeoutExpired):
                    process.wait(SECONDS_TO_END)
            kill_group(process.pid)
            process.wait()
        texts = []
        for stream in (output, errors):
            stream.seek(0)
            texts.append(stream.read().decode("utf-8", "replace"))
    return status, texts[0], texts[1]
