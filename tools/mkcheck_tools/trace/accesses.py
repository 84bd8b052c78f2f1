"""What a recipe reads and writes, followed call by call to the real paths of its files."""

from __future__ import annotations

import os
import re
from collections.abc import Iterable, Mapping
from dataclasses import dataclass, field

from mkcheck_tools.run import stopping
from mkcheck_tools.run.paths import RealPath, SeenPath, seen_in
from mkcheck_tools.trace.calls import (
    CONNECTIONS,
    FORKS,
    LINKINGS,
    LOOKS,
    LOOKS_IN_VAIN,
    NOT_EMPTY,
    NOTHING_THERE,
    OF_LINKS,
    OPENS,
    READ_ONLY,
    REMOVALS,
    SAME,
    WRITES,
    WRITINGS,
    Call,
    path_of,
    text_of,
)
from mkcheck_tools.trace.makes import is_make, is_part, is_system
from mkcheck_tools.trace.programs import interpreters_of
from mkcheck_tools.trace.trees import ROOT, Owner, Tree, moved_to
from mkcheck_tools.trace.waiting import SHELLS, Waiting

INTERPRETERS_AT_MOST = 4
# How large a text may be that is looked through for a word.
SCRIPT_AT_MOST = 1 << 20
# Programs in which what they read decides nothing of what they do where a write fails.
ASSEMBLERS = re.compile(r"(?:.+-)?as")
EXCHANGE = "RENAME_EXCHANGE"
DELETED = " (deleted)"
SPACES = ("CLONE_NEWNS", "CLONE_NEWPID")
LISTENER = "SECCOMP_FILTER_FLAG_NEW_LISTENER"
# Sockets that look up users and machines, or take log messages: asking them changes no file.
SYSTEM_SOCKETS = ("/var/run/nscd/", "/run/nscd/", "/run/systemd/", "/var/run/systemd/", "/dev/log")
OF_PROCESS = re.compile(r"/proc/(self|thread-self|\d+)/(cwd|root)(?=/|$)")
SOCKET = re.compile(r'sun_path=(@?)("(?:[^"\\\\]|\\\\.)*")')
ADDRESS = re.compile(r'inet_(?:addr|pton)\((?:AF_INET6, )?"([^"]*)"')
PORT = re.compile(r"sin6?_port=htons\((\d+)\)")
# What asks for the address of a machine.
RESOLVER = "systemd/resolve/"
# What a program gets by a key: no file, and all others of the machine get the same.
MEMORY, SEMAPHORES, QUEUE = "the shared memory", "the semaphores", "the message queue"
SHARED_MEMORY = "/dev/shm/"
PRIVATE = ("IPC_PRIVATE", "0", "0x0")


@dataclass
class Standing:
    """The folder in which a process stands. Threads of one process share theirs."""

    path: SeenPath


@dataclass(frozen=True)
class Alias:
    """A name that leads over symbolic links, these, and the real path."""

    name: SeenPath
    links: tuple[SeenPath, ...]
    real: SeenPath


@dataclass
class Accesses:
    """What one recipe does to files, by their real paths, in the order of their first use."""

    tree: Tree
    reads: dict[SeenPath, None] = field(default_factory=dict)
    writes: dict[SeenPath, None] = field(default_factory=dict)
    """Files that it wrote, and didn't remove or rename later."""

    touched: dict[SeenPath, None] = field(default_factory=dict)
    """Files that it wrote or removed at any time."""

    made: dict[SeenPath, None] = field(default_factory=dict)
    """Files that it wrote and that weren't there before."""

    fresh: dict[SeenPath, None] = field(default_factory=dict)
    """Files that it opened so that this fails where they are there already."""

    lost: dict[SeenPath, None] = field(default_factory=dict)
    """Files that it removed and hadn't made."""

    missed: dict[SeenPath, None] = field(default_factory=dict)
    """Paths that it failed to remove: nothing was there, or a folder that isn't empty."""

    sought: dict[SeenPath, None] = field(default_factory=dict)
    """Paths at which it looked when nothing was there."""

    folders: dict[SeenPath, None] = field(default_factory=dict)
    """Folders that it made."""

    dropped: dict[SeenPath, None] = field(default_factory=dict)
    """Folders that it removed or renamed and hadn't made."""

    owned: dict[SeenPath, None] = field(default_factory=dict)
    """Folders that it hadn't made, and whose mode, owner or attributes it changed."""

    stamped: dict[SeenPath, None] = field(default_factory=dict)
    """Files to which it gave a stamp other than the present time."""

    moved: dict[SeenPath, None] = field(default_factory=dict)
    """New names of files and folders that it renamed."""

    aliases: dict[SeenPath, Alias] = field(default_factory=dict)
    """Names by which it reached a file over a symbolic link."""

    over: dict[SeenPath, None] = field(default_factory=dict)
    """Links that it followed and that no recipe made."""

    makes: dict[tuple[str, SeenPath], None] = field(default_factory=dict)
    """Makes that it started, each with the folder in which that make worked."""

    forbidden: dict[SeenPath, None] = field(default_factory=dict)
    """Files outside of the project that it would have written, were they not read-only for it."""

    strange: dict[str, None] = field(default_factory=dict)
    """Calls whose effects a trace doesn't show."""

    servers: dict[str, None] = field(default_factory=dict)
    """Servers that it asked and that aren't its own."""

    sockets: set[str] = field(default_factory=set)
    """Addresses at which its own processes serve."""

    ports: set[str] = field(default_factory=set)
    """Those of them that only one process of the machine can have, and that are no files."""

    channels: dict[str, None] = field(default_factory=dict)
    """What it used to hand something on to others, or to get it from them, that is no file."""

    looked: dict[SeenPath, None] = field(default_factory=dict)
    """Paths at which it looked, where such calls are traced."""

    listed: dict[SeenPath, None] = field(default_factory=dict)
    """Folders whose names it read."""

    locked: dict[SeenPath, None] = field(default_factory=dict)
    """Files and folders that it locked, by flock."""

    tried: dict[SeenPath, None] = field(default_factory=dict)
    """Those of them for whose lock it wouldn't have waited, or only for a while."""

    assembled: dict[SeenPath, tuple[SeenPath, ...]] = field(default_factory=dict)
    """Files that an assembler alone wrote, each with the assembler, and with the files of the
    project that the processes read by which it was started."""

    assemblers: dict[SeenPath, int] = field(default_factory=dict)
    """The process of that assembler, by the file."""

    beside: dict[SeenPath, None] = field(default_factory=dict)
    """Files that two processes opened to write them of which neither waited for the other's end."""

    unwaited: dict[SeenPath, str] = field(default_factory=dict)
    """Files that a process wrote for whose end nobody waited, each with its program."""

    asking: dict[SeenPath, set[int]] = field(default_factory=dict)
    """By the path of a file of the project the processes that opened it or looked at it, but for
    those that only asked whether it is a link. Nothing has to be there."""

    blind: dict[SeenPath, None] = field(default_factory=dict)
    """Files that were opened to be written from nothing: who opened them so learnt nothing of what
    was there."""

    changed: dict[SeenPath, None] = field(default_factory=dict)
    """Files that left their path, came there by another name, or of which a part was changed."""

    def wrote(self, path: SeenPath) -> bool:
        """Whether the recipe wrote this file before, or moved a folder there that holds it."""
        if path in self.writes or not self.moved:
            return path in self.writes
        while path not in self.moved:
            shorter = SeenPath(os.path.dirname(path))
            if shorter == path:
                return False
            path = shorter
        return True

    def is_new(self, path: SeenPath, flags: str) -> bool:
        """Whether an open with these flags makes the file.

        Which files are there is known of the project alone, so elsewhere only O_EXCL tells.
        """
        if "O_CREAT" not in flags:
            return False
        unknown = not self.tree.has(path) and path not in self.touched
        return "O_EXCL" in flags or (not unknown and path not in self.tree.there)

    def read(self, path: SeenPath) -> None:
        """A read, unless of a file that the recipe wrote itself."""
        if not self.wrote(path):
            self.reads.setdefault(path)

    def write(self, path: SeenPath) -> None:
        """A writing. Footprints name no folders."""
        if path in self.tree.folders:
            return
        self.writes.setdefault(path)
        self.touched.setdefault(path)
        if path not in self.tree.there:
            self.made.setdefault(path)
            self.tree.there.add(path)

    def stamp(self, path: SeenPath, times: str) -> None:
        """A file gets a stamp: the present time, or one that the recipe chose."""
        if times != "NULL" and not times.endswith("UTIME_NOW]"):
            self.stamped.setdefault(path)
        self.change(path)

    def change(self, path: SeenPath) -> None:
        """The recipe changes a stamp, a mode or a part of a file, and keeps the rest."""
        self.assembled.pop(path, None)
        self.changed.setdefault(path)
        self.read(path)
        self.write(path)

    def own(self, path: SeenPath) -> None:
        """A file or a folder gets a mode, an owner or an attribute."""
        self.change(path)
        if path not in self.folders and os.path.isdir(self.tree.place.real(path)):
            self.owned.setdefault(path)

    def remove(self, path: SeenPath) -> None:
        """A file is taken away."""
        self.lose(path)
        self.tree.remove(path)

    def remove_folder(self, path: SeenPath) -> None:
        """An empty folder is removed."""
        if path in self.tree.folders and path not in self.folders:
            self.dropped.setdefault(path)
        self.tree.folders.discard(path)

    def rename(self, old: SeenPath, new: SeenPath) -> None:
        """A file is renamed, or a folder with all files that are known in it."""
        inside = (path for path in self.writes if path.startswith(old + "/"))
        files = dict.fromkeys([*self.tree.inside(old), *inside])
        if not files and old not in self.tree.folders:
            files[old] = None
        elif old in self.tree.folders and old not in self.folders:
            self.dropped.setdefault(old)
        for path in self.tree.inside(new):
            self.lose(path)
        for path in files:
            self.read(path)
            self.lose(path)
        self.tree.move(old, new)
        for path in files:
            goal = moved_to(path, old, new)
            self.assembled.pop(goal, None)
            self.changed.setdefault(goal)
            self.tree.there.add(goal)
            for kept in (self.writes, self.touched, self.made):
                kept.setdefault(goal)
            if path in self.stamped:
                self.stamped.setdefault(goal)
        if old in self.folders:
            self.folders.setdefault(new)
        self.moved.setdefault(new)

    def lose(self, path: SeenPath) -> None:
        """A file leaves its path: it is removed, renamed or replaced."""
        self.assembled.pop(path, None)
        self.changed.setdefault(path)
        self.writes.pop(path, None)
        self.moved.pop(path, None)
        self.touched.setdefault(path)
        if path in self.tree.there and path not in self.made:
            self.lost.setdefault(path)

    def ask(self, path: SeenPath, process: int) -> None:
        """A process opens a file, or looks at it."""
        if self.tree.has(path):
            self.asking.setdefault(path, set()).add(process)

    def is_asked_for_alone(self, path: SeenPath) -> bool:
        """Whether an assembler alone wrote a file, and no other process learnt what was there."""
        own = {self.assemblers[path]} if path in self.assembled else set()
        return bool(own) and self.asking.get(path, set()) <= own

    def is_written_blindly(self, path: SeenPath) -> bool:
        """Whether a file was only written from nothing, and no process learnt what was there."""
        learnt = {*self.asking, *self.changed, *self.missed}
        return path in self.blind and path not in learnt

    def pass_over(self, links: Iterable[SeenPath]) -> None:
        """The recipe follows symbolic links; one that a recipe made is a file that it reads."""
        for link in links:
            if link in self.tree.made:
                self.read(link)
            elif self.tree.has(link):
                self.over.setdefault(link)

    def look(self, name: SeenPath) -> Iterable[SeenPath]:
        """The recipe looks at a name: at the file behind it, and at each link on the way. Returns
        all of these."""
        real, links = self.tree.follow(name)
        found = (real, *links, self.tree.own(name)[0])
        for path in found:
            self.looked.setdefault(path)
        return found

    def seek(self, name: SeenPath) -> None:
        """The recipe looks for a file that isn't there, unless it removed the file itself.

        If the file is there after all, a folder on the way, as in `absent/../file`, wasn't.
        """
        path, _ = self.tree.follow(name)
        known = path in self.tree.there or path in self.tree.folders
        if not known and path not in self.touched and path not in self.folders:
            self.sought.setdefault(path)

    def reach(self, name: SeenPath) -> SeenPath:
        """The real path of a file that is reached by a name, over links."""
        real, links = self.tree.follow(name)
        if links:
            self.pass_over(links)
            plain = SeenPath(os.path.normpath(name))
            if plain != real:
                self.aliases.setdefault(plain, Alias(plain, links, real))
        return real

    def reach_itself(self, name: SeenPath) -> SeenPath:
        """The real path of a name itself, which may be a link."""
        real, links = self.tree.own(name)
        self.pass_over(links)
        return real


@dataclass
class Follower:
    """Follows the calls of one command. All of its processes begin in one folder."""

    accesses: Accesses
    start: SeenPath
    standings: dict[int, Standing] = field(default_factory=dict)
    makers: dict[int, tuple[str, SeenPath]] = field(default_factory=dict)
    makefiles: dict[int, list[SeenPath]] = field(default_factory=dict)
    """What each of these makes read since it was started."""

    starters: set[int] = field(default_factory=set)
    """Those of them that started a process."""

    at_work: set[int] = field(default_factory=set)
    timed: set[int] = field(default_factory=set)
    """Processes that set a timer, by which they may give up to wait."""

    held: dict[tuple[str, str], tuple[str, bool]] = field(default_factory=dict)
    """By its kind and number what it got by a key, and whether it asked to make it."""

    parents: dict[int, int] = field(default_factory=dict)
    """By which process each other one was started."""

    running: dict[int, SeenPath] = field(default_factory=dict)
    """The program that each process started last."""

    own_reads: dict[int, dict[SeenPath, None]] = field(default_factory=dict)
    """The files of the project that each process opened to read them, or started."""

    writers: dict[SeenPath, int | None] = field(default_factory=dict)
    """The process that opened a file to write it; None where others may write to it, too."""

    ended: Mapping[int, int] = field(default_factory=dict)
    """For each process its end, among the orders of the calls."""

    begun: dict[int, int] = field(default_factory=dict)
    """The same of their beginnings."""

    leaders: dict[int, int] = field(default_factory=dict)
    """The process of each of its further threads."""

    opening: dict[SeenPath, dict[int, int]] = field(default_factory=dict)
    """The processes that opened a file to write it, each with its last call that did so."""

    changing: dict[int, dict[SeenPath, None]] = field(default_factory=dict)
    """By a process the files of the project that it made, changed or took away."""

    minded: frozenset[int] = frozenset()
    """Processes to which another one sent a signal, or of which it asked whether they are there."""

    text: str = ""
    """The words of the command."""

    runners: dict[int, str] = field(default_factory=dict)
    """The program that each process runs; of a shell script the shell."""

    def __post_init__(self) -> None:
        self.waiting = Waiting(self.leaders, self.runners)

    def follow(self, calls: Iterable[Call]) -> None:
        """Takes the calls, in their order."""
        for call in calls:
            stopping.go_on()
            self.waiting.take(call)
            if call.name in FORKS:
                self.fork(call)
                continue
            if call.failed or call.name in LOOKS:
                if call.result == READ_ONLY and call.name in WRITINGS:
                    self.forbidden(call)
                if call.name in LOOKS or call.name in LOOKS_IN_VAIN:
                    self.looked_at(call)
                    self.removed_in_vain(call)
                if call.name in CONNECTIONS:
                    self.asked(call)
                continue
            if call.name in WRITES:
                self.written(call)
                continue
            taken = getattr(self, f"on_{SAME.get(call.name, call.name)}", None)
            if taken is not None:
                taken(call)
            if call.name in WRITINGS and call.name not in OPENS:
                self.change(self.written_by(call), call)
        self.note_assembled()
        self.note_beside()
        self.note_unwaited()
        for process, maker in self.makers.items():
            read = self.makefiles.get(process, ())
            works = bool(read) or process in self.starters
            if works and not is_part(read, self.accesses.touched, self.accesses.tree.root):
                self.accesses.makes.setdefault(maker)

    def note_assembled(self) -> None:
        """Notes the files that an assembler alone wrote."""
        for path, process in self.writers.items():
            program = self.running.get(process, ROOT) if process is not None else ROOT
            is_one = ASSEMBLERS.fullmatch(os.path.basename(program)) is not None
            if is_one and path in self.accesses.writes and not self.accesses.tree.has(program):
                above = self.parents.get(process or 0)
                found: dict[SeenPath, None] = {}
                while above is not None:
                    found.update(self.own_reads.get(above, {}))
                    above = self.parents.get(above)
                self.accesses.assembled[path] = (program, *found)
                self.accesses.assemblers[path] = process or 0

    def note_beside(self) -> None:
        """Notes the files that processes wrote side by side."""
        for path, processes in self.opening.items():
            pairs = zip(processes.items(), [*processes.items()][1:])
            is_own = path in self.accesses.touched and path not in self.accesses.locked
            if is_own and any(self.are_beside(*pair) for pair in pairs):
                self.accesses.beside.setdefault(path)

    def note_unwaited(self) -> None:
        """Notes the files that processes wrote for whose end nobody waited, but for those that were
        killed. A process that went on when the command had ended is known otherwise."""
        for process, paths in self.changing.items() if self.ended else ():
            line = self.line_of(process)
            if not self.minded.isdisjoint(line[:-1]) or all(map(self.is_waited_for, line[:-1])):
                continue
            program = os.path.basename(self.running.get(process, ROOT))
            for path in paths:
                self.accesses.unwaited.setdefault(path, program)

    def is_waited_for(self, process: int) -> bool:
        """Whether the process that started another one waits for its end."""
        above = self.line_of(process)[1:]
        if self.ended.get(process, 0) > self.ended.get(above[0], 0):
            return False
        scripts = (path for one in above for path in self.own_reads.get(one, ()))
        texts = (text_at(self.accesses.tree.place.real(path)) for path in scripts)
        return self.waiting.is_waited_for(process, self.text, texts)

    def are_beside(self, one: tuple[int, int], other: tuple[int, int]) -> bool:
        """Whether two processes wrote side by side. Of those that started them and have a parent in
        common, each began before the other ended, or nobody waited for the one of the first; or the
        one started the other, and opened the file while that went on."""
        first, second = self.line_of(one[0]), self.line_of(other[0])
        front, behind = (
            next((process for process in reversed(line) if process not in others), 0)
            for line, others in ((first, second), (second, first))
        )
        if not front or not behind:
            opened, child = (other[1], front) if front else (one[1], behind)
            return self.begun.get(child, 0) < opened < self.ended.get(child, 0)
        if self.is_left_alone(first[: first.index(front) + 1]):
            return True
        is_later = self.begun.get(behind, 0) > self.ended.get(front, 0)
        return not is_later and self.begun.get(front, 0) <= self.ended.get(behind, 0)

    def is_left_alone(self, line: list[int]) -> bool:
        """Whether one of some processes, each of which the next one started, went on when that had
        ended."""
        ends = [self.ended.get(process, 0) for process in line]
        return any(end > above for end, above in zip(ends, ends[1:]))

    def line_of(self, process: int) -> list[int]:
        """A process, the one by which it was started, and so on."""
        found = [process]
        while found[-1] in self.parents and len(found) <= len(self.parents):
            parent = self.parents[found[-1]]
            found.append(self.leaders.get(parent, parent))
        return found

    def opened_to_write(self, path: SeenPath, process: int) -> None:
        """A process opens a file to write it."""
        is_first = path not in self.accesses.touched
        is_own = self.writers.get(path) == process
        self.writers[path] = process if is_first or is_own else None
        self.accesses.assembled.pop(path, None)

    def wrote(self, path: SeenPath, call: Call) -> None:
        """A process opens a file to write it, writes to it, or gives another one its name."""
        leader = self.leaders.get(call.process, call.process)
        self.opening.setdefault(path, {})[leader] = call.order
        self.change(path, call)

    def change(self, path: SeenPath | None, call: Call) -> None:
        """A process makes, changes or takes away a file."""
        if path is not None and self.accesses.tree.has(path):
            leader = self.leaders.get(call.process, call.process)
            self.changing.setdefault(leader, {}).setdefault(path)

    def written(self, call: Call) -> None:
        """A process writes to what it has open, which another one may have opened."""
        path = self.descriptor(call.arguments[WRITES[call.name]])
        if path is not None and self.accesses.tree.has(path):
            self.wrote(path, call)

    def hand_on(self, process: int) -> None:
        """A process starts another one or a program, which may write to what it has open."""
        for path in [path for path, one in self.writers.items() if one == process]:
            self.writers[path] = None

    def looked_at(self, call: Call) -> None:
        """A call that only looks at a name, or fails since nothing is there.

        With an empty name it looks at what a descriptor has open, which is passed over.
        """
        folder, name = LOOKS.get(call.name) or LOOKS_IN_VAIN[call.name]
        if len(call.arguments) > name and text_of(call.arguments[name]):
            path = self.path(call, name, folder)
            for found in self.accesses.look(path):
                if call.name not in OF_LINKS:
                    self.accesses.ask(found, call.process)
            if call.failed and call.result == NOTHING_THERE and call.name not in REMOVALS:
                self.accesses.seek(path)

    def removed_in_vain(self, call: Call) -> None:
        """A call that fails to remove or rename: nothing is there, or the folder isn't empty."""
        if call.name not in REMOVALS or call.result not in (NOTHING_THERE, *NOT_EMPTY):
            return
        folder, name = LOOKS_IN_VAIN[call.name]
        path = self.itself(call, name, folder)
        is_folder = path in self.accesses.tree.folders
        if call.result in NOT_EMPTY:
            if is_folder and not call.name.startswith("rename"):
                self.accesses.missed.setdefault(path)
        elif path not in self.accesses.tree.there and not is_folder:
            self.accesses.missed.setdefault(path)

    def written_by(self, call: Call) -> SeenPath | None:
        """The real path at which a call writes."""
        folder, name = WRITINGS[call.name]
        if name is None or not text_of(call.arguments[name]):
            return self.descriptor(call.arguments[folder or 0])
        path = self.accesses.tree.own(self.path(call, name, folder))[0]
        is_itself = call.name in (*REMOVALS, *LINKINGS)
        return path if is_itself else self.accesses.tree.follow(path)[0]

    def forbidden(self, call: Call) -> None:
        """A call that would write to what is read-only here.

        It counts where the user could do that outside of the recording.
        """
        path = self.written_by(call)
        if path is None or self.accesses.tree.has(path):
            return
        real = self.accesses.tree.place.real(path)
        there = os.path.lexists(real)
        if not there and call.name in ("unlink", "unlinkat", "rmdir"):
            return
        changed = real if there and call.name not in REMOVALS else os.path.dirname(real)
        if os.access(changed, os.W_OK):
            self.accesses.forbidden.setdefault(path)

    def standing(self, call: Call) -> Standing:
        """Where the process of a call stands."""
        return self.standings.setdefault(call.process, Standing(self.start))

    def fork(self, call: Call) -> None:
        """A new process begins in its parent's folder; a thread shares that of its process."""
        if call.process in self.makers:
            self.starters.add(call.process)
        self.parents[call.number] = call.process
        self.begun[call.number] = call.order
        if any("CLONE_THREAD" in argument for argument in call.arguments):
            self.leaders[call.number] = self.leaders.get(call.process, call.process)
        self.hand_on(call.process)
        if call.process in self.running:
            self.running.setdefault(call.number, self.running[call.process])
            self.runners.setdefault(call.number, self.runners[call.process])
        own = self.standing(call)
        shared = any("CLONE_FS" in argument for argument in call.arguments)
        self.standings[call.number] = own if shared else Standing(own.path)
        for space in SPACES:
            if any(space in argument for argument in call.arguments):
                self.accesses.strange.setdefault(f"{call.name} with {space}")

    def path(self, call: Call, at: int, folder: int | None = None) -> SeenPath:
        """The path that an argument names, from a folder's descriptor or the process's folder."""
        name = text_of(call.arguments[at]) or ""
        standing = self.standing(call)
        base = standing.path
        if folder is not None:
            base = self.descriptor(call.arguments[folder]) or base
            if call.arguments[folder].startswith("AT_FDCWD"):
                standing.path = base
        return self.plainly(call, seen_in(base, name) if name else base)

    def plainly(self, call: Call, path: SeenPath) -> SeenPath:
        """A path without `/proc/self/cwd` or `/proc/self/root` at its front."""
        found = OF_PROCESS.match(path) if path.startswith("/proc/") else None
        if found is None:
            return path
        process, kind = found.groups()
        if kind == "root":
            return SeenPath(path[found.end() :]) or ROOT
        number = int(process) if process.isdigit() else call.process
        standing = self.standings.get(number)
        return path if standing is None else SeenPath(standing.path + path[found.end() :])

    def descriptor(self, argument: str) -> SeenPath | None:
        """The path behind a descriptor.

        Older versions of strace may write ` (deleted)` as a part of it.
        """
        path = path_of(argument)
        if path is not None and path.endswith(DELETED) and self.accesses.tree.status(path) is None:
            return SeenPath(path[: -len(DELETED)])
        return path

    def itself(self, call: Call, at: int, folder: int | None = None) -> SeenPath:
        """The real path of what an argument names, which may be a link."""
        return self.accesses.reach_itself(self.path(call, at, folder))

    def behind(self, call: Call, at: int, folder: int | None = None) -> SeenPath:
        """The real path of what an argument names, links followed if the call does so."""
        if any("SYMLINK_NOFOLLOW" in argument for argument in call.arguments):
            return self.itself(call, at, folder)
        return self.accesses.reach(self.path(call, at, folder))

    def on_chdir(self, call: Call) -> None:
        self.accesses.look(self.path(call, 0))
        self.standing(call).path = self.accesses.reach(self.path(call, 0))
        # A make goes to another folder before it reads a file there, and may come back at its end.
        if call.process in self.makers and call.process not in self.at_work:
            self.makers[call.process] = (self.makers[call.process][0], self.standing(call).path)

    def on_fchdir(self, call: Call) -> None:
        self.standing(call).path = self.descriptor(call.arguments[0]) or self.standing(call).path

    def on_open(self, call: Call) -> None:
        self.opened(call, self.path(call, 0), call.arguments[1])

    def on_openat(self, call: Call) -> None:
        self.opened(call, self.path(call, 1, 0), call.arguments[2])

    def on_creat(self, call: Call) -> None:
        self.opened(call, self.path(call, 0), "O_WRONLY|O_CREAT|O_TRUNC")

    def on_open_by_handle_at(self, call: Call) -> None:
        self.opened(call, path_of(call.result) or ROOT, call.arguments[2])

    def opened(self, call: Call, name: SeenPath, flags: str) -> None:
        """A file that is opened. Old contents are read where they are kept."""
        real = path_of(call.result)
        if real is None:
            return
        if "O_NOFOLLOW" in flags:
            self.accesses.reach_itself(name)
        else:
            self.accesses.reach(name)
        if "O_PATH" in flags or "O_DIRECTORY" in flags or "O_TMPFILE" in flags:
            for found in self.accesses.look(name):
                self.accesses.ask(found, call.process)
            return
        written = "O_WRONLY" in flags or "O_RDWR" in flags
        if is_blind(flags):
            self.accesses.blind.setdefault(real)
        else:
            self.accesses.ask(real, call.process)
        if self.accesses.tree.has(real):
            self.at_work.add(call.process)
            if not written:
                self.own_reads.setdefault(call.process, {}).setdefault(real)
        if "O_EXCL" in flags and "O_CREAT" in flags:
            self.accesses.fresh.setdefault(real)
        new = self.accesses.is_new(real, flags)
        if real.startswith(SHARED_MEMORY) and not new and not self.accesses.wrote(real):
            self.accesses.channels.setdefault(f"{MEMORY} {real}")
        if call.process in self.makers and not written and not is_system(real):
            self.makefiles.setdefault(call.process, []).append(real)
        if not new and not (written and "O_TRUNC" in flags):
            self.accesses.read(real)
        if written or new:
            self.opened_to_write(real, call.process)
            self.wrote(real, call)
            self.accesses.write(real)

    def on_getdents(self, call: Call) -> None:
        """The names in a folder are read."""
        path = self.descriptor(call.arguments[0])
        if path is not None:
            self.accesses.listed.setdefault(path)

    def on_readlink(self, call: Call) -> None:
        self.looked_into(self.itself(call, 0))

    def on_readlinkat(self, call: Call) -> None:
        self.looked_into(self.itself(call, 1, 0))

    def looked_into(self, link: SeenPath) -> None:
        """The text of a link is read.

        A link of the project that leads to a folder is no file that make could name.
        """
        tree = self.accesses.tree
        if not tree.has(link):
            return
        if link not in tree.made and os.path.isdir(tree.place.real(tree.follow(link)[0])):
            self.accesses.over.setdefault(link)
        else:
            self.accesses.read(link)

    def on_execve(self, call: Call) -> None:
        self.started(call, self.path(call, 0))

    def on_execveat(self, call: Call) -> None:
        self.started(call, self.path(call, 1, 0))

    def started(self, call: Call, name: SeenPath) -> None:
        """A program is read, and the interpreters and loaders that programs name."""
        real = self.accesses.reach(name)
        self.running[call.process] = real
        named = interpreters_of(self.accesses.tree.place.real(real))
        shells = [name for name in named if SHELLS.fullmatch(os.path.basename(name))]
        self.runners[call.process] = shells[0] if shells else real
        self.hand_on(call.process)
        if self.accesses.tree.has(real):
            self.own_reads.setdefault(call.process, {}).setdefault(real)
        if is_make(name) or is_make(real):
            self.makers[call.process] = (os.path.basename(name), self.standing(call).path)
            self.at_work.discard(call.process)
            self.makefiles.pop(call.process, None)
        waiting = [real]
        for _ in range(INTERPRETERS_AT_MOST):
            if not waiting:
                return
            real = waiting.pop()
            self.accesses.read(real)
            for other in interpreters_of(self.accesses.tree.place.real(real)):
                waiting.append(self.accesses.reach(seen_in(self.standing(call).path, other)))

    def on_rename(self, call: Call) -> None:
        self.renamed(call, self.itself(call, 0), self.itself(call, 1), "")

    def on_renameat(self, call: Call) -> None:
        flags = call.arguments[4] if len(call.arguments) > 4 else ""
        self.renamed(call, self.itself(call, 1, 0), self.itself(call, 3, 2), flags)

    def renamed(self, call: Call, old: SeenPath, new: SeenPath, flags: str) -> None:
        """A file gets another name. Two that are exchanged are read and written both."""
        self.wrote(new, call)
        if EXCHANGE not in flags:
            self.accesses.rename(old, new)
            for standing in self.standings.values():
                if f"{standing.path}/".startswith(f"{old}/"):
                    standing.path = moved_to(standing.path, old, new)
            return
        tree = self.accesses.tree
        for path in [*tree.inside(old), *tree.inside(new), old, new]:
            self.accesses.change(path)
        between = SeenPath(old + "\0")
        tree.move(old, between)
        tree.move(new, old)
        tree.move(between, new)

    def on_link(self, call: Call) -> None:
        self.linked(self.itself(call, 0), self.itself(call, 1))

    def on_linkat(self, call: Call) -> None:
        follows = "AT_SYMLINK_FOLLOW" in call.arguments[4]
        old = self.accesses.reach(self.path(call, 1, 0)) if follows else self.itself(call, 1, 0)
        self.linked(old, self.itself(call, 3, 2))

    def linked(self, old: SeenPath, new: SeenPath) -> None:
        """A file gets a second name."""
        self.accesses.read(old)
        self.accesses.write(new)
        text = self.accesses.tree.links.get(old)
        if text is not None:
            self.made_link(text, new)

    def on_symlink(self, call: Call) -> None:
        self.made_link(text_of(call.arguments[0]) or "", self.itself(call, 1))

    def on_symlinkat(self, call: Call) -> None:
        self.made_link(text_of(call.arguments[0]) or "", self.itself(call, 2, 1))

    def made_link(self, text: str, path: SeenPath) -> None:
        """A symbolic link is made."""
        self.accesses.write(path)
        self.accesses.tree.link(path, text)
        self.accesses.tree.made.add(path)

    def on_unlink(self, call: Call) -> None:
        self.accesses.remove(self.itself(call, 0))

    def on_unlinkat(self, call: Call) -> None:
        path = self.itself(call, 1, 0)
        if "AT_REMOVEDIR" in call.arguments[2]:
            self.accesses.remove_folder(path)
        else:
            self.accesses.remove(path)

    def on_mknod(self, call: Call) -> None:
        self.accesses.write(self.itself(call, 0))

    def on_mknodat(self, call: Call) -> None:
        self.accesses.write(self.itself(call, 1, 0))

    def on_mkdir(self, call: Call) -> None:
        self.made_folder(self.itself(call, 0))

    def on_mkdirat(self, call: Call) -> None:
        self.made_folder(self.itself(call, 1, 0))

    def made_folder(self, path: SeenPath) -> None:
        """A folder is made."""
        self.accesses.folders.setdefault(path)
        self.accesses.tree.folders.add(path)

    def on_rmdir(self, call: Call) -> None:
        self.accesses.remove_folder(self.itself(call, 0))

    def on_truncate(self, call: Call) -> None:
        real = self.behind(call, 0)
        if call.arguments[1] != "0":
            self.accesses.read(real)
        self.accesses.write(real)

    def on_utime(self, call: Call) -> None:
        self.accesses.stamp(self.behind(call, 0), call.arguments[1])

    def on_utimes(self, call: Call) -> None:
        self.accesses.stamp(self.behind(call, 0), call.arguments[1])

    def on_futimesat(self, call: Call) -> None:
        self.accesses.stamp(self.behind(call, 1, 0), call.arguments[2])

    def on_utimensat(self, call: Call) -> None:
        # The second time is the stamp; where it is omitted, only the time of access changes.
        if not call.arguments[2].endswith("UTIME_OMIT]"):
            self.accesses.stamp(self.behind(call, 1, 0), call.arguments[2])

    def on_chmod(self, call: Call) -> None:
        self.owned(self.behind(call, 0), mode=call.arguments[1])

    def on_fchmod(self, call: Call) -> None:
        self.owned(self.descriptor(call.arguments[0]), mode=call.arguments[1])

    def on_fchmodat(self, call: Call) -> None:
        self.owned(self.behind(call, 1, 0), mode=call.arguments[2])

    def on_chown(self, call: Call) -> None:
        self.owned(self.behind(call, 0), user=call.arguments[1], group=call.arguments[2])

    def on_lchown(self, call: Call) -> None:
        self.owned(self.itself(call, 0), user=call.arguments[1], group=call.arguments[2])

    def on_fchown(self, call: Call) -> None:
        self.owned(
            self.descriptor(call.arguments[0]), user=call.arguments[1], group=call.arguments[2]
        )

    def on_fchownat(self, call: Call) -> None:
        self.owned(self.behind(call, 1, 0), user=call.arguments[2], group=call.arguments[3])

    def owned(
        self, path: SeenPath | None, mode: str = "-1", user: str = "-1", group: str = "-1"
    ) -> None:
        """A file or a folder gets permissions, a user or a group. Those that it had already change
        nothing.
        """
        known = None if path is None else self.accesses.tree.owners.get(path)
        if path is None or (
            known is not None and not self.accesses.wrote(path) and same(known, mode, user, group)
        ):
            return
        self.accesses.own(path)

    def on_setxattr(self, call: Call) -> None:
        self.accesses.own(self.behind(call, 0))

    def on_lsetxattr(self, call: Call) -> None:
        self.accesses.own(self.itself(call, 0))

    def on_fsetxattr(self, call: Call) -> None:
        path = self.descriptor(call.arguments[0])
        if path is not None:
            self.accesses.own(path)

    def on_flock(self, call: Call) -> None:
        """A lock is taken, or given back. It changes nothing that a recipe leaves."""
        path = self.descriptor(call.arguments[0])
        if path is not None and "LOCK_UN" not in call.arguments[1]:
            self.accesses.locked.setdefault(path)
            if "LOCK_NB" in call.arguments[1] or call.process in self.timed:
                self.accesses.tried.setdefault(path)

    def on_alarm(self, call: Call) -> None:
        self.timed.add(call.process)

    def on_chroot(self, call: Call) -> None:
        self.accesses.strange.setdefault(call.name)

    def on_open_tree(self, call: Call) -> None:
        """What is opened below a copy of a tree has paths that begin there."""
        if any("OPEN_TREE_CLONE" in argument for argument in call.arguments):
            self.accesses.strange.setdefault(call.name)

    def on_seccomp(self, call: Call) -> None:
        """Another process may let calls pass before strace sees them."""
        if any(LISTENER in argument for argument in call.arguments):
            self.accesses.strange.setdefault(f"seccomp with {LISTENER}")

    def on_unshare(self, call: Call) -> None:
        self.standings[call.process] = Standing(self.standing(call).path)
        for space in SPACES:
            if space in call.arguments[0]:
                self.accesses.strange.setdefault(f"unshare with {space}")

    def on_setns(self, call: Call) -> None:
        if not call.arguments[1].startswith(("CLONE_NEWNET", "CLONE_NEWUTS")):
            self.accesses.strange.setdefault("setns")

    def on_bind(self, call: Call) -> None:
        """A process of the recipe is a server itself."""
        socket, port = SOCKET.search(call.arguments[1]), PORT.search(call.arguments[1])
        if socket is not None:
            path = text_of(socket.group(2)) or ""
            self.accesses.sockets.add(path)
            if socket.group(1) and path:
                self.accesses.ports.add(f"the socket @{path}")
        elif port is not None and port.group(1) != "0":
            self.accesses.ports.add(f"the port {port.group(1)}")

    def on_connect(self, call: Call) -> None:
        self.asked(call)

    def on_sendto(self, call: Call) -> None:
        self.asked(call)

    def asked(self, call: Call) -> None:
        """A server or another machine is asked, or told something. What it does for the recipe
        isn't seen, and it may answer even where the call failed. Without an address in it, what is
        asked is known from the call before.
        """
        address = " ".join(call.arguments[1:])
        socket, host, port = SOCKET.search(address), ADDRESS.search(address), PORT.search(address)
        if socket is not None:
            path = text_of(socket.group(2)) or ""
            plain = path.startswith(SYSTEM_SOCKETS) and RESOLVER not in path
            if not plain and path not in self.accesses.sockets:
                self.accesses.servers.setdefault(f"the socket {path}")
        elif host is not None and port is not None and port.group(1) != "0":
            self.accesses.servers.setdefault(f"{host.group(1)}, port {port.group(1)}")

    def on_shmget(self, call: Call) -> None:
        self.got(call, MEMORY)

    def on_semget(self, call: Call) -> None:
        self.got(call, SEMAPHORES)

    def on_msgget(self, call: Call) -> None:
        self.got(call, QUEUE)

    def got(self, call: Call, kind: str) -> None:
        """Something is got by a key, which others may have too."""
        key = call.arguments[0]
        self.held[kind, call.result] = ("", True)
        if key not in PRIVATE:
            name = f"{kind} {key}"
            self.held[kind, call.result] = (name, "IPC_CREAT" in call.arguments[-1])
            self.accesses.channels.setdefault(name)

    def on_shmat(self, call: Call) -> None:
        """What it got by no key came from elsewhere."""
        if (MEMORY, call.arguments[0]) not in self.held:
            self.accesses.channels.setdefault(f"{MEMORY} number {call.arguments[0]}")

    def on_shmctl(self, call: Call) -> None:
        self.let_go(call, MEMORY)

    def on_semctl(self, call: Call) -> None:
        self.let_go(call, SEMAPHORES)

    def on_msgctl(self, call: Call) -> None:
        self.let_go(call, QUEUE)

    def let_go(self, call: Call, kind: str) -> None:
        """What the recipe made and takes away itself hands nothing on, but only one recipe at a
        time may do so."""
        name, made = self.held.get((kind, call.arguments[0]), ("", False))
        if name and made and any("IPC_RMID" in argument for argument in call.arguments):
            self.accesses.channels.pop(name, None)
            self.accesses.ports.add(name)

    def on_mq_open(self, call: Call) -> None:
        name = f"{QUEUE} /{text_of(call.arguments[0]) or ''}"
        self.held[QUEUE, name] = (name, "O_CREAT" in call.arguments[1])
        self.accesses.channels.setdefault(name)

    def on_mq_unlink(self, call: Call) -> None:
        name = f"{QUEUE} /{text_of(call.arguments[0]) or ''}"
        if self.held.get((QUEUE, name), ("", False))[1]:
            self.accesses.channels.pop(name, None)
            self.accesses.ports.add(name)

    def on_keyctl(self, _: Call) -> None:
        self.accesses.channels.setdefault("keys that the kernel keeps")


def text_at(path: RealPath) -> str:
    """The text of a script; empty where it can't be read, or is too long for one."""
    try:
        if os.path.getsize(path) > SCRIPT_AT_MOST:
            return ""
        with open(path, encoding="utf-8", errors="surrogateescape") as file:
            return file.read()
    except OSError:
        return ""


def is_blind(flags: str) -> bool:
    """Whether an open with these flags makes the file, or empties it, whatever is there."""
    given = flags.split("|")
    is_whole = {"O_WRONLY", "O_CREAT", "O_TRUNC"} <= {*given}
    return is_whole and "O_EXCL" not in given and "O_NOFOLLOW" not in given


def same(known: Owner, mode: str, user: str, group: str) -> bool:
    """Whether a file has these already: -1 asks for nothing."""
    modes = mode == "-1" or int(mode, 8) & 0o7777 == known.mode
    return modes and number(user) in (None, known.user) and number(group) in (None, known.group)


def number(argument: str) -> int | None:
    """The number of a user or a group; none for the one that changes nothing."""
    return None if argument in ("-1", "4294967295") else int(argument)
