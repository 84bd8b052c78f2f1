"""Calls of the system, read line by line from what `strace -f -y -q -o FILE` writes."""

from __future__ import annotations

import functools
import re
from collections.abc import Iterable
from dataclasses import dataclass, field

from mkcheck_tools.faults import Fault
from mkcheck_tools.run.escapes import unescaped
from mkcheck_tools.run.paths import SeenPath

# What is traced: whatever opens, lists, starts, links, renames, removes, stamps or changes a file,
# and what is needed to follow relative paths. strace passes over those that a machine doesn't have.
FORKS = ("clone", "clone3", "fork", "vfork")
OF_LINKS = ("readlink", "readlinkat")
# Calls by which a process learns of the end of another one.
WAITS = ("wait4", "waitid", "waitpid")
# Calls by which another machine or a server is asked, or told something. Those that fail are kept,
# unless no such file is there: a connection may still be in progress.
CONNECTIONS = ("connect", "sendto", "sendmsg", "sendmmsg")
# Calls by which processes hand on what is in no file.
CHANNELS = (
    *("shmget", "shmat", "shmctl", "semget", "semctl", "msgget", "msgctl"),
    *("mq_open", "mq_unlink", "keyctl", "add_key", "request_key"),
)
TRACED = (
    *(
        "open",
        "openat",
        "openat2",
        "creat",
        "open_by_handle_at",
        "execve",
        "execveat",
        "chdir",
        "fchdir",
    ),
    *("rename", "renameat", "renameat2", "link", "linkat", "symlink", "symlinkat", *OF_LINKS),
    *("unlink", "unlinkat", "mknod", "mknodat", "mkdir", "mkdirat", "rmdir"),
    *("getdents", "getdents64"),
    *("truncate", "truncate64", "utime", "utimes", "utimensat", "utimensat_time64", "futimesat"),
    *("flock", "alarm", "setitimer", "timer_settime"),
    *("kill", "tkill", "tgkill"),
    *("chmod", "fchmod", "fchmodat", "fchmodat2", "chown", "lchown", "fchown", "fchownat"),
    *("chown32", "lchown32", "fchown32"),
    *("setxattr", "lsetxattr", "fsetxattr", "removexattr", "lremovexattr", "fremovexattr"),
    *(
        "chroot",
        "pivot_root",
        "mount",
        "move_mount",
        "umount2",
        "unshare",
        "setns",
        "bind",
        *CONNECTIONS,
        "seccomp",
        "open_tree",
        "open_tree_attr",
        "fsmount",
    ),
    *CHANNELS,
    *FORKS,
    *WAITS,
)
# What only opens. Programs repeat such calls, and looks, hundreds of times.
OPENS = ("open", "openat", "openat2")
# Flags by which an open makes or changes a file.
WRITING = ("O_WRONLY", "O_RDWR", "O_CREAT", "O_TRUNC", "O_TMPFILE")
# What is traced besides where the words of commands are: by these a command gets its output.
DUPLICATIONS = ("dup2", "dup3")
# What is traced besides where it is to be known at which names a recipe looked: each call with the
# arguments that have the folder, if any, and the name. Calls among the others that fail look at
# names too.
LOOKS: dict[str, tuple[int | None, int]] = {
    **dict.fromkeys(("stat", "lstat", "stat64", "lstat64", "access"), (None, 0)),
    **dict.fromkeys(("newfstatat", "fstatat64", "statx", "faccessat", "faccessat2"), (0, 1)),
}
LOOKS_IN_VAIN: dict[str, tuple[int | None, int]] = {
    **dict.fromkeys(("open", "execve", "chdir", "readlink", "mkdir"), (None, 0)),
    **dict.fromkeys(("openat", "openat2", "execveat", "readlinkat", "mkdirat"), (0, 1)),
    **dict.fromkeys(("unlink", "rmdir", "rename", "link", "mknod"), (None, 0)),
    **dict.fromkeys(("unlinkat", "renameat", "renameat2", "linkat", "mknodat"), (0, 1)),
    **dict.fromkeys(("truncate", "truncate64", "utime", "utimes", "chmod", "chown"), (None, 0)),
    **dict.fromkeys(("lchown", "chown32", "lchown32", "setxattr", "lsetxattr"), (None, 0)),
    **dict.fromkeys(("utimensat", "utimensat_time64", "futimesat"), (0, 1)),
    **dict.fromkeys(("fchmodat", "fchmodat2", "fchownat"), (0, 1)),
    "symlink": (None, 1),
    "symlinkat": (1, 2),
}
# All calls that tell at which names a recipe looked when they fail.
LOOKING = frozenset((*LOOKS, *LOOKS_IN_VAIN))
# Calls that write, with the arguments that have the folder, if any, and the name. A name of None
# stands for a file that is open. Where a file system is read-only, they fail by that error, and
# these failures are kept.
WRITINGS: dict[str, tuple[int | None, int | None]] = {
    **dict.fromkeys(("open", "creat", "mkdir", "mknod", "truncate", "truncate64"), (None, 0)),
    **dict.fromkeys(("utime", "utimes", "chmod", "chown", "lchown", "chown32"), (None, 0)),
    **dict.fromkeys(("lchown32", "setxattr", "lsetxattr", "unlink", "rmdir"), (None, 0)),
    **dict.fromkeys(("removexattr", "lremovexattr"), (None, 0)),
    **dict.fromkeys(("openat", "openat2", "mkdirat", "mknodat", "unlinkat"), (0, 1)),
    **dict.fromkeys(("utimensat", "utimensat_time64", "futimesat"), (0, 1)),
    **dict.fromkeys(("fchmodat", "fchmodat2", "fchownat"), (0, 1)),
    **dict.fromkeys(("rename", "link", "symlink"), (None, 1)),
    **dict.fromkeys(("renameat", "renameat2", "linkat"), (2, 3)),
    "symlinkat": (1, 2),
    **dict.fromkeys(("fchmod", "fchown", "fchown32", "fsetxattr", "fremovexattr"), (0, None)),
}
READ_ONLY = "EROFS"
# Calls that write to a file that is open, with the argument that has it.
WRITES = {
    **dict.fromkeys(("write", "pwrite64", "writev", "pwritev", "pwritev2"), 0),
    **dict.fromkeys(("sendfile", "sendfile64"), 0),
    **dict.fromkeys(("copy_file_range", "splice"), 2),
}
# How many arguments tell the name of a look, and of a call that fails.
NAMES_AT_MOST = 2
NAMES_IN_VAIN = 3
# Calls that take a name away. Where nothing stands there, or a folder that isn't empty, they fail,
# and yet another time they might not: these failures are kept.
REMOVALS = ("unlink", "unlinkat", "rmdir", "rename", "renameat", "renameat2")
# Calls that give something a name, and fail where that is there.
LINKINGS = ("link", "linkat", "symlink", "symlinkat")
NOTHING_THERE = "ENOENT"
NOT_EMPTY = ("ENOTEMPTY", "EEXIST")
# Calls that send a signal, and what isn't meant to end a process.
SIGNALS = ("kill", "tkill", "tgkill")
ASKING = "0"
NO_PROCESS = "ESRCH"
HARMLESS = (ASKING, "SIGCONT", "SIGCHLD", "SIGWINCH", "SIGURG")
# Calls that do what another one does, with the same arguments up to the last ones.
SAME = {
    "openat2": "openat",
    "getdents64": "getdents",
    "renameat2": "renameat",
    "truncate64": "truncate",
    "utimensat_time64": "utimensat",
    "fchmodat2": "fchmodat",
    "chown32": "chown",
    "lchown32": "lchown",
    "fchown32": "fchown",
    "dup3": "dup2",
    "removexattr": "setxattr",
    "lremovexattr": "lsetxattr",
    "fremovexattr": "fsetxattr",
    "pivot_root": "chroot",
    "mount": "chroot",
    "move_mount": "chroot",
    "umount2": "chroot",
    "fsmount": "chroot",
    "open_tree_attr": "open_tree",
    "setitimer": "alarm",
    "timer_settime": "alarm",
    "sendmsg": "sendto",
    "sendmmsg": "sendto",
    "add_key": "keyctl",
    "request_key": "keyctl",
}

LINE = re.compile(r"(\d+) +(.*)")
BEGUN = re.compile(r"(\w+)\(")
RESUMED = re.compile(r"<\.\.\. (\w+) resumed>")
ENDED = re.compile(r"\+\+\+ (?:exited with \d+|killed by \w+(?: \(core dumped\))?) \+\+\+$")
SUPERSEDED = re.compile(r"\+\+\+ superseded by execve in pid (\d+) \+\+\+$")
# Stops by a signal, and a note on programs for another processor.
# A process that was killed as it began a call leaves ???(), a call that did nothing. If a line of
# another process comes in between, strace splits it into two lines, and may leave out the second.
NOTE = re.compile(
    r"--- .* ---$|\[ .* \]$|\?\?\?\(\)\s+= \?(?: <unavailable>)?$"
    r"|\?\?\?\( <unfinished \.\.\.>$|<\.\.\. \?\?\? resumed>\)\s+= \?(?: <unavailable>)?$"
)
UNFINISHED = " <unfinished ...>"
# A look at what a descriptor has open, as C's fstat is one.
OF_DESCRIPTOR = re.compile(r'(?:newfstatat|fstatat64|statx)\(\d+(?:<[^<>]*>)?, "", ')
# The end of a call that failed, was interrupted and begins anew, or never returned: where its
# process was killed, strace may say that the result is unavailable. Names can't look like it: they
# stand in quotes or in `<>`, and what follows those in a call that succeeded is none of this.
FAILED = re.compile(
    r"\) += (?:-1 (E[A-Z0-9]+) \([^()]*\)(?: \(INJECTED\))?"
    r"|\?(?: E[A-Z0-9_]+ \([^()]*\)| <unavailable>)?)$"
)
RESULT = re.compile(r"\s+= (?:0x[0-9a-f]+|-?\d+)")

# A part of a call: a text in quotes, a path behind a descriptor, a bracket, a comma, or the rest.
PART = re.compile(r'"(?:[^"\\]|\\.)*"(?:\.\.\.)?|<[^<>]*>|[(\[{]|[)\]}]|,|[^"<(\[{)\]},]+|.')
DESCRIPTOR = re.compile(r"(?:AT_FDCWD|-?\d+)<([^<>]*)>")
NUMBER = re.compile(r"-?\d+")


@dataclass(frozen=True)
class Call:
    """A call that succeeded, or one that failed. Its arguments and its result are as strace writes
    them; the result of one that failed is the name of the error.

    A call that makes a process counts from its beginning, since the new process may be seen before
    the call has returned; any other counts from its end.
    """

    order: int
    process: int
    name: str
    arguments: tuple[str, ...]
    result: str
    failed: bool = False

    @property
    def number(self) -> int:
        """The number that it returned."""
        found = NUMBER.match(self.result)
        return int(found.group()) if found else -1


@dataclass
class Trace:
    """What the lines of a trace tell, which are fed in their order.

    `alive` has each process that was seen and hasn't ended, `ended` for each that has the line that
    said so, `programs` the program that a process started last, or its parent did before,
    `signalled` each process to which another one sent a signal that ends it by default, and `asked`
    each one of which another one asked by a signal whether it is there. A line that strace wouldn't
    write is a fault, since it was cut. `looking` keeps calls that look in vain, too; removals in
    vain and writings to what is read-only are always kept.

    `repeated` has the looks since the last call that may change what a look finds, or where: such a
    line tells nothing when it comes again.
    """

    looking: bool = False
    first: int | None = None
    alive: set[int] = field(default_factory=set)
    programs: dict[int, str] = field(default_factory=dict)
    ended: dict[int, int] = field(default_factory=dict)
    found: list[Call] = field(default_factory=list)
    signalled: set[int] = field(default_factory=set)
    asked: set[int] = field(default_factory=set)
    pending: dict[int, tuple[int, str]] = field(default_factory=dict)
    lines: int = 0
    repeated: set[str] = field(default_factory=set)

    def feed(self, line: str) -> None:
        """Takes the next line."""
        self.lines += 1
        if line in self.repeated:
            return
        matched = LINE.match(line)
        if matched is None:
            raise cut(line)
        process, text = int(matched.group(1)), matched.group(2)
        if self.first is None:
            self.first = process
        if text.startswith("+++"):
            self.end(process, text)
        elif not NOTE.match(text):
            self.alive.add(process)
            self.take(process, text)
            if is_look(text):
                self.repeated.add(line)
            elif not changes_nothing(text):
                self.repeated.clear()

    def end(self, process: int, text: str) -> None:
        """A process ends.

        Where a thread starts a program, its process goes on under the process's first number.
        """
        self.repeated.clear()
        superseded = SUPERSEDED.match(text)
        if superseded:
            thread = int(superseded.group(1))
            self.alive.discard(thread)
            if thread in self.pending:
                self.pending[process] = self.pending.pop(thread)
        elif ENDED.match(text):
            self.ended[process] = self.lines
            self.alive.discard(process)
            self.pending.pop(process, None)
        else:
            raise cut(text)

    def take(self, process: int, text: str) -> None:
        """A call, or a part of one."""
        order = self.lines
        if OF_DESCRIPTOR.match(text) and not text.endswith(UNFINISHED):
            return
        if text.endswith(UNFINISHED):
            if process in self.pending or not BEGUN.match(text):
                raise cut(text)
            self.pending[process] = (order, text[: -len(UNFINISHED)])
            return
        resumed = RESUMED.match(text)
        if resumed:
            began, front = self.pending.pop(process, (order, ""))
            if not front.startswith(resumed.group(1) + "("):
                raise cut(text)
            order, text = began, front + text[resumed.end() :]
        call = call_of(order, self.lines, process, text)
        if call is not None:
            self.keep(call)
        else:
            self.take_failed(process, text)

    def take_failed(self, process: int, text: str) -> None:
        """A call that failed: kept where it looks at names, if these are wanted, removes one, would
        write to what is read-only, or asks a server. One that asks for a process which has ended
        tells so."""
        begun, failed = BEGUN.match(text), FAILED.search(text, max(0, len(text) - 160))
        if begun is None or failed is None:
            return
        name, error = begun.group(1), failed.group(1) or ""
        if name in SIGNALS and error == NO_PROCESS:
            arguments, _ = split(text, begun.end())
            self.signal(Call(self.lines, process, name, tuple(arguments), error, True))
            return
        removes = name in REMOVALS and error in (NOTHING_THERE, *NOT_EMPTY)
        if name in WRITINGS and error == READ_ONLY:
            arguments, _ = split(text, begun.end())
            self.found.append(Call(self.lines, process, name, tuple(arguments), error, True))
        elif name in CONNECTIONS and error != NOTHING_THERE:
            arguments, _ = split(text, begun.end())
            self.found.append(Call(self.lines, process, name, tuple(arguments), error, True))
        elif removes or (self.looking and name in LOOKING):
            arguments, _ = split(text, begun.end(), NAMES_IN_VAIN)
            self.found.append(Call(self.lines, process, name, tuple(arguments), error, True))

    def keep(self, call: Call) -> None:
        """Takes a call that succeeded."""
        if call.name in SIGNALS:
            self.signal(call)
            return
        self.found.append(call)
        if call.name in FORKS:
            # The new process may have ended before the call returned.
            if self.ended.get(call.number, -1) < call.order:
                self.alive.add(call.number)
            if call.process in self.programs:
                self.programs.setdefault(call.number, self.programs[call.process])
        elif call.name in ("execve", "execveat"):
            self.programs[call.process] = text_of(call.arguments[call.name == "execveat"]) or ""

    def signal(self, call: Call) -> None:
        """A process sends a signal to another one, or to a group, which may have any. One that has
        ended gets none, but who sent it knows by then that it has ended."""
        sent = call.arguments[2 if call.name == "tgkill" else 1]
        goal = NUMBER.match(call.arguments[0])
        if goal is None:
            return
        number = int(goal.group())
        group = set() if call.failed else self.alive - {call.process}
        goals = {number} if number > 0 else group
        if sent not in HARMLESS:
            self.signalled |= goals
        elif sent == ASKING:
            self.asked |= goals

    def calls(self) -> list[Call]:
        """The calls that were kept, in order."""
        return sorted(self.found, key=lambda call: call.order)

    def is_whole(self) -> bool:
        """Whether all processes have ended, and there was one."""
        return self.first is not None and not self.alive


def is_look(text: str) -> bool:
    """Whether a whole call only looks at a name, or fails to open one."""
    name, _, rest = text.partition("(")
    if name in LOOKS or name in OF_LINKS:
        return not rest.endswith(UNFINISHED)
    return name in OPENS and FAILED.search(rest, max(0, len(rest) - 160)) is not None


def changes_nothing(text: str) -> bool:
    """Whether a call waits for a process, or opens a file and neither makes nor changes one."""
    name, _, rest = text.partition("(")
    if name in WAITS:
        return True
    return name in OPENS and not any(flag in rest for flag in WRITING)


def cut(line: str) -> Fault:
    """What is said of a line that isn't one."""
    return Fault(
        "strace wrote a line that can't be read, so the trace was cut, and nothing is recorded:"
        f" {line[:200]}"
    )


def read_calls(lines: Iterable[str]) -> list[Call]:
    """The calls of a trace that succeeded, and the removals in vain, in order."""
    trace = Trace()
    for line in lines:
        trace.feed(line)
    return trace.calls()


def call_of(began: int, ended: int, process: int, text: str) -> Call | None:
    """The call that a whole text tells; none where it didn't succeed."""
    name = BEGUN.match(text)
    if name is None:
        raise cut(text)
    if text[-1] in ")?>" and FAILED.search(text, max(0, len(text) - 160)):
        return None
    if name.group(1) in LOOKS and text.endswith(") = 0"):
        arguments, _ = split(text, name.end(), NAMES_AT_MOST)
        return Call(ended, process, name.group(1), tuple(arguments), "0")
    arguments, end = split(text, name.end())
    if not RESULT.match(text, end):
        raise cut(text)
    order = began if name.group(1) in FORKS else ended
    return Call(order, process, name.group(1), tuple(arguments), text[end:].lstrip()[2:])


def split(text: str, start: int, most: int = 0) -> tuple[list[str], int]:
    """At most `most` arguments from a place on, or all if it is 0, and where they end."""
    arguments: list[str] = []
    current: list[str] = []
    depth = 0
    for part in PART.finditer(text, start):
        piece = part.group()
        if depth == 0 and piece in ",)":
            arguments.append("".join(current).strip())
            current = []
            if piece == ")" or len(arguments) == most:
                return arguments, part.end()
            continue
        if piece in "([{":
            depth += 1
        elif piece in ")]}":
            depth -= 1
        current.append(piece)
    return arguments, len(text)


def text_of(argument: str) -> str | None:
    """The text that an argument holds in quotes."""
    if not argument.startswith('"'):
        return None
    return unescaped(argument[1 : argument.rindex('"')])


def texts_of(argument: str) -> list[str] | None:
    """The texts of an array; None where one isn't whole."""
    texts, _ = split(argument[1:-1] + ")", 0)
    is_whole = all(text.startswith('"') and text.endswith('"') for text in texts)
    return [text_of(text) or "" for text in texts] if is_whole else None


@functools.lru_cache(maxsize=1 << 12)
def path_of(argument: str) -> SeenPath | None:
    """The path that stands behind a descriptor, where it is that of a file."""
    found = DESCRIPTOR.match(argument)
    if found is None or not found.group(1).startswith("/"):
        return None
    return SeenPath(unescaped(found.group(1)))
