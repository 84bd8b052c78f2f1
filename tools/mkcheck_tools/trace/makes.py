"""Makes that a recipe starts, told from a trace while it is read."""

from __future__ import annotations

import os
import re
from collections.abc import Iterable
from dataclasses import dataclass, field

from mkcheck_tools.run.folders import UNWRITTEN
from mkcheck_tools.run.toolchains import fixed_prefixes
from mkcheck_tools.trace.calls import FORKS, Call, path_of, text_of

# The programs that count as a make: each reads a makefile or a ninja file whose recipes aren't
# judged here.
MAKES = re.compile(r"(?:g|b|p|f|s|re|pdp|ck)?make(?:-[0-9.]+)?|ninja(?:-build)?|samu|kati|ckati")
STARTS = {"execve": 0, "execveat": 1}
OPENS = ("open", "openat", "openat2", "creat")


def is_make(path: str) -> bool:
    """Whether a program counts as a make, by its name."""
    return MAKES.fullmatch(os.path.basename(path)) is not None


def is_system(path: str) -> bool:
    """Whether a file lies among installed programs, or is none that lasts."""
    return path.startswith((*fixed_prefixes(), *UNWRITTEN, "/dev/"))


@dataclass
class Makes:
    """The makes among the processes of a command, with what each of them read since it was started.

    A make that reads only what the command wrote outside of the project is a part of it, as that of
    `gcc -flto=auto` is. `root` is the project's folder.
    """

    root: str
    reads: dict[int, list[str]] = field(default_factory=dict)
    written: set[str] = field(default_factory=set)

    def take(self, call: Call) -> bool:
        """Takes a call; tells whether a make starts its first process by it, and so makes something
        that isn't judged here."""
        if call.name in STARTS:
            path = text_of(call.arguments[STARTS[call.name]]) or ""
            self.reads.pop(call.process, None)
            if is_make(path):
                self.reads[call.process] = []
        elif call.name in OPENS:
            self.opened(call)
        elif call.name in FORKS and call.process in self.reads:
            return not is_part(self.reads[call.process], self.written, self.root)
        return False

    def opened(self, call: Call) -> None:
        """A file is opened, to be read by a make or to be written by any process."""
        path = path_of(call.result)
        flags = " ".join(call.arguments[1:])
        if path is None or "O_DIRECTORY" in flags:
            return
        if call.name == "creat" or "O_WRONLY" in flags or "O_RDWR" in flags:
            self.written.add(path)
        elif call.process in self.reads and not is_system(path):
            self.reads[call.process].append(path)


def is_part(paths: Iterable[str], written: Iterable[str], root: str) -> bool:
    """Whether a make that read these files reads only what its command wrote outside of the
    project, and something at all."""
    read, made = list(paths), set(written)
    return bool(read) and all(path in made and not path.startswith(f"{root}/") for path in read)
