"""Who waits for the end of which process, told from calls.

A shell that starts a process by `&` may learn of its end by chance, while it waits for another one.
It gives such a process an empty standard input, by which that is known here.
"""

from __future__ import annotations

import os
import re
from collections.abc import Iterable, Mapping
from dataclasses import dataclass, field

from mkcheck_tools.trace.calls import WAITS, Call, path_of

OPENS = ("open", "openat", "openat2")
NULL = "/dev/null"
AT_ONCE = "WNOHANG"
SHELLS = re.compile(r"(?:r?[bd]?ash|sh|busybox|m?ksh(?:93)?|yash|zsh)(?:[-.0-9]+)?")
# The process of which waitid tells.
TOLD = re.compile(r"si_pid=(\d+)")
# Words by which a shell waits for what it started by `&`.
WAIT = re.compile(r"(?<![\w./-])wait(?![\w./=-])")
# What starts a process that goes on beside the shell.
BESIDE = re.compile(r"(?<![&<>|\\])&(?![&>])")


def waits_last(command: str) -> bool:
    """Whether there is the word `wait` in a command behind all that it starts by `&`."""
    return WAIT.search(BESIDE.split(command)[-1]) is not None


def has_wait(script: str) -> bool:
    """Whether there is the word `wait` in a script, whose functions may stand in any order."""
    return WAIT.search(script) is not None


@dataclass
class Waiting:
    """Which processes learnt of the end of which others. Threads count as their process."""

    leaders: Mapping[int, int]
    """The process of each further thread."""

    running: Mapping[int, str]
    """The program that each process started last, or its parent did before; of a shell script the
    shell."""

    reaped: dict[int, bool] = field(default_factory=dict)
    """The processes of whose ends others learnt, and whether these surely waited for them."""

    background: set[int] = field(default_factory=set)
    """Processes that shells started so that these needn't be waited for."""

    seen: set[int] = field(default_factory=set)
    together: dict[int, list[int]] = field(default_factory=dict)
    """By a process those of whose ends it learnt since it did anything else."""

    def take(self, call: Call) -> None:
        """Takes the next call."""
        process = self.leaders.get(call.process, call.process)
        if call.name in WAITS:
            self.waited(process, call)
            return
        self.together.pop(process, None)
        if call.process in self.seen:
            return
        self.seen.add(call.process)
        program = self.running.get(call.process, "")
        if not SHELLS.fullmatch(os.path.basename(program)):
            return
        # dash closes its input first; what `< /dev/null` opens gets another number.
        if os.path.basename(os.path.realpath(program)) == "dash" and call.number != 0:
            return
        if call.name in OPENS and not call.failed and path_of(call.result) == NULL:
            if not any("O_WRONLY" in word or "O_RDWR" in word for word in call.arguments):
                self.background.add(call.process)

    def waited(self, process: int, call: Call) -> None:
        """A process learns of the end of another one. What it learnt just before is no sign that it
        waited for that."""
        told = TOLD.search(" ".join(call.arguments))
        child = int(told.group(1)) if told is not None else call.number
        if child <= 0:
            return
        for other in self.together.setdefault(process, []):
            self.reaped[other] = False
        self.reaped[child] = not any(AT_ONCE in word for word in call.arguments)
        self.together[process].append(child)

    def is_waited_for(self, child: int, command: str, scripts: Iterable[str]) -> bool:
        """Whether the process that started a child waits for its end, as the texts of the command
        and of scripts may say."""
        if child not in self.reaped:
            return False
        is_sure = self.reaped[child] or child not in self.background
        return is_sure or waits_last(command) or any(map(has_wait, scripts))
