"""Terminals for commands: pseudo terminals, of which this program has the other end."""

from __future__ import annotations

import contextlib
import functools
import os
import select
import termios
import threading
from collections.abc import Iterator
from dataclasses import dataclass, field

PIECE = 1 << 16
# How many pieces are taken at most when commands are over: a process that is left may go on.
MOST_PIECES = 256
# How long what was typed may take to come through.
PATIENCE = 1.0
# The places of flags in what termios tells of a terminal.
OUTPUT, LOCAL, LETTERS = 1, 3, 6


@dataclass
class Terminal:
    """A pseudo terminal: commands get `inner` for their streams, and what they say comes to
    `outer`."""

    outer: int
    inner: int
    said: bytearray = field(default_factory=bytearray)
    ends: list[int] = field(default_factory=list)
    """The end of a pipe that is closed when the commands are over."""

    @property
    def name(self) -> str:
        """The path of the device."""
        return os.ttyname(self.inner)

    def __post_init__(self) -> None:
        self.over, end = os.pipe()
        self.ends.append(end)
        self.listening = threading.Thread(target=self.listen, daemon=True)

    def listen(self) -> None:
        """Takes what commands say, until they are over and nothing more comes."""
        left = MOST_PIECES
        while left:
            there, _, _ = select.select([self.outer, self.over], [], [])
            over = self.over in there
            left -= over
            if self.outer in there:
                try:
                    self.said += os.read(self.outer, PIECE)
                except OSError:
                    return
            elif over:
                return

    def text(self) -> str:
        """What the commands said, which are over."""
        while self.ends:
            os.close(self.ends.pop())
        if self.listening.ident is not None:
            self.listening.join()
        return self.said.decode("utf-8", "replace")


@contextlib.contextmanager
def terminal(typed: bytes = b"") -> Iterator[Terminal]:
    """A terminal at which this is typed, and nothing more: then a read finds the end of a file, so
    that nobody waits for a user."""
    outer, inner = os.openpty()
    found = Terminal(outer, inner)
    try:
        set_up(inner)
        if typed:
            os.write(outer, typed)
            select.select([inner], [], [], PATIENCE)
        found.listening.start()
        yield found
    finally:
        found.text()
        for descriptor in (inner, outer, found.over):
            os.close(descriptor)


def set_up(inner: int) -> None:
    """Lets a terminal hand out what is typed at once, and say nothing of it. Lines end as they do
    in a file."""
    flags = termios.tcgetattr(inner)
    flags[OUTPUT] &= ~termios.OPOST
    flags[LOCAL] &= ~(termios.ECHO | termios.ICANON)
    flags[LETTERS][termios.VMIN] = 0
    flags[LETTERS][termios.VTIME] = 0
    termios.tcsetattr(inner, termios.TCSANOW, flags)


@functools.cache
def has_terminals() -> bool:
    """Whether the system has pseudo terminals."""
    try:
        with terminal() as found:
            return os.isatty(found.inner) and bool(found.name)
    except OSError:
        return False
