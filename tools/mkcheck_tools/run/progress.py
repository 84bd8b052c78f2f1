"""Progress on standard error: always on a terminal, elsewhere a plain line now and then."""

from __future__ import annotations

import math
import shutil
import sys
import threading
import time
from typing import TextIO

SECONDS_APART = 10.0
# How long a line may be elsewhere than on a terminal: commands may have any length.
WIDTH = 400
# How long a replay goes on before that is told.
SECONDS_SHOWN = 1.0
CLEAR = "\r\033[K"


class Progress:
    """Tells which recipe of how many runs, what it does, and how long the others may take.

    In a `with` statement it also tells, as long as a recipe goes on, that it does. A thread tells
    that, since the program itself waits for the recipe then.
    """

    def __init__(
        self,
        total: int,
        stream: TextIO | None = None,
        apart: float = SECONDS_APART,
        title: str = "",
    ) -> None:
        self.total = total
        self.number = 0
        self.name = ""
        self.title = f"{title} " if title else ""
        self.stream = stream or sys.stderr
        self.terminal = self.stream.isatty()
        self.apart = apart
        self.begun = self.told = time.monotonic()
        self.running = ""
        """The recipe that goes on, where there is one."""

        self.since = self.begun
        self.done = 0
        self.passed_over = 0
        """How many have ended without being run."""

        self.unrun = 0
        """How many of those to come won't be run either."""

        self.lock = threading.Lock()
        self.is_over = threading.Event()
        self.thread: threading.Thread | None = None

    def __enter__(self) -> Progress:
        self.thread = threading.Thread(target=self.tell_now_and_then, daemon=True)
        self.thread.start()
        return self

    def __exit__(self, *_: object) -> None:
        self.is_over.set()
        if self.thread is not None:
            self.thread.join()
        self.clear()

    def tell_now_and_then(self) -> None:
        """Tells that a recipe goes on, and since when, until all have ended."""
        while not self.is_over.wait(SECONDS_SHOWN):
            with self.lock:
                if self.running:
                    seconds = time.monotonic() - self.since
                    self.show(f"{self.running} goes on, {duration(seconds)}")

    def at_once(self) -> None:
        """Has the next line shown at once: what was shown last counts something else."""
        self.told = -math.inf

    def begin(self, name: str) -> None:
        """The next recipe begins."""
        self.number += 1
        self.name = name

    def step(self, text: str) -> None:
        """The recipe runs a command."""
        self.tell(self.number - 1, f"{self.name}: {first_line(text)}", self.name)

    def pass_over(self) -> None:
        """The recipe isn't run."""
        self.passed_over += 1
        self.unrun -= 1
        self.tell(self.number, f"{self.name} isn't run")

    def ended(self, name: str) -> None:
        """A recipe has ended, where several are under way."""
        self.number += 1
        self.tell(self.number, name)

    def goes_on(self, name: str) -> None:
        """A recipe goes on, and none has ended for a while."""
        self.tell(self.number, f"{name} goes on", name)

    def tell(self, done: int, text: str, running: str = "") -> None:
        """Shows a line, if it is time for one. `done` is the number of recipes that have ended, and
        `running` is one that goes on."""
        with self.lock:
            self.done = done
            now = self.show(text)
            if running != self.running:
                self.running, self.since = running, now

    def show(self, text: str) -> float:
        """The same, where no other thread shows one; gives the time."""
        now = time.monotonic()
        if self.terminal:
            width = shutil.get_terminal_size().columns
            self.stream.write(f"{CLEAR}{self.line(now, text)[: width - 1]}")
            self.stream.flush()
        elif now - self.told >= self.apart:
            self.told = now
            print(self.line(now, text)[:WIDTH], file=self.stream, flush=True)
        return now

    def line(self, now: float, text: str) -> str:
        """A line: the recipe's number of all, an estimate of the time that is left, and a text."""
        left, ran = "", self.done - self.passed_over
        if ran > 0 and self.done + self.unrun < self.total:
            seconds = (now - self.begun) / ran * (self.total - self.done - self.unrun)
            left = f" {duration(seconds)} left"
        return f"[{self.title}{self.number}/{self.total}{left}] {text}"

    def clear(self) -> None:
        """Makes room for another line, and is called at the end."""
        with self.lock:
            self.running = ""
            if self.terminal:
                self.stream.write(CLEAR)
                self.stream.flush()


def first_line(text: str) -> str:
    """The first line of a command."""
    return text.split("\n", 1)[0]


def duration(seconds: float) -> str:
    """A time in minutes and seconds, and in hours where it is long."""
    whole = int(seconds + 0.5)
    if whole < 3600:
        return f"{whole // 60}:{whole % 60:02}"
    return f"{whole // 3600}:{whole // 60 % 60:02}:{whole % 60:02}"
