"""Tells on standard error which step is under way, how far it is, and what time is left."""

from __future__ import annotations

import re
import shutil
import sys
import threading
import time
from collections.abc import Callable, Iterator, Sequence
from dataclasses import dataclass
from typing import TextIO, TypeVar

from mkcheck_tools.run.progress import CLEAR, duration

Given = TypeVar("Given")
Item = TypeVar("Item")
# How often a terminal and another file get a line, in seconds.
SECONDS_ON_TERMINAL = 1.0
SECONDS_ELSEWHERE = 60.0
# After this many seconds without another line of a program, its time left isn't shown any more.
SECONDS_SILENT = 30.0
# A count in a line of another program, as `[replay 3/10 0:05 left] a.o` or `[3/10] `, and `[3/0]`
# where the whole isn't known; and what such a line says of a recipe that goes on.
COUNT = re.compile(r"\[(?:(\w+) )?(\d+)/(\d+)(?: ([\d:]+) left)?\]")
GOES_ON = re.compile(r"\] (.+? goes on)(?:, ([\d:]+))?$", re.MULTILINE)
# The word of a count of what make is asked.
ASKED = "asked"
DOING = {
    "read": "reading",
    "build": "building",
    "second": "building a second time",
    "third": "building a third time",
    ASKED: "asking make what it would do",
    "translate": "translating",
    "record": "recording",
    "early": "ending replays, to record all once more",
    "replay": "replaying",
    "alike": "replaying each of those that are alike",
    "folders": "replaying with the folders of other recipes",
    "alone": "replaying alone what differed",
    "failing": "replaying where writes fail",
    "check": "checking",
    "tried": "trying recipes again",
}


class Far:
    """How far a step of this program is, as a text with a count."""

    def __init__(self) -> None:
        self.told = ""

    def text(self) -> str:
        """The text."""
        return self.told

    def each(self, part: str, items: Sequence[Item], name: Callable[[Item], str]) -> Iterator[Item]:
        """Gives these items, and tells which one a part of the step is at."""
        for number, item in enumerate(items):
            self.told = f"[{part} {number}/{len(items)}] {name(item)} goes on"
            yield item
        self.told = ""


@dataclass(frozen=True)
class Times:
    """How many seconds a step has taken, the present part of it, and since when nothing more was
    heard of it."""

    of_step: float
    of_part: float
    silent: float = 0.0


class Telling:
    """Tells a step every second on a terminal, on one line, else every minute."""

    def __init__(
        self,
        stream: TextIO | None = None,
        apart: float = SECONDS_ELSEWHERE,
        program: str = "mkcheck-import",
    ) -> None:
        self.program = program
        self.stream = stream or sys.stderr
        self.terminal = self.stream.isatty()
        self.apart = SECONDS_ON_TERMINAL if self.terminal else apart
        self.lock = threading.Lock()

    def line(self, text: str) -> None:
        """A line that stays."""
        with self.lock:
            front = CLEAR if self.terminal else ""
            print(f"{front}{self.program}: {text}", file=self.stream, flush=True)

    def during(self, word: str, look: Callable[[], str], action: Callable[[], Given]) -> Given:
        """Does a step, and tells meanwhile how far it is: `look` gives a text with counts."""
        ended = threading.Event()
        begun = time.monotonic()

        def tell() -> None:
            part, since, before = doing(word, ""), begun, begun
            last, heard = "", begun
            while not ended.wait(self.apart):
                text, now = look(), time.monotonic()
                if doing(word, text) != part:
                    part, since = doing(word, text), before
                if text != last:
                    last, heard = text, now
                self.progress(word, text, Times(now - begun, now - since, now - heard))
                before = now

        teller = threading.Thread(target=tell, daemon=True)
        teller.start()
        try:
            return action()
        finally:
            ended.set()
            teller.join()
            if self.terminal:
                self.stream.write(CLEAR)
                self.stream.flush()

    def progress(self, word: str, text: str, times: Times) -> None:
        """A line on a step that is under way, and the part of it that the text counts."""
        far = f"{duration(times.of_step)}{how_far(text, times)}"
        shown = f"{self.program}: {doing(word, text)}, {far}"
        with self.lock:
            if self.terminal:
                width = shutil.get_terminal_size().columns
                self.stream.write(CLEAR + shown[: width - 1])
                self.stream.flush()
            else:
                print(shown, file=self.stream, flush=True)


def how_far(text: str, times: Times) -> str:
    """The last count in a text, the time that is left, where the whole is known, and the recipe of
    which that line says that it goes on; empty where there is no count, or it counts nothing. An
    estimate of another program that is old isn't told, but since when nothing more was heard."""
    counts = list(COUNT.finditer(text))
    done, total = map(int, counts[-1].group(2, 3)) if counts else (0, 0)
    if total == 0:
        return f", {done} so far" if done else ""
    left = counts[-1].group(4)
    if left is None and 0 < done < total:
        left = duration(times.of_part / done * (total - done))
    elif left is not None and times.silent > SECONDS_SILENT:
        return f", {done} of {total}, nothing more for {duration(times.silent)}"
    more = f", {left} left" if left else ""
    going = GOES_ON.search(text, counts[-1].start())
    if going is not None:
        more += f", {going.group(1)}"
    return f", {done} of {total}{more}"


def doing(word: str, text: str) -> str:
    """What is done: a step, or a part of it that a program names in its counts."""
    counts = list(COUNT.finditer(text))
    return DOING.get(counts[-1].group(1) or word, word) if counts else DOING.get(word, word)
