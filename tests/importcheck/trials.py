"""Tries findings and ways under the build tool itself: touches files, builds, looks what is new."""

from __future__ import annotations

import os
import random
import subprocess
import time
from collections.abc import Iterable
from dataclasses import dataclass, field
from pathlib import Path

STREAMS = {"stdin": subprocess.DEVNULL, "stdout": subprocess.PIPE, "stderr": subprocess.STDOUT}


@dataclass
class Tally:
    """How many of a kind were tried, and which were false."""

    tried: int = 0
    false: list[str] = field(default_factory=list)
    differing: int = 0
    """With how many of the files with two writers the contents depend on which one ran last."""

    def count(self, is_true: bool, text: str) -> None:
        """Counts one more."""
        self.tried += 1
        if not is_true:
            self.false.append(text)

    def __str__(self) -> str:
        differing = f" ({self.differing} differ)" if self.differing else ""
        return f"{self.tried - len(self.false)}/{self.tried}{differing}"


@dataclass
class Trial:
    """A built project, in which files are touched. `command` builds it from its root."""

    root: Path
    command: list[str]
    writes: dict[str, list[str]]
    """What each recipe writes."""

    always: set[str] = field(default_factory=set)
    """Files that each build makes anew, though nothing was touched."""

    def run(self) -> None:
        """Builds."""
        kept = {name: text for name, text in os.environ.items() if not name.startswith("MAKE")}
        done = subprocess.run(self.command, cwd=self.root, env=kept, check=False, **STREAMS)
        if done.returncode:
            said = done.stdout.decode("utf-8", "replace")[-500:]
            status = f"failed with status {done.returncode}"
            raise RuntimeError(f"{' '.join(self.command)} {status}: {said}")

    def begin(self) -> None:
        """Builds until all is there, and finds what is never up to date."""
        for _ in range(3):
            self.run()
        names = {name for written in self.writes.values() for name in written}
        before = self.stamps(names)
        time.sleep(0.02)
        self.run()
        after = self.stamps(names)
        self.always = {name for name in names if before[name] != after[name]}

    def stamps(self, names: Iterable[str]) -> dict[str, int]:
        """The times of files, 0 for one that isn't there."""
        paths = {name: self.root / name for name in names}
        return {
            name: path.stat().st_mtime_ns if path.exists() else 0 for name, path in paths.items()
        }

    def rebuilds(self, touched: list[str], recipe: str) -> bool | None:
        """Whether a recipe runs when files are touched; None where it writes nothing to see."""
        outputs = [name for name in self.writes.get(recipe, []) if (self.root / name).exists()]
        if not outputs:
            return None
        before = self.stamps(outputs)
        time.sleep(0.02)
        for name in touched:
            if (self.root / name).is_file():
                os.utime(self.root / name)
        self.run()
        return self.stamps(outputs) != before

    def try_stale(self, lines: list[str], count: int, seed: str) -> Tally:
        """Tries some `no stale RECIPE FILE`: the build leaves what the recipe writes as it is."""
        tally = Tally()
        for line in sample(lines, count, seed):
            recipe, file = line.split(" ")[2:4]
            found = self.rebuilds([file], recipe)
            if found is not None:
                tally.count(not found, line)
        return tally

    def try_ways(self, lines: list[str], count: int, seed: str) -> Tally:
        """Tries some ways: the build makes anew what the recipe writes."""
        tally = Tally()
        for line in sample(lines, count, seed):
            recipe, file, end, *path = line.split(" ")[1:]
            touched = [file] if end == "source" else []
            if end == "written":
                touched = self.writes.get(path[-1], [])
            found = self.rebuilds(touched, recipe)
            if found is not None:
                tally.count(found, line)
        return tally


def sample(lines: list[str], count: int, seed: str) -> list[str]:
    """Some of the lines, the same ones each time."""
    return random.Random(seed).sample(lines, min(count, len(lines)))
