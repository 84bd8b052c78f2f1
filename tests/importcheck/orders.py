"""Tries races and files of two writers under GNU make itself: notes what recipes do to files.

A script stands for the shell of a build. It notes the state of files before and after each command
of some recipes, and may let one recipe wait until another one has ended.
"""

from __future__ import annotations

import json
import os
import subprocess
import sys
from collections import Counter
from collections.abc import Callable, Iterable
from dataclasses import dataclass
from pathlib import Path

from mkcheck_tools.imports.builds import Build, Node
from mkcheck_tools.imports.plain import names_of
from mkcheck_tools.imports.saving import build_of_text
from trials import STREAMS, Tally, sample

# How many seconds a writer waits for a reader that may never begin.
SECONDS = 60
SHELL = """#!{python}
import json, os, subprocess, sys, time
plan = json.load(open({plan!r}))
text, here = sys.argv[-1].replace(sys.argv[0], plan["shell"]), os.getcwd()
own = [role for role, commands in plan["roles"].items() if [here, text] in commands]
def state(path):
    try:
        found = os.stat(path)
    except OSError:
        return None
    return [found.st_mtime_ns, found.st_ino, found.st_size]
def note(when):
    for role in own:
        entry = [role, plan["roles"][role].index([here, text]), when]
        states = {{file: state(path) for file, path in plan["files"].items()}}
        with open({log!r}, "a") as log:
            log.write(json.dumps([*entry, states]) + "\\n")
def has_ended(role):
    lines = [json.loads(line) for line in open({log!r})] if os.path.exists({log!r}) else []
    last = len(plan["roles"][role]) - 1
    return any(line[0] == role and line[2] != "begin" and (line[1] == last or line[2] != "end 0")
               for line in lines)
wait = plan["waits"].get(own[0]) if own else None
until = time.monotonic() + {seconds}
while wait and not has_ended(wait) and time.monotonic() < until:
    time.sleep(0.05)
note("begin")
status = subprocess.call([plan["shell"], *sys.argv[1:]])
note("end %d" % status)
sys.exit(status if status >= 0 else 128 - status)
"""


@dataclass(frozen=True)
class Entry:
    """What the script noted: before or after which command of a recipe, and the states of files."""

    role: str
    command: int
    when: str
    states: dict[str, object]


class Orders:
    """Runs a build from nothing, and notes what recipes do.

    `build` has the words of the build at its root, and `output` is the folder of its import.
    """

    def __init__(self, root: Path, build: list[str], output: Path, scratch: Path) -> None:
        self.root, self.words, self.scratch = root, build, scratch
        self.build: Build = build_of_text((output / "translation.json").read_text())
        written = names_of(self.build).written
        self.nodes = {word: name for name, word in written.items() if "\0" not in name}

    def node(self, name: str) -> Node:
        """The node of a name in the makefile."""
        return self.build.nodes[self.nodes.get(name, name)]

    def commands(self, name: str) -> list[list[str]]:
        """The commands of a recipe, each with the folder in which it runs."""
        node = self.node(name)
        folder = os.path.normpath(self.root / node.setting.folder)
        return [[folder, command.text] for command in node.commands]

    def shell(self) -> str:
        """The shell of most recipes, by which all are run."""
        nodes = [node for node in self.build.nodes.values() if node.commands]
        return Counter(node.setting.shell[0] for node in nodes).most_common(1)[0][0]

    def run(
        self, names: Iterable[str], files: Iterable[str], jobs: int, waits: dict[str, str]
    ) -> list[Entry]:
        """Builds with some jobs; a recipe in `waits` waits for the end of another one."""
        log, plan, shell = (self.scratch / name for name in ("log", "plan.json", "shell"))
        log.unlink(missing_ok=True)
        value = {
            "roles": {name: self.commands(name) for name in dict.fromkeys(names)},
            "files": {file: str(self.root / file) for file in files},
            "shell": self.shell(),
            "waits": waits,
        }
        plan.write_text(json.dumps(value))
        words = {"python": sys.executable, "plan": str(plan), "log": str(log), "seconds": SECONDS}
        shell.write_text(SHELL.format(**words))
        shell.chmod(0o755)
        kept = {name: text for name, text in os.environ.items() if not name.startswith("MAKE")}
        command = [*self.words, f"-j{jobs}", f"SHELL={shell}"]
        subprocess.run(command, cwd=self.root, env=kept, check=False, **STREAMS)
        lines = log.read_text().splitlines() if log.exists() else []
        return [Entry(*json.loads(line)) for line in lines]

    def try_writers(self, lines: list[str], count: int, seed: str) -> Tally:
        """Tries some `no writers RECIPE OTHER FILE`: make lets each of the two change the file.

        A serial build from nothing may do that. But where make comes to the second recipe, it often
        finds the file up to date, since the first one has just written it. Then what the second one
        leaves is what it writes in a further build, in which it is the only one to run.
        """
        tally = Tally()
        chosen = [line.split(" ")[2:5] for line in sample(lines, count, seed)]
        recipes = [name for words in chosen for name in words[:2]]
        noted = self.run(recipes, [words[2] for words in chosen], 1, {}) if chosen else []
        for recipe, other, file in chosen:
            first = self.content(file)
            unseen = [name for name in (recipe, other) if not changes(noted, name, file)]
            is_true = all(self.writes_alone(name, (recipe, other), file) for name in unseen)
            tally.count(is_true, f"no writers {recipe} {other} {file}")
            tally.differing += is_true and self.content(file) != first
        return tally

    def writes_alone(self, name: str, writers: tuple[str, str], file: str) -> bool:
        """Whether in a build that is done but for a file and the target of one of its two writers
        make runs that one alone, and it changes the file."""
        for path in {self.root / file, self.root / self.node(name).name}:
            if path.is_file():
                path.unlink()
        noted = self.run(writers, [file], 1, {})
        ran = {entry.role for entry in noted}
        return ran == {name} and changes(noted, name, file)

    def content(self, file: str) -> bytes | None:
        """What a file holds; None where it isn't there."""
        path = self.root / file
        return path.read_bytes() if path.is_file() else None

    def try_races(
        self, lines: list[str], count: int, seed: str, renew: Callable[[], None]
    ) -> Tally:
        """Tries some `no race READER WRITER FILE`, each in a fresh folder, which `renew` gives: the
        reader ends, and then the writer begins and changes the file."""
        tally = Tally()
        for line in sample(lines, count, seed):
            reader, writer, file = line.split(" ")[2:5]
            renew()
            noted = self.run([reader, writer], [file], 8, {writer: reader})
            early, late = ([one for one in noted if one.role == role] for role in (reader, writer))
            is_early = bool(early and late) and noted.index(early[-1]) < noted.index(late[0])
            tally.count(is_early and changes(noted, writer, file), line)
        return tally


def changes(noted: list[Entry], role: str, file: str) -> bool:
    """Whether a file is another one after a recipe than before it."""
    states = [entry.states[file] for entry in noted if entry.role == role]
    return any(one != other for one, other in zip(states, states[1:]))
