#!/usr/bin/env python3
"""Asks mkcheck and the second program the same random questions, and compares what they say.

compare.py PROGRAM [--seed S] [--cases N] [--command C] [--seconds T] [--jobs J] [--gate] [--counts]

It prints the seed, which is a new one each time where none is given, for each command how many
cases were tried, and each case that differs, whose files it keeps.
"""

from __future__ import annotations

import argparse
import collections
import json
import multiprocessing
import os
import random
import re
import shutil
import signal
import subprocess
import sys
import tempfile
import time
from collections.abc import Mapping
from types import FrameType
from typing import NoReturn

from cases import Case, case_of
from evidence import shows
from limits import limits
from makefiles import FOLDER, Contents
from request import Answer, Disk, Request
from second import answered
from sentences import THEN

COMMANDS = [
    "graph",
    "check",
    "verify",
    "simulate",
    "evidence",
    "repair",
    "words",
    "json",
    "since",
]
GATE_CASES = {
    "graph": 300,
    "check": 300,
    "verify": 250,
    "simulate": 250,
    "evidence": 150,
    "repair": 250,
    "words": 300,
    "json": 250,
    "since": 400,
}
IN_WORDS = re.compile(rb" \[([\w, ]+)\]\n  (\w+): ")
FAULT = re.compile(rb"(?:\S+:\d+: )?([\w:]+ \(\d+\)): ")
GATE_SEED = 20261124
KEPT = 20
SECONDS = 300
# The arguments, the commands, and the number of a job.
Job = tuple[argparse.Namespace, list[str], int]


def memory_folder() -> str | None:
    """Where files are made soonest."""
    return "/dev/shm" if os.access("/dev/shm", os.W_OK) else None


def emptied(folder: str) -> None:
    for entry in os.scandir(folder):
        if entry.is_dir(follow_symlinks=False):
            shutil.rmtree(entry.path)
        else:
            os.unlink(entry.path)


def written(folder: str, files: Mapping[bytes, Contents]) -> None:
    """The files of a case, in a folder that is emptied first."""
    emptied(folder)
    for name, data in files.items():
        path = os.path.join(folder, os.fsdecode(name))
        if os.path.dirname(path) != folder:
            os.makedirs(os.path.dirname(path), exist_ok=True)
        if data is FOLDER:
            os.makedirs(path, exist_ok=True)
        else:
            with open(path, "wb") as file:
                file.write(data)


class Silent(Exception):
    """The program gives no answer."""


def given_up(_signal: int, _frame: FrameType | None) -> NoReturn:
    raise Silent


def asked(program: str, words: list[str], folder: str) -> Answer:
    """Standard output and status of the program, of a `repair` that mends nothing and of `since`
    standard error; no status where it gives no answer.

    An alarm takes less time than a timeout of `run`, and most of a case is the start of the
    program.
    """
    signal.signal(signal.SIGALRM, given_up)
    signal.alarm(SECONDS)
    try:
        done = subprocess.run(
            [program, *words],
            cwd=folder,
            stdin=subprocess.DEVNULL,
            check=False,
            stdout=subprocess.PIPE,
            stderr=subprocess.PIPE,
        )
    except Silent:
        return b"no answer", None
    finally:
        signal.alarm(0)
    if "repair" in words and done.returncode == 1:
        return done.stdout + done.stderr, 1
    if words[:1] == ["since"] and not done.stderr.startswith(b"error: "):
        return done.stdout + done.stderr, done.returncode
    return done.stdout, done.returncode


def kind_of(line: bytes) -> str:
    """What a line of a no tells of."""
    words = line.split()
    return (words[1] if words[0] == b"no" else words[0]).decode()


def sort_of(told: Answer) -> str:
    """A short name for what was told, to be counted."""
    text, status = told
    if status == 1 and IN_WORDS.search(text):
        found = [
            sorted({b" ".join(kind) for kind in IN_WORDS.findall(part)})
            for part in text.split(THEN)
        ]
        return "no " + b"; then ".join(b", ".join(kinds) for kinds in found).decode()
    if text.startswith(b'{"answer":'):
        value = json.loads(text)
        return " ".join(["json", value["answer"], value.get("name", "")])
    fault = FAULT.match(text)
    if status == 2 and fault:
        return "refused " + fault[1].decode()
    words = text.split(None, 2)[:2]
    if not words:
        return "usage" if status == 2 else f"status {status}"
    if text == b"no plan\n":
        return "no plan"
    if text.startswith(b"\n"):
        return "mended"
    if words[0] == b"no":
        return "no " + " ".join(sorted({kind_of(line) for line in text.splitlines()}))
    if words[0] == b"refused":
        return b" ".join(words).decode("utf-8", "replace")
    if b"\nrefused " in text:
        return "refused " + text.split(b"\nrefused ")[1].split()[0].decode()
    return {b"yes": "yes", b"goals": "graph", b"plan": "plan ok"}.get(
        words[0], "certificate" if text.startswith(b"{") else "plan ok"
    )


class Comparer:
    def __init__(self, program: str, folder: str) -> None:
        self.program = os.path.abspath(program)
        self.folder = folder
        self.tried: collections.Counter[str] = collections.Counter()
        self.sorts: collections.defaultdict[str, collections.Counter[str]]
        self.sorts = collections.defaultdict(collections.Counter)
        self.differing = 0

    def compare(self, command: str, label: str, case: Case) -> None:
        """Asks both about the case. A plan that shows a race need not be the same one."""
        written(self.folder, case.files)
        disk = Disk(self.folder)
        second = answered(case.words, disk)
        if command == "evidence" and second[1] == 1:
            number = 1 + len(second[0]) % (second[0].count(b"\n") + 1)
            case.words[1:1] = ["-e", str(number)]
            second = answered(case.words, disk)
        first = asked(self.program, case.words, self.folder)
        self.tried[command] += 1
        if sum(self.tried.values()) % 5000 == 0:
            print(f"fuzz: {sum(self.tried.values())} cases so far", file=sys.stderr, flush=True)
        self.sorts[command][sort_of(second)] += 1
        if first == second:
            if case.words[:1] == ["repair"] and first[1] == 0 and first[0].startswith(b"\n"):
                self.compare_amended(label, case, first[0])
            return
        if "-e" in case.words and second[1] == 1 and shows(first, second, case.words, disk):
            return
        self.differing += 1
        self.report(label, case, first, second)

    def compare_amended(self, label: str, case: Case, lines: bytes) -> None:
        """Appends the lines to the makefile that was read, and asks both whether that is right."""
        name = Request(list(case.words)).values.get("f", b"makefile")
        path = os.path.join(self.folder, os.fsdecode(name))
        if not os.path.exists(path):
            path = os.path.join(self.folder, "Makefile")
        with open(path, "ab") as file:
            file.write(lines)
        words = ["check", *(word for word in case.words[1:] if word != "--part")]
        first = asked(self.program, words, self.folder)
        second = answered(words, Disk(self.folder))
        if first != second or second[1] != 0:
            self.differing += 1
            self.report(f"{label}, amended,", Case(case.files, words), first, second)

    def report(self, label: str, case: Case, first: Answer, second: Answer) -> None:
        print(f"fuzz: {label} differs: mkcheck {' '.join(map(repr, case.words))}")
        print(f"  mkcheck {first[1]}: {first[0][:300]!r}")
        print(f"  second  {second[1]}: {second[0][:300]!r}")
        if self.differing <= KEPT:
            kept = os.path.join(tempfile.mkdtemp(prefix="fuzz-"), "files")
            shutil.copytree(self.folder, kept)
            with open(
                os.path.join(os.path.dirname(kept), "words"),
                "w",
                encoding="utf-8",
                errors="surrogateescape",
            ) as file:
                file.write("\n".join(case.words) + "\n")
            print(f"  kept in {os.path.dirname(kept)}", flush=True)

    def random_case(self, command: str, seed: object, number: int) -> None:
        rng = random.Random(f"{seed} {command} {number}")
        case = case_of(rng, "check" if command == "evidence" else command)
        self.compare(command, f"{command} {number} of seed {seed}", case)

    def random_cases(self, commands: list[str], given: argparse.Namespace, until: float) -> None:
        """The random cases of one job of some, of the commands in turn, as time allows."""
        cases = GATE_CASES if given.gate else dict.fromkeys(COMMANDS, given.cases)
        for number in range(given.job, max(cases[command] for command in commands), given.jobs):
            for command in commands:
                if number < cases[command] and time.monotonic() < until:
                    self.random_case(command, given.seed, number)

    def all_cases(self, commands: list[str], given: argparse.Namespace) -> None:
        """The random cases, and those that are always the same."""
        until = time.monotonic() + given.seconds
        self.random_cases(commands, given, until)
        for number, (label, command, case) in enumerate(limits(given.gate)):
            mine = command in commands and number % given.jobs == given.job
            if mine and time.monotonic() < until:
                self.compare(command, label, case)

    def added(self, other: Comparer) -> None:
        """What another job has tried."""
        self.tried += other.tried
        self.differing += other.differing
        for command, sorts in other.sorts.items():
            self.sorts[command] += sorts

    def told(self, counts: bool) -> bool:
        """What was tried, and whether nothing differs."""
        for command, tried in self.tried.items():
            print(f"{command}: {tried} cases")
            for sort, count in sorted(self.sorts[command].items()) if counts else []:
                print(f"  {sort}: {count}")
        total = sum(self.tried.values())
        if self.differing:
            print(f"fuzz: {self.differing} of {total} cases differ")
        else:
            print(f"fuzz: {total} cases agree")
        return not self.differing


def compared(job: Job) -> Comparer:
    """What one job of some tries, in a folder of its own."""
    given, commands, number = job
    given.job = number
    with tempfile.TemporaryDirectory(prefix="fuzz-", dir=memory_folder()) as folder:
        comparer = Comparer(given.program, folder)
        comparer.all_cases(commands, given)
    return comparer


def all_compared(given: argparse.Namespace, commands: list[str]) -> Comparer:
    """What all jobs tried."""
    jobs = [(given, commands, number) for number in range(given.jobs)]
    if given.jobs == 1:
        return compared(jobs[0])
    with multiprocessing.Pool(given.jobs) as pool:
        first, *rest = pool.map(compared, jobs, chunksize=1)
    for comparer in rest:
        first.added(comparer)
    return first


def new_seed() -> int:
    """A seed that another run hardly has."""
    return random.SystemRandom().randrange(10**9)


def arguments() -> argparse.Namespace:
    parser = argparse.ArgumentParser(description=__doc__.split("\n", maxsplit=1)[0])
    parser.add_argument("program")
    parser.add_argument("--seed")
    parser.add_argument("--cases", type=int, default=1000)
    parser.add_argument("--command", choices=COMMANDS)
    parser.add_argument("--seconds", type=float, default=float("inf"))
    parser.add_argument("--jobs", type=int, default=1)
    parser.add_argument("--gate", action="store_true")
    parser.add_argument("--counts", action="store_true")
    given = parser.parse_args()
    given.jobs = max(given.jobs, 1)
    if given.seed is None:
        given.seed = GATE_SEED if given.gate else new_seed()
    return given


def main() -> int:
    given = arguments()
    commands = [given.command] if given.command else list(COMMANDS)
    print(f"fuzz: seed {given.seed}", flush=True)
    return 0 if all_compared(given, commands).told(given.counts) else 1


if __name__ == "__main__":
    sys.exit(main())
