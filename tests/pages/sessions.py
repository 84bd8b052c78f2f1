"""Runs the sessions that pages show: what stands behind `$ ` goes to a shell, and has to print what
stands below it.

A session is a block of `console`, in a folder of its own. `console more` goes on in the folder of
the block before it, `console in FOLDER` begins in a copy of that folder of the repository. Below `$
cat NAME` stands what the file holds: where it isn't there, it is written. A line `...` stands for
any lines. The status has to be the one that the answer of mkcheck has.
"""

from __future__ import annotations

import os
import re
import shutil
import subprocess
import tempfile
from collections.abc import Iterator
from dataclasses import dataclass
from pathlib import Path

ROOT = Path(__file__).resolve().parents[2]
BLOCK = re.compile(r"^```console(?: (more)| in (\S+))?\n(.*?)^```$", re.MULTILINE | re.DOTALL)
COMMENT = re.compile(r"<!--.*?-->", re.DOTALL)
# What the tools say now and then of how far they are, where a machine is slow.
PROGRESS = re.compile(
    r"^(?:\[[^][]*\d+/\d+[^][]*\] |mkcheck-\w+: [a-z ,]+, (?:\d+:)?\d+:\d\d\b).*\n", re.MULTILINE
)
READS = re.compile(r"\b(\d+ recipes,?) \d+ reads\b")
SECONDS = 1200
REFUSED = re.compile(
    r"^(refused \d|error: |(\S+:\d+: )?[\w:]+ \(\d+\): |\{\"answer\":\"refused\")", re.MULTILINE
)
FOUND = re.compile(r"^no |^\S+: .* \[\w+(, \w+)*\]$|^\{\"answer\":\"no\"", re.MULTILINE)
# How the line of counts of an audit begins, with the status that goes with it.
UNRECORDED = "the build can't be recorded"
AUDITED = re.compile(
    rf"^(?:mkcheck-audit: )?({UNRECORDED}|no answer|no|yes, but for .* not judged|yes)\b",
    re.MULTILINE,
)
STATUS = {UNRECORDED: 2, "no answer": 2, "yes": 0}
TOOLS = ("mkcheck-record", "mkcheck-report", "mkcheck-import", "mkcheck-audit")
# What needs strace that may trace, and a compiler.
RECORDING = ("$ mkcheck-record", "$ mkcheck-import", "$ mkcheck-audit")
# What some systems lack.
NEEDED = ("cc", "cmake", "make")


@dataclass(frozen=True)
class Step:
    """A command, and the lines that stand below it."""

    command: str
    shown: str

    def new_file(self, folder: Path) -> str:
        """The name of the file that the step shows and that isn't there yet, or nothing."""
        words = self.command.split()
        is_new = len(words) == 2 and words[0] == "cat" and not (folder / words[1]).exists()
        return words[1] if is_new else ""

    def status(self) -> int | None:
        """The status that goes with what is shown; none where a shell's line has one of its own."""
        if not self.command.startswith("mkcheck") or any(byte in self.command for byte in "|;&"):
            return None
        audited = AUDITED.findall(self.shown)
        if self.command.startswith(("mkcheck-audit", "mkcheck-import")) and audited:
            return STATUS.get(audited[-1], 1)
        if REFUSED.search(self.shown):
            return 2
        return 1 if FOUND.match(self.shown) else 0


def steps_of(block: str) -> list[Step]:
    """The steps of a block."""
    parts = re.split(r"^\$ (.*)\n", block, flags=re.MULTILINE)
    return [Step(command, shown) for command, shown in zip(parts[1::2], parts[2::2])]


def is_as_shown(shown: str, printed: str, varies: bool) -> bool:
    """Whether a text is the one that is shown, but for what `...` stands for; the system decides
    how many files are read."""
    if varies:
        shown, printed = READS.sub(r"\1", shown), READS.sub(r"\1", printed)
    pieces = [re.escape(piece) for piece in re.split(r"^\.\.\.\n", shown, flags=re.MULTILINE)]
    return re.fullmatch("(?:.*\n)*".join(pieces), printed) is not None


def differs(step: Step, folder: Path, environment: dict[str, str], varies: bool) -> str:
    """What a step prints in place of what is shown, or nothing."""
    done = subprocess.run(
        ["/bin/sh", "-c", step.command],
        cwd=folder,
        env=environment,
        stdin=subprocess.DEVNULL,
        stdout=subprocess.PIPE,
        stderr=subprocess.STDOUT,
        timeout=SECONDS,
        check=False,
    )
    printed = PROGRESS.sub("", done.stdout.decode(errors="replace"))
    if printed and not printed.endswith("\n"):
        printed += "\n"
    if not is_as_shown(step.shown, printed, varies):
        return f"prints\n{printed}and not\n{step.shown}"
    if step.status() not in (None, done.returncode):
        return f"ends with {done.returncode} and not {step.status()}"
    return ""


def lacks(block: str) -> bool:
    """Whether a block records, and there is no strace that may trace or no compiler; or whether it
    starts another program that isn't there."""
    if any(f"$ {name} " in block and not shutil.which(name) for name in NEEDED):
        return True
    if not any(word in block for word in RECORDING):
        return False
    strace, compiler = shutil.which("strace"), shutil.which("cc")
    return not (
        strace
        and compiler
        and shutil.which("make")
        and subprocess.run([strace, "-o", os.devnull, "true"], check=False).returncode == 0
    )


def environment_of(program: str, tools: Path) -> dict[str, str]:
    """The environment of sessions, in which mkcheck is the program, and the other tools are the
    repository's."""
    tools.mkdir()
    (tools / "mkcheck").symlink_to(program)
    for name in TOOLS:
        (tools / name).symlink_to(ROOT / "bin" / name)
    path = os.pathsep.join([str(tools), os.environ.get("PATH", os.defpath)])
    kept = {name: os.environ[name] for name in ("HOME", "TMPDIR") if name in os.environ}
    return {**kept, "PATH": path, "LC_ALL": "C", "MKCHECK": program}


def blocks_of(page: Path) -> Iterator[tuple[int, str, str, str]]:
    """Line, word, folder and text of each block of a page."""
    text = COMMENT.sub(
        lambda comment: "\n" * comment.group().count("\n"), page.read_text(encoding="utf-8")
    )
    for found in BLOCK.finditer(text):
        more, source, block = found.groups()
        yield text.count("\n", 0, found.start()) + 1, more or "", source or "", block


def run_block(
    block: str, folder: Path, environment: dict[str, str], place: str, varies: bool
) -> int:
    """Runs the steps of a block, prints those that differ, and tells how many these are."""
    wrong = 0
    for step in steps_of(block):
        name = step.new_file(folder)
        if name:
            (folder / name).parent.mkdir(parents=True, exist_ok=True)
            (folder / name).write_text(step.shown, encoding="utf-8")
            continue
        said = differs(step, folder, environment, varies)
        if said:
            wrong += 1
            print(f"{place}: {step.command}\n{said}")
    return wrong


def try_page(program: str, page: Path) -> tuple[int, int, int]:
    """How many sessions of a page were run, how many steps differ, and how many sessions couldn't
    be run."""
    ran = wrong = left_out = 0
    with tempfile.TemporaryDirectory(prefix="mkcheck-pages-") as room:
        folder, varies, is_out = Path(room), False, False
        environment = environment_of(program, folder / "tools")
        for line, more, source, block in blocks_of(page):
            if not more:
                folder = Path(tempfile.mkdtemp(dir=room))
                varies = is_out = False
            if source:
                shutil.copytree(ROOT / source, folder, dirs_exist_ok=True)
            varies = varies or any(word in block for word in RECORDING)
            is_out = is_out or lacks(block)
            if is_out:
                left_out += 1
                continue
            ran += 1
            wrong += run_block(
                block, folder, environment, f"{page.relative_to(ROOT)}:{line}", varies
            )
    return ran, wrong, left_out
