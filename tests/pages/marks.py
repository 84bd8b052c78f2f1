"""Holds the pages to their rule: what begins with `$` is run by the gate, and no other command is.

A block of code whose lines begin with the name of a program has commands. If it is no session, then
a comment `<!-- not run: REASON -->` stands in front of it, or a comment `<!-- run by FILE -->` that
names the test which runs it. A synopsis, which has words in brackets, has no commands, and neither
has a makefile. A line that
begins with `$ ` stands in a session alone, and a session stands on a page whose sessions are run.
"""

from __future__ import annotations

import re
from collections.abc import Iterator
from dataclasses import dataclass
from pathlib import Path

from pages.links import ROOT, pages

PROGRAMS = (
    "apk apt-get bash bmake cargo cd cmake cp curl docker echo flake8 git jq make meson mkdir mv "
    "mypy ninja pip pipx pytest-3 python3 rm rt samu sed sh strace sudo tests/ vim .ci/ ./configure"
)
NAMES = "|".join(re.escape(name) for name in PROGRAMS.split())
COMMAND = re.compile(
    rf"^\s*(?:- )?(?:run: )?(?:[A-Z_]+=\S+ )?(?:mkcheck(?:-\w+)?|{NAMES})(?:(?<=/)\S+)?(?= |$)"
)
# How a command of a makefile begins in a block that is indented.
RECIPE = "    \t"
SYNOPSIS = re.compile(r"\[-|\]\.\.\.|\.\.\]| --help$")
FENCE = re.compile(r"^ *```(.*)$")
NOT_RUN = re.compile(r"^<!-- not run: \S.* -->$")
RUN_BY = re.compile(r"^<!-- run by (\S+) -->$")


@dataclass(frozen=True)
class Block:
    """A block of code: its line, what its fence says (nothing where it is indented), its lines, and
    the paragraph in front of it."""

    line: int
    kind: str | None
    text: list[str]
    before: str

    @property
    def is_session(self) -> bool:
        """Whether its steps are run."""
        return self.kind is not None and self.kind.split()[:1] == ["console"]

    @property
    def has_commands(self) -> bool:
        """Whether one of its lines is a command, and it is no synopsis and no makefile."""
        if self.kind is not None and self.kind.split()[:1] == ["make"]:
            return False
        if any(SYNOPSIS.search(line) or line.startswith(RECIPE) for line in self.text):
            return False
        return any(COMMAND.match(line) for line in self.text)


def blocks_of(text: str) -> Iterator[Block]:
    """The blocks of code of a page: fenced ones, and those that are indented behind a blank line."""
    lines = [*text.split("\n"), ""]
    at, before = 0, ""
    while at < len(lines):
        begin, fence = at, FENCE.match(lines[at])
        if fence:
            at += 1
            while at < len(lines) and not FENCE.match(lines[at]):
                at += 1
            yield Block(begin + 1, fence[1], lines[begin + 1 : at], before)
        elif lines[at].startswith("    ") and (not begin or not lines[begin - 1].strip()):
            while lines[at].startswith("    ") or (
                not lines[at].strip() and lines[at + 1 : at + 2] and lines[at + 1].startswith("    ")
            ):
                at += 1
            yield Block(begin + 1, None, lines[begin:at], before)
            before = ""
            continue
        before = lines[at].strip() or before
        at += 1


def faults_of(page: Path, tried: set[Path]) -> Iterator[str]:
    """What is wrong with the commands of a page; `tried` are those whose sessions are run."""
    for block in blocks_of(page.read_text(encoding="utf-8")):
        place = f"{page.relative_to(ROOT)}:{block.line}"
        if block.is_session:
            if page not in tried:
                yield f"{place}: nothing runs this session"
            continue
        shown = [line for line in block.text if re.match(r"\s*\$ ", line)]
        if shown:
            yield f"{place}: stands in no session, but begins with $: {shown[0].strip()}"
        if not block.has_commands or NOT_RUN.match(block.before):
            continue
        test = RUN_BY.match(block.before)
        if not test:
            yield f"{place}: commands that are neither run nor marked as not run"
        elif page.name not in (ROOT / test[1]).read_text(encoding="utf-8"):
            yield f"{place}: {test[1]} says nothing of this page"


def unmarked_commands(tried: set[Path]) -> int:
    """Prints what is wrong with the commands of all pages, and tells how many faults these are."""
    wrong = [fault for page in pages() for fault in faults_of(page, tried)]
    for fault in wrong:
        print(fault)
    return len(wrong)
