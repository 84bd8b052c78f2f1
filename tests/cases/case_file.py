"""Reads case files and writes them: a title, files, commands, and what the program must answer."""

from __future__ import annotations

import re
from collections.abc import Sequence
from dataclasses import dataclass, replace
from pathlib import Path

ESCAPED = "escaped"
UNENDED = "no final newline"
MARK = f"{ESCAPED}|{UNENDED}"
HEADING = re.compile(rf"== (\S|\S.*?\S)(?: \(((?:{MARK})(?:, (?:{MARK}))*)\))?")
COMMAND = "command"
STREAMS = ("output", "errors")
STATUS = "status"
ESCAPE = re.compile(rb"\\(?:\\|x([0-9a-f]{2})|\{(\d+)\*([^{}]*)\})")
INVISIBLE = re.compile(rb"[\x00-\x08\x0b-\x1f\x7f]|[ \t]$|^== ", re.MULTILINE)


class CaseError(Exception):
    """What is wrong with a case file."""


@dataclass(frozen=True)
class Section:
    """A part of a case file: its name, the text that stands below it, its marks, and its line."""

    name: str
    shown: str
    marks: tuple[str, ...] = ()
    line: int = 0

    def text(self) -> bytes:
        """The bytes that the shown text stands for."""
        shown = self.shown.encode()
        return unescaped(shown) if ESCAPED in self.marks else shown

    def words(self) -> str:
        """The section as it is written."""
        marks = f" ({', '.join(self.marks)})" if self.marks else ""
        return f"== {self.name}{marks}\n" + self.shown + "\n" * (UNENDED in self.marks)


@dataclass(frozen=True)
class Answer:
    """What a command writes to both streams, and its status."""

    output: bytes
    errors: bytes
    status: int

    def sections(self) -> tuple[Section, ...]:
        """The sections that say this answer. A stream to which nothing was written has none."""
        streams = zip(STREAMS, (self.output, self.errors))
        said = [section_of(name, text) for name, text in streams if text]
        return (*said, Section(STATUS, f"{self.status}\n"))


@dataclass(frozen=True)
class Run:
    """Files that are written first, commands, and the sections with the answer of each command."""

    files: tuple[Section, ...]
    command: Section
    said: tuple[Section, ...]

    def commands(self) -> list[str]:
        """The commands, one for each line."""
        return self.command.shown.splitlines()

    def answer(self) -> Answer:
        """The answer that each command must give."""
        texts = {section.name: section.text() for section in self.said}
        return Answer(texts.get("output", b""), texts.get("errors", b""), int(texts[STATUS]))


@dataclass(frozen=True)
class Case:
    """A title, a remark, and runs in one folder, one after another."""

    title: str
    remark: str
    runs: tuple[Run, ...]

    def words(self) -> str:
        """The text of the case file."""
        sections = [one for run in self.runs for one in (*run.files, run.command, *run.said)]
        head = [f"{text}\n" for text in (self.title, self.remark) if text]
        return "\n".join([*head, *(section.words() for section in sections)])

    def with_answers(self, answers: Sequence[Sequence[Answer]]) -> Case:
        """The case with other answers: for each run those of its commands."""
        runs = [one for run, given in zip(self.runs, answers) for one in answered(run, given)]
        return replace(self, runs=tuple(runs))


def answered(run: Run, answers: Sequence[Answer]) -> list[Run]:
    """The run with these answers of its commands. Where they differ from each other, each command
    becomes a run of its own."""
    if all(answer == run.answer() for answer in answers):
        return [run]
    if all(answer == answers[0] for answer in answers):
        return [replace(run, said=answers[0].sections())]
    words = [Section(COMMAND, f"{command}\n") for command in run.commands()]
    runs = [Run((), word, answer.sections()) for word, answer in zip(words, answers)]
    return [replace(runs[0], files=run.files), *runs[1:]]


def unescaped(text: bytes) -> bytes:
    """The bytes that an escaped text stands for."""

    def bytes_of(found: re.Match[bytes]) -> bytes:
        byte, count, repeated = found.groups()
        if count is not None:
            return unescaped(repeated) * int(count)
        return bytes([int(byte, 16)]) if byte else b"\\"

    if b"\\" in ESCAPE.sub(b"", text):
        raise CaseError("in an escaped section a backslash begins \\\\, \\x00 or \\{3*ab}")
    return ESCAPE.sub(bytes_of, text)


def escaped(text: bytes) -> str:
    """The text in which each byte that can't be seen is escaped."""

    def byte(found: re.Match[bytes]) -> bytes:
        first, *rest = found.group()
        return b"\\x%02x" % first + bytes(rest)

    text = INVISIBLE.sub(byte, text.replace(b"\\", b"\\\\"))
    try:
        return text.decode()
    except UnicodeDecodeError:
        return re.sub(rb"[\x80-\xff]", byte, text).decode()


def is_plain(text: bytes) -> bool:
    """Whether a text can be seen as it is."""
    try:
        text.decode()
    except UnicodeDecodeError:
        return False
    return not INVISIBLE.search(text)


def section_of(name: str, text: bytes) -> Section:
    """The section of a text, with the marks that it needs."""
    shown = text.decode() if is_plain(text) else escaped(text)
    escapes = [] if is_plain(text) else [ESCAPED]
    ends = [UNENDED] if text and not text.endswith(b"\n") else []
    return Section(name, shown, (*escapes, *ends))


def section_at(lines: Sequence[str], place: int, end: int) -> Section:
    """The section whose heading stands at a place, and that ends before another place."""
    found = HEADING.fullmatch(lines[place])
    marks = tuple(found.group(2).split(", ")) if found and found.group(2) else ()
    if found is None:
        raise CaseError(f"line {place + 1}: a heading is `== NAME` or `== NAME (MARK)`")
    if end < len(lines) and lines[end - 1]:
        raise CaseError(f"line {end}: no empty line stands before the heading")
    shown = lines[place + 1 : end - 1 if end < len(lines) else end]
    ends = "" if UNENDED in marks or not shown else "\n"
    return Section(found.group(1), "\n".join(shown) + ends, marks, place + 1)


def runs_of(sections: Sequence[Section]) -> list[Run]:
    """The runs that sections say."""
    runs: list[Run] = []
    files: list[Section] = []
    answers = (*STREAMS, STATUS)
    for number, section in enumerate(sections):
        if section.name == COMMAND:
            behind = sections[number + 1 :]
            count = next((n for n, one in enumerate(behind) if one.name not in answers), None)
            runs.append(checked(Run(tuple(files), section, tuple(behind[:count]))))
            files = []
        elif section.name not in answers:
            files.append(section)
        elif not runs or files:
            raise CaseError(f"line {section.line}: no command stands before `{section.name}`")
    if files or not runs:
        raise CaseError("the last section isn't the status of a command")
    return runs


def checked(run: Run) -> Run:
    """The run, if it has a command, a status, and no section of its answer twice."""
    names = [section.name for section in run.said]
    if not run.command.shown.strip():
        raise CaseError(f"line {run.command.line}: there is no command")
    if len(set(names)) < len(names) or not names or names[-1] != STATUS:
        raise CaseError(f"line {run.command.line}: behind a command stand output, errors, status")
    if not run.said[-1].shown.strip().isdigit():
        raise CaseError(f"line {run.said[-1].line}: the status is no number")
    return run


def read_case(text: str) -> Case:
    """The case that a text says."""
    if not text.endswith("\n"):
        raise CaseError("the last line has no newline")
    lines = text[:-1].split("\n")
    places = [place for place, line in enumerate(lines) if line.startswith("== ")]
    title, *remark = lines[: places[0]] if places else lines
    if not title.strip() or not remark or remark[0] or remark[-1]:
        raise CaseError("the first line is no title with an empty line below it")
    ends = [*places[1:], len(lines)]
    sections = [section_at(lines, place, end) for place, end in zip(places, ends)]
    return Case(title, "\n".join(remark[1:-1]), tuple(runs_of(sections)))


def read_case_file(path: Path) -> Case:
    """The case in a file."""
    try:
        return read_case(path.read_bytes().decode())
    except UnicodeDecodeError:
        raise CaseError("the file isn't UTF-8; write other bytes in an escaped section") from None
