"""The reading of a makefile: kinds of lines, includes, special targets, rules."""

from __future__ import annotations

import re
from collections.abc import Iterable
from typing import Literal, NamedTuple, Protocol

from lines import (
    BLANKS,
    WANTED,
    Refused,
    Unplaced,
    first_outside,
    include_word,
    is_plain_path,
    logical_lines,
    place,
    tested_name,
    uncomment,
    words,
)
from macros import MacroTable

DEFAULT_TEXT = b"""\
.SUFFIXES: .o .c .sh
MAKE = make
CC = c17
CFLAGS = -O1
LDFLAGS =
.c:
\t$(CC) $(CFLAGS) $(LDFLAGS) -o $@ $<
.sh:
\tcp $< $@
\tchmod a+x $@
.c.o:
\t$(CC) $(CFLAGS) -c $<
"""
LEVEL_LIMIT = 16
TEXT_LIMIT = 1024
SPECIAL = re.compile(rb"\.[A-Z_]{3,}\Z")
SUFFIX = re.compile(rb"\.[^./]+\Z")
WITHOUT_WORDS = (b".NOTPARALLEL", b".POSIX", b".WAIT")
KNOWN = WITHOUT_WORDS + (b".SUFFIXES", b".PHONY", b".IGNORE", b".SILENT", b".PRECIOUS")


# The bytes of a file, None where it isn't there, or "failed".
Found = bytes | Literal["failed"] | None


class Files(Protocol):
    """What makefiles are read from."""

    def read(self, name: bytes) -> Found:
        """What is found under a name."""

    def why(self, name: bytes) -> bytes:
        """Why the file under a name isn't read, in words; nothing where that isn't known."""


class Command(NamedTuple):
    """A command as the makefile has it, and its place."""

    where: bytes
    text: bytes


class Rule:
    """A rule line: targets, words, its commands with their places, or None without any."""

    def __init__(
        self, targets: list[bytes], prerequisites: list[bytes], where: bytes, default: bool
    ) -> None:
        self.targets = targets
        self.words = prerequisites
        self.where = where
        self.default = default
        self.commands: list[Command] | None = None


class Passed:
    """Stands for a rule line whose targets expand to nothing."""


class Special:
    """Stands for the line of a special target, which may have no commands."""


# Which rule line owns the command lines that follow.
Owner = Rule | Passed | Special | None


class Include(NamedTuple):
    """An include line, by its first word."""

    word: bytes


class Assignment(NamedTuple):
    """A line that defines a macro."""

    name: bytes
    operator: bytes
    value: bytes


class RuleLine(NamedTuple):
    """A rule line; the command is None where it has no semicolon."""

    targets: bytes
    prerequisites: bytes
    command: bytes | None


Kind = Include | Assignment | RuleLine


def kind_of(text: bytes) -> Kind:
    """What a plain line is, with its parts; or 21 to 25."""
    word = include_word(text)
    if word:
        return Include(word)
    at = first_outside(text, WANTED)
    if at is None:
        raise Unplaced(25)
    byte = text[at : at + 1]
    if byte == b"=":
        before = text[at - 1 : at] if at else b""
        if before == b"!":
            raise Unplaced(21)
        if before in (b"?", b"+"):
            return assignment(text, at - 1, before + b"=")
        return assignment(text, at, b"=")
    if byte != b":":
        raise Unplaced(25)
    for operator in (b":::=", b"::="):
        if text.startswith(operator, at):
            return assignment(text, at, operator)
    if text.startswith(b":=", at):
        raise Unplaced(22)
    if text.startswith(b"::", at):
        raise Unplaced(23)
    return rule_line(text, at)


def assignment(text: bytes, at: int, operator: bytes) -> Assignment:
    value = text[at + len(operator) :].lstrip(BLANKS)
    return Assignment(text[:at].strip(BLANKS), operator, value)


def rule_line(text: bytes, colon: int) -> RuleLine:
    stop = first_outside(text, (b"=", b";"), colon + 1)
    if stop is not None and text[stop : stop + 1] == b"=":
        raise Unplaced(24)
    if not text[:colon].strip(BLANKS):
        raise Unplaced(25)
    if stop is None:
        return RuleLine(text[:colon], text[colon + 1 :], None)
    command = text[stop + 1 :].lstrip(BLANKS)
    return RuleLine(text[:colon], text[colon + 1 : stop], command)


class Makefile:
    """What was read."""

    def __init__(self, files: Files) -> None:
        self.files = files
        self.macros = MacroTable()
        self.rules: list[Rule] = []
        self.suffixes: list[bytes] = []
        self.phony: list[bytes] = []
        self.not_parallel = False
        self.texts: list[bytes] = []
        self.passed_over: list[bytes] = []
        self.with_commands: dict[bytes, Rule] = {}

    # One text.

    def read_text(self, text: bytes, file: bytes, level: int, default: bool = False) -> None:
        owner: Owner = None
        for line in logical_lines(text, file):
            where = place(file, line.first)
            if line.command:
                self.command(line.text, where, owner)
                continue
            plain = uncomment(line.text).lstrip(BLANKS)
            if not plain:
                continue
            try:
                owner = self.plain_line(plain, where, level, default)
            except Unplaced as fault:
                raise fault.at(where)

    def command(self, text: bytes, where: bytes, owner: Owner) -> None:
        """A command line, behind the rule line that owns it."""
        text = text.lstrip(BLANKS)
        if owner is None:
            if not text.startswith(b"#"):
                raise Refused(26, where=where)
        elif isinstance(owner, Special):
            raise Refused(30, where=where)
        elif isinstance(owner, Rule):
            self.add_command(owner, text, where)

    def add_command(self, rule: Rule, text: bytes, where: bytes) -> None:
        if rule.commands is None:
            rule.commands = []
            for target in [] if rule.default else rule.targets:
                if self.with_commands.setdefault(target, rule) is not rule:
                    raise Refused(31, target, where=rule.where)
        if text:
            rule.commands.append(Command(where, text))

    # One plain line. It answers which rule line owns the command lines behind it.

    def plain_line(self, text: bytes, where: bytes, level: int, default: bool) -> Owner:
        kind = kind_of(text)
        if isinstance(kind, Include):
            if level == LEVEL_LIMIT:
                raise Unplaced(33)
            self.include(text, kind.word, where, level)
            return None
        if isinstance(kind, Assignment):
            name = self.macros.expand(kind.name)[0].strip(BLANKS)
            self.macros.define(name, kind.operator, kind.value)
            return None
        return self.rule(kind, where, default)

    def rule(self, kind: RuleLine, where: bytes, default: bool) -> Owner:
        targets = words(self.macros.expand(kind.targets)[0])
        if not targets:
            return Passed()
        targets = [tested_name(word, where) for word in targets]
        listed = words(self.macros.expand(kind.prerequisites)[0])
        listed = [tested_name(word, where) for word in listed]
        if any(SPECIAL.match(target) and target not in KNOWN for target in targets):
            raise Refused(29, where=where)
        if any(target in KNOWN for target in targets):
            self.special(targets, listed, kind.command, where)
            return Special()
        rule = Rule(targets, listed, where, default)
        self.rules.append(rule)
        if kind.command is not None:
            self.add_command(rule, kind.command, where)
        return rule

    def special(
        self, targets: list[bytes], listed: list[bytes], command: bytes | None, where: bytes
    ) -> None:
        if len(targets) > 1 or command is not None or b".WAIT" in listed:
            raise Refused(30, where=where)
        target = targets[0]
        if target in WITHOUT_WORDS and listed:
            raise Refused(30, where=where)
        if target == b".SUFFIXES":
            if not all(SUFFIX.match(word) for word in listed):
                raise Refused(30, where=where)
            if not listed:
                self.suffixes = []
            self.suffixes = list(dict.fromkeys(self.suffixes + listed))
        elif target == b".PHONY":
            self.phony = list(dict.fromkeys(self.phony + listed))
        elif target == b".NOTPARALLEL":
            self.not_parallel = True

    def include(self, text: bytes, word: bytes, where: bytes, level: int) -> None:
        names = words(self.macros.expand(text[len(word) :])[0])
        names = [tested_name(name, where) for name in names]
        if not names:
            raise Refused(34, where=where)
        for name in names:
            if len(self.texts) == TEXT_LIMIT:
                raise Refused(36, where=where)
            found = self.files.read(name)
            if found == "failed":
                raise Refused(35, name, where=where)
            if found is None:
                if word == b"include":
                    raise Refused(32, name, where=where)
                self.passed_over.append(name)
                continue
            self.texts.append(name)
            self.read_text(found, name, level + 1)


def read_makefile(
    files: Files, name: bytes | None, defaults: bool, operands: Iterable[bytes]
) -> Makefile:
    """The makefile of that name, or of the usual ones, behind default text and operands."""
    if name is not None and (name == b"-" or not is_plain_path(name)):
        raise Refused(27, name, name="BadMakefileName")
    makefile = Makefile(files)
    if defaults:
        makefile.read_text(DEFAULT_TEXT, b"(default)", 0, default=True)
    for number, operand in enumerate(operands, 1):
        try:
            makefile.macros.fix(operand)
        except Unplaced as fault:
            raise fault.at(place(b"operand", number))
    for tried in [b"makefile", b"Makefile"] if name is None else [name]:
        found = files.read(tried)
        if found == "failed":
            raise Refused(35, tried)
        if found is not None:
            makefile.texts.append(tried)
            makefile.read_text(found, tried, 0)
            return makefile
        makefile.passed_over.append(tried)
    raise Refused(37, *([] if name is None else [name]))
