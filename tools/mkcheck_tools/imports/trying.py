"""Other contents of a file that make reads beside its makefiles, and what make knows then."""

from __future__ import annotations

import contextlib
import functools
import os
import re
from collections.abc import Callable, Iterator
from dataclasses import dataclass
from pathlib import Path
from typing import ClassVar

from mkcheck_tools.faults import Fault
from mkcheck_tools.imports.commits import HEAD, commits
from mkcheck_tools.imports.database import COMPUTED_NAME, WORD
from mkcheck_tools.imports.gnumake import Make, content
from mkcheck_tools.imports.readers import Started

# A line of a makefile that may compare the value of a macro. Functions that hand on what they don't
# know, as `subst` does, don't hide it.
DIRECTIVE = re.compile(r"\s*(?:else\s+)?(ifn?eq|ifn?def|[-s]?include)\b(.*)")
FUNCTION = re.compile(
    r"\$[({](?:if|or|and|filter|findstring|word|wordlist|words|suffix|realpath|wildcard|call|value"
    rf"|eval|shell|file)\s|{COMPUTED_NAME}"
)
A_FUNCTION = "a function, as $(if ..) or $(shell ..), or a computed name"
REFERENCE = re.compile(r"\$(?:[({]([\w.+-]+)[)}:]|(\w))")
# The operands of a condition that compares something with an empty text.
WITH_NOTHING = re.compile(r"\s*(?:\(,.*\)|\(.*,\s*\)|\"\"\s.*|''\s.*|.*\s(?:\"\"|''))\s*(?:#.*)?$")
WORDS_AT_MOST = 2000


@dataclass
class Said:
    """What makes said, and the files that they wrote when they read their makefiles."""

    makes: list[Make]
    files: list[bytes]


@dataclass
class Trial:
    """Asks make with other contents of files, by `run`, in a folder that holds its makefiles.

    Nobody knows what it does then, so it is confined where the system allows that: `run` is told
    so, and `printed`, which gives what a command prints. `written` are the files that make writes
    when it reads its makefiles.
    """

    folder: str
    makefiles: set[str]
    written: set[str]
    run: Callable[[bool], list[Make]]
    printed: Callable[[Started, bool], str]
    is_confined: bool = True

    COUNT_BEFORE: ClassVar[int] = 2
    """How often make is asked before a file has other contents."""

    def count(self, name: str) -> int:
        """How many other contents of a file there are."""
        if name == HEAD:
            return 1
        text = content(os.path.join(self.folder, name))
        return sum(1 for _ in others(text, self.words, self.is_confined))

    def ask(self, name: str) -> dict[int, Said]:
        """What make says for each of the other contents of a file with which it can be asked, by
        their numbers."""
        self.before  # It is asked before anything is changed.
        found = {}
        for number in self.changes(name):
            try:
                found[number] = self.said()
            except Fault:
                continue
        return found

    def changes(self, name: str, is_new: bool = False) -> Iterator[int]:
        """Gives a file each of the other contents, one after another, and then its own again. It
        keeps its time, unless it is to be new. What git keeps has a commit more."""
        if name == HEAD:
            yield from (0 for _ in commits(self.folder))
            return
        path = Path(self.folder, name)
        before, stamp = path.read_bytes(), os.stat(path).st_mtime_ns
        for number, text in enumerate(others(before, self.words, self.is_confined)):
            path.write_bytes(text)
            if not is_new:
                os.utime(path, ns=(stamp, stamp))
            yield number
        path.write_bytes(before)
        os.utime(path, ns=(stamp, stamp))

    def edits(self, name: str) -> Iterator[tuple[int, list[Make]]]:
        """What make says when a file is edited to each of the other contents, where all is up to
        date, with their numbers. What makes write when they read their makefiles is put back."""
        paths = [Path(self.folder, one) for one in {*self.makefiles, *self.written} - {name}]
        kept = {path: (path.read_bytes(), os.stat(path)) for path in paths if path.is_file()}
        for number in self.changes(name, is_new=True):
            with contextlib.suppress(Fault):
                yield number, self.run(self.is_confined)
            for path, (text, known) in kept.items():
                if content(str(path)) != text or os.stat(path).st_mtime_ns != known.st_mtime_ns:
                    path.write_bytes(text)
                    os.utime(path, ns=(known.st_atime_ns, known.st_mtime_ns))

    def unmoved(self, name: str, commands: list[Started]) -> Started | None:
        """The first of these commands that does the same with all other contents of a file."""
        before = {command: self.done(command) for command in commands}
        left = dict.fromkeys(commands)
        for _ in self.changes(name):
            for command in [one for one in left if self.done(one) != before[one]]:
                del left[command]
        return next(iter(left), None)

    def done(self, command: Started) -> tuple[str, list[bytes]] | None:
        """What a command prints, and what then stands in the files that makes write; None where it
        can't be run."""
        try:
            said = self.printed(command, self.is_confined)
        except Fault:
            return None
        return said, self.texts()

    def said(self) -> Said:
        """What make says now."""
        return Said(self.run(self.is_confined), self.texts())

    def texts(self) -> list[bytes]:
        """What stands in the files that makes write when they read their makefiles."""
        return [content(os.path.join(self.folder, name)) for name in sorted(self.written)]

    @functools.cached_property
    def before(self) -> list[Said]:
        """What make says twice with the contents that are there."""
        try:
            first = self.said()
        except Fault:
            self.is_confined = False
            first = self.said()
        return [first, self.said()]

    @functools.cached_property
    def words(self) -> list[str]:
        """The words of all makefiles."""
        texts = (text for _, _, text in self.lines)
        return list(dict.fromkeys(word for text in texts for word in WORD.findall(text)))

    @functools.cached_property
    def lines(self) -> list[tuple[str, int, str]]:
        """The lines of all makefiles, each with its makefile and its number."""
        found = []
        for name in sorted(self.makefiles):
            text = content(os.path.join(self.folder, name)).decode("utf-8", "replace")
            number = 1
            for line in re.split(r"(?<!\\)\n", text):
                found.append((name, number, line.replace("\\\n", " ")))
                number += 1 + line.count("\n")
        return found

    def is_seen(self, asked: list[Said]) -> bool:
        """Whether make has other macros or rules with some contents, or writes other files."""
        one, other = (known(said.makes) for said in self.before)
        steady = {key for key, value in one.items() if other.get(key) == value}
        files = [said.files for said in self.before]
        return any(files[0] == files[1] != said.files for said in asked) or any(
            key in steady and value != one[key] or key not in one and key not in other
            for said in asked
            for key, value in known(said.makes).items()
        )

    def conditional(self, asked: list[Said]) -> str:
        """Which condition or function of a makefile depends on a macro whose value varies with the
        contents that were tried, with its place; empty if there is none.

        A condition that only asks whether the macro is empty doesn't count, if it was empty once.
        """
        values = [macros(said.makes) for said in [*self.before, *asked]]
        first = values[0]
        steady = {name for name in first if first[name] == values[1].get(name)}
        varied = {name for name in steady if any(one.get(name) != first[name] for one in values)}
        emptied = {name for name in varied if any(not one.get(name, "").strip() for one in values)}
        waiting = list(varied)
        users: dict[str, list[str]] = {}
        for name in steady:
            for word in references(first[name]):
                users.setdefault(word, []).append(name)
        while waiting:
            more = [name for name in users.get(waiting.pop(), []) if name not in varied]
            varied.update(more)
            waiting += more
        for makefile, number, text in self.lines:
            line = text.replace("$$", "")
            directive = DIRECTIVE.match(line)
            if directive is None and FUNCTION.search(line) is None:
                continue
            names = references(line)
            if directive is not None and directive.group(1).endswith("def"):
                names += directive.group(2).split()[:1]
            for name in filter(varied.__contains__, names):
                if (
                    directive is None
                    or name not in emptied
                    or not is_with_nothing(*directive.groups())
                ):
                    return f"{makefile}:{number}: {what_decides(directive)}"
        return ""


def what_decides(directive: re.Match[str] | None) -> str:
    """What a line is that may compare the value of a macro, for people."""
    if directive is None:
        return A_FUNCTION
    return "an include line" if directive.group(1).endswith("include") else "a condition"


def is_with_nothing(word: str, rest: str) -> bool:
    """Whether a condition asks only whether something is empty."""
    return word.endswith("def") or WITH_NOTHING.match(rest) is not None


def references(text: str) -> list[str]:
    """The macros that a text names."""
    return [one or other for one, other in REFERENCE.findall(text)]


def macros(makes: list[Make]) -> dict[str, str]:
    """The values of the macros of all makes."""
    return {
        name: value
        for make in makes
        for name, value in (*make.base.values.items(), *make.base.texts.items())
    }


def known(makes: list[Make]) -> dict[tuple[object, ...], object]:
    """All that makes know that contents of a file may change."""
    found: dict[tuple[object, ...], object] = {}
    for make in makes:
        for name, value in (*make.base.values.items(), *make.base.texts.items()):
            found[make.key, "macro", name] = value
        for name, rules in make.base.rules.items():
            found[make.key, "rule", name] = [
                (rule.needs, rule.order_only, rule.recipe, [one.text for one in rule.commands])
                for rule in rules
            ]
    return found


def others(text: bytes, words: list[str], is_confined: bool) -> Iterator[bytes]:
    """Other contents of a file, one after another: other digits; without the last line; a letter
    after each word; `words` in a comment; and none, if make is confined."""
    if re.search(rb"\d", text):
        yield re.sub(rb"\d", lambda found: b"%d" % ((int(found.group()) + 1) % 10), text)
    lines = text.splitlines(keepends=True)
    if len(lines) > 1:
        yield b"".join(lines[:-1])
    yield re.sub(rb"\w+", lambda found: found.group() + b"x", text)
    more = " ".join(["#", *words[:WORDS_AT_MOST]]).encode("utf-8", "replace")
    yield text + (b"" if text.endswith(b"\n") else b"\n") + more + b"\n"
    if text and is_confined:
        yield b""
