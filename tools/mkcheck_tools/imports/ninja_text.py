"""The words of a ninja file: names, paths, values with their variables, and ends of lines.

This follows the grammar of ninja's manual ("Lexical syntax"). Each fault names file and line.
"""

from __future__ import annotations

import re
from bisect import bisect_right
from collections.abc import Callable
from dataclasses import dataclass

# What ninja's lexer knows, in the order in which it is tried.
TOKENS = (
    ("comment", re.compile(r"[ ]*#[^\0\n]*\n")),
    ("newline", re.compile(r"[ ]*\r?\n")),
    ("indent", re.compile(r"[ ]+")),
    ("|@", re.compile(r"\|@")),
    ("||", re.compile(r"\|\|")),
    ("|", re.compile(r"\|")),
    ("=", re.compile(r"=")),
    (":", re.compile(r":")),
    ("name", re.compile(r"[A-Za-z0-9_.-]+")),
)
KEYWORDS = ("build", "pool", "rule", "default", "include", "subninja")
BLANKS = re.compile(r"(?:[ ]|\$\r?\n)*")
NAME = re.compile(r"[A-Za-z0-9_.-]+")
PLAIN_IN_PATH = re.compile(r"[^$ :\r\n|\0]+")
PLAIN_IN_VALUE = re.compile(r"[^$\r\n\0]+")
ESCAPED_NEWLINE = re.compile(r"\$\r?\n[ ]*")
VARIABLE = re.compile(r"\$(?:\{([A-Za-z0-9_.-]+)\}|([A-Za-z0-9_-]+))")


class NinjaFault(Exception):
    """A ninja file that can't be read, with its name and line."""

    def __init__(self, file: str, line: int, what: str):
        super().__init__(f"{file}:{line}: {what}")


@dataclass(frozen=True)
class Pattern:
    """A text with variables.

    Each part is a text, or, where its first item is true, the name of a variable.
    """

    parts: tuple[tuple[bool, str], ...] = ()

    def expand(self, value_of: Callable[[str], str]) -> str:
        """The text, with each variable replaced by its value."""
        return "".join(value_of(text) if variable else text for variable, text in self.parts)

    def __bool__(self) -> bool:
        return bool(self.parts)


class Reader:
    """Reads one file from front to end."""

    def __init__(self, file: str, text: str):
        self.file, self.text, self.place = file, text, 0
        self.line_starts = [0, *(match.end() for match in re.finditer("\n", text))]
        self.last_start = 0

    def line(self) -> int:
        """The number of the line on which the last token began, counted from 1."""
        return bisect_right(self.line_starts, self.last_start)

    def fault(self, what: str) -> NinjaFault:
        """A fault at the last token."""
        return NinjaFault(self.file, self.line(), what)

    def skip_blanks(self) -> None:
        """Passes over blanks and escaped newlines."""
        match = BLANKS.match(self.text, self.place)
        assert match is not None
        self.place = match.end()

    def token(self) -> tuple[str, str]:
        """The kind and the text of the next token. The kind of a keyword is the keyword itself."""
        while True:
            self.last_start = self.place
            if self.place >= len(self.text):
                return "end", ""
            kind, text = self.match()
            if kind != "comment":
                break
        if kind not in ("newline", "indent"):
            self.skip_blanks()
        return (text, text) if kind == "name" and text in KEYWORDS else (kind, text)

    def match(self) -> tuple[str, str]:
        """Matches one token, comments too, and steps past it."""
        for kind, pattern in TOKENS:
            match = pattern.match(self.text, self.place)
            if match is not None:
                self.place = match.end()
                return kind, match.group()
        if self.text[self.place] == "\t":
            raise self.fault("a tab, where ninja allows blanks only")
        raise self.fault(f"{self.text[self.place]!r} isn't expected here")

    def peek(self, kind: str) -> bool:
        """Steps over the next token where it is of this kind."""
        place = self.place
        if self.token()[0] == kind:
            return True
        self.place = place
        return False

    def expect(self, kind: str) -> None:
        """Steps over the next token, which has to be of this kind."""
        found, text = self.token()
        if found != kind:
            raise self.fault(f"{kind} is expected, not {text.strip() or found}")

    def name(self) -> str:
        """A name of a rule, a pool or a variable."""
        self.last_start = self.place
        match = NAME.match(self.text, self.place)
        if match is None:
            raise self.fault("a name is expected")
        self.place = match.end()
        self.skip_blanks()
        return match.group()

    def assignment(self) -> tuple[str, Pattern]:
        """A variable and its value, to the end of the line."""
        name = self.name()
        self.expect("=")
        return name, self.pattern(PLAIN_IN_VALUE, in_path=False)

    def path(self) -> Pattern:
        """A path; an empty pattern where none is next."""
        found = self.pattern(PLAIN_IN_PATH, in_path=True)
        self.skip_blanks()
        return found

    def paths(self) -> list[Pattern]:
        """All paths up to the next mark or the end of the line."""
        found = []
        while one := self.path():
            found.append(one)
        return found

    def pattern(self, plain: re.Pattern[str], in_path: bool) -> Pattern:
        """A text with variables. The end of the line ends it, and belongs to a value."""
        parts: list[tuple[bool, str]] = []
        while True:
            self.last_start = self.place
            match = plain.match(self.text, self.place)
            if match is not None:
                parts.append((False, match.group()))
                self.place = match.end()
                continue
            here = self.text[self.place : self.place + 1]
            if here == "$":
                parts += self.escape()
                continue
            if here in ("", "\0"):
                raise self.fault("the file ends within a line")
            if not in_path:
                self.place += 2 if self.text.startswith("\r\n", self.place) else 1
            return Pattern(tuple(parts))

    def escape(self) -> list[tuple[bool, str]]:
        """What stands after a `$`."""
        match = ESCAPED_NEWLINE.match(self.text, self.place)
        if match is not None:
            self.place = match.end()
            return []
        match = VARIABLE.match(self.text, self.place)
        if match is not None:
            self.place = match.end()
            return [(True, match.group(1) or match.group(2))]
        behind = self.text[self.place + 1 : self.place + 2]
        if behind not in ("$", " ", ":"):
            raise self.fault("bad $-escape (a $ itself is written $$)")
        self.place += 2
        return [(False, behind)]
