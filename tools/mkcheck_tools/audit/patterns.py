"""Files that makefiles ask for by patterns, as by `$(wildcard src/*.c)`: a new one of them may give
a make other rules. What a macro stands for is read from plain lines; what isn't known of a pattern
stands for any text."""

from __future__ import annotations

import fnmatch
import os
import re
from collections.abc import Iterable, Iterator, Mapping
from dataclasses import dataclass, field

DEPTH = 8
SETTING = re.compile(
    r"(?m)^ *(?:export +|override +)*([\w.-]+)[ \t]*(?::{1,3}|\?|)=[ \t]*([^#\n]*)"
)
REFERENCE = re.compile(r"\$(?:\(([\w.-]+)\)|\{([\w.-]+)\})")
ASKED = re.compile(r"\$[({](wildcard|shell)\s")
# Commands that list files.
LISTING = re.compile(r"\b(?:find|ls|echo|printf|dir|git ls-files)\b")
CLOSING = {"(": ")", "{": "}"}
# What stands for a text that isn't known.
ANY = "\0"


@dataclass
class Patterns:
    """The patterns of makefiles, each for whole names of files in the project's folder."""

    found: list[re.Pattern[str]] = field(default_factory=list)
    is_any: bool = False
    """Whether there is a pattern of which nothing is known."""

    def take(self, text: str, folders: Iterable[str]) -> None:
        """Takes those of a makefile, whose make works in one of these folders."""
        joined = text.replace("\\\n", " ")
        values = {name: value.strip() for name, value in SETTING.findall(joined)}
        for kind, argument in asked_in(joined):
            words = expanded(argument, values).split()
            if kind == "shell":
                is_list = LISTING.search(argument) is not None
                words = [f"{ANY}{one}" for one in globs_in(words)] if is_list else []
                self.is_any |= is_list and not words
            for word in words:
                if not re.search(r"[\w.-]", word.replace(ANY, "")):
                    self.is_any = True
                    continue
                self.found += [pattern_of(os.path.join(folder, word)) for folder in folders]

    def fits(self, name: str, ends: frozenset[str]) -> bool:
        """Whether a makefile may ask for a file; one of which nothing is known, for those that end
        so."""
        is_like = self.is_any and os.path.splitext(name)[1] in ends
        return is_like or any(one.fullmatch(name) for one in self.found)


def asked_in(text: str) -> Iterator[tuple[str, str]]:
    """The functions of a text that ask for files, each with its argument."""
    for found in ASKED.finditer(text):
        opened = found.group(0)[1]
        depth, at = 1, found.end()
        while at < len(text) and depth:
            depth += (text[at] == opened) - (text[at] == CLOSING[opened])
            at += 1
        yield found.group(1), text[found.end() : at - 1]


def expanded(text: str, values: Mapping[str, str], depth: int = DEPTH) -> str:
    """A text with what plain macros stand for, and a mark for each other reference."""
    while depth and REFERENCE.search(text):
        text = REFERENCE.sub(lambda one: values.get(one[1] or one[2], ANY), text)
        depth -= 1
    while True:
        shorter = re.sub(r"\$(?:\([^()]*\)|\{[^{}]*\}|[^({])", ANY, text)
        if shorter == text:
            return text
        text = shorter


def globs_in(words: Iterable[str]) -> list[str]:
    """The last parts of words of a command that are patterns."""
    plain = (word.strip("'\"").replace("\\", "") for word in words)
    return [os.path.basename(word) for word in plain if "*" in word]


def pattern_of(word: str) -> re.Pattern[str]:
    """The pattern of a word, for names without `.` and `..` in them."""
    pieces = re.split(r"(\*|\?|\[[^]]*\]|\0)", os.path.normpath(word))
    return re.compile("".join(map(translated, pieces)), re.DOTALL)


def translated(piece: str) -> str:
    """A part of a pattern as a regular expression."""
    if piece in ("*", "?"):
        return "[^/]" + ("*" if piece == "*" else "")
    if piece.startswith("[") and piece.endswith("]"):
        return fnmatch.translate(piece).removeprefix("(?s:").removesuffix(")\\Z")
    return ".*" if piece == ANY else re.escape(piece)
