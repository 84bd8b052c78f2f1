"""The command line, told apart, and what a request prepares: the graph and its footprints."""

from __future__ import annotations

import os
import re

from book import Book, read_book
from graph import Graph, Rules, There, goal_names
from lines import Refused, number_of
from reading import Files, Found, read_makefile

FILE_LIMIT = 16777216
FINDING_LIMIT = 2**64 - 1
FINDING = re.compile(rb"\+?[0-9]+\Z")
# Standard output and status of a program; None where it gave no answer.
Answer = tuple[bytes, int | None]


class Disk:
    """The files of a folder."""

    def __init__(self, folder: str = ".") -> None:
        self.folder = os.fsencode(folder)

    def read(self, name: bytes) -> Found:
        """The bytes of a file, None where it isn't there, or "failed"."""
        if not name:
            return None
        try:
            with open(os.path.join(self.folder, name), "rb") as file:
                data = file.read(FILE_LIMIT + 1)
        except FileNotFoundError:
            return None
        except OSError:
            return "failed"
        return "failed" if len(data) > FILE_LIMIT else data

    def why(self, name: bytes) -> bytes:
        """Why the file under a name isn't read, in words; nothing where that isn't known."""
        path = os.path.join(self.folder, name)
        if os.path.isdir(path):
            return b": this one is a folder"
        if not os.path.exists(path):
            return b""
        if not os.access(path, os.R_OK):
            return b": there is no permission to read this one"
        is_large = os.path.getsize(path) > FILE_LIMIT
        return b": this one has over 16,777,216 bytes" if is_large else b""


class Usage(Exception):
    """A fault of the command line."""


class Request:
    """The words of a command line, told apart."""

    VALUES = {
        "graph": "fb",
        "check": "fbe",
        "repair": "fb",
        "verify": "fbk",
        "since": "fb",
        "simulate": "fbp",
    }
    FLAGS = {
        "graph": "rcw",
        "check": "rcw",
        "repair": "rw",
        "verify": "rw",
        "since": "rw",
        "simulate": "rw",
    }
    NEEDED = {
        "graph": "",
        "check": "b",
        "repair": "b",
        "verify": "bk",
        "since": "b",
        "simulate": "bp",
    }

    def __init__(self, arguments: list[str]) -> None:
        if not arguments or arguments[0] not in self.VALUES:
            raise Usage
        self.command = arguments[0]
        self.values: dict[str, bytes] = {}
        self.flags: set[str] = set()
        self.in_json = False
        self.part = False
        self.words: list[bytes] = []
        self.tell(arguments[1:])
        if any(letter not in self.values for letter in self.NEEDED[self.command]):
            raise Usage
        number = self.values.get("e", b"1")
        finding = number_of(number.lstrip(b"+"), FINDING_LIMIT) if FINDING.match(number) else None
        if not finding:
            raise Usage
        self.finding = finding
        if self.in_json:
            self.values.pop("e", None)
            self.flags -= {"w"} if self.command == "graph" else {"c", "w"}
        self.in_words = "w" in self.flags and "e" not in self.values
        if "f" in self.values:
            name = self.values["f"].removeprefix(b"./")
            self.values["f"] = self.values["f"] if name[:1] in (b"", b"/") else name
        self.folder = b""
        if self.command == "since":
            if not self.words:
                raise Usage
            self.folder = self.words[0]
        self.take(self.words[1:] if self.command == "since" else self.words)

    def take(self, words: list[bytes]) -> None:
        """Takes these words as operands and goals."""
        self.words = words
        self.operands = [word for word in words if b"=" in word]
        self.goals = [word for word in words if b"=" not in word]

    def tell(self, rest: list[str]) -> None:
        while rest:
            word = rest.pop(0)
            if word == "--":
                self.words.extend(os.fsencode(one) for one in rest)
                break
            if word == "-" or not word.startswith("-"):
                self.words.append(os.fsencode(word))
            elif word == "--json":
                self.in_json = True
            elif word == "--part" and self.command == "repair":
                self.part = True
            elif word[1:] in list(self.FLAGS[self.command]):
                self.flags.add(word[1:])
            elif word[1:] in list(self.VALUES[self.command]):
                if word[1:] in self.values or not rest:
                    raise Usage
                if rest[0].startswith("-") and rest[0] != "-":
                    raise Usage
                self.values[word[1:]] = os.fsencode(rest.pop(0))
            else:
                raise Usage
        for given in self.words + list(self.values.values()):
            try:
                given.decode("utf-8")
            except UnicodeDecodeError:
                raise Usage


def file_of(files: Files, name: bytes) -> bytes:
    """A file besides makefiles: 38 where it isn't there, 35 where it can't be read."""
    found = files.read(name)
    if found is None:
        raise Refused(38, name)
    if found == "failed":
        raise Refused(35, name, name="FileReadFailed")
    return found


def prepared(request: Request, files: Files) -> tuple[Graph, Book, set[bytes]]:
    """The graph, its book, and the names that the reading passed over."""
    makefile = read_makefile(
        files, request.values.get("f"), "r" not in request.flags, request.operands
    )
    rules = Rules(makefile)
    goals = goal_names(rules, request.goals)
    book = Book([], [], {})
    if "b" in request.values:
        book = read_book(file_of(files, request.values["b"]), goals)
    there = There(book.sources, book.fixed, makefile.texts, "b" not in request.values)
    return Graph(rules, goals, there), book, set(makefile.passed_over)
