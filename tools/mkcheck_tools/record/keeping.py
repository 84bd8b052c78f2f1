"""Keeps what a build is made from in a folder, for `mkcheck since`."""

from __future__ import annotations

import json
import os
import shutil
from collections.abc import Iterable, Mapping
from dataclasses import dataclass
from pathlib import Path

from mkcheck_tools.book.choices import Choice
from mkcheck_tools.faults import Fault

BOOK = "footprint.json"
WORDS = "words"
OPTIONS = "options"
CONDITIONS = "conditions.json"
OF_USER = ("user", "umask")


@dataclass(frozen=True)
class Made:
    """What a build is made from: the texts of its makefile by their paths where they are kept, its
    footprint file, its words and options, and what else its recipes go by, as a text."""

    texts: Mapping[str, bytes]
    book: str
    words: Iterable[str]
    options: Iterable[str]
    conditions: str

    def files(self) -> dict[str, bytes]:
        """The files that are kept."""
        return {
            **self.texts,
            BOOK: self.book.encode("utf-8"),
            WORDS: text_of_words(self.words),
            OPTIONS: text_of_words(option.removeprefix("./") for option in self.options),
            CONDITIONS: self.conditions.encode("ascii"),
        }


def read_texts(folder: str, names: Iterable[str]) -> dict[str, bytes]:
    """The texts of a makefile, as far as they are there, each by its path where they are kept."""
    found: dict[str, bytes] = {}
    for name in names:
        path, text = path_of(name), Path(folder, name)
        try:
            if text.is_file():
                found[path] = text.read_bytes()
        except OSError as error:
            raise Fault(f"--keep: {name} can't be read: {error.strerror or error}") from None
    return found


def text_of_conditions(
    conditions: Mapping[str, str],
    choice: Choice,
    macros: Mapping[str, str],
    shells: Iterable[str],
    links: Mapping[str, str],
) -> str:
    """On what recipes go beside their commands and files: a value that is the same text where all
    is the same. `conditions` are those of the state; `macros` are the variables to which the
    makefile gives other values, `links` lead to these names.
    """
    value = {
        "default_text": not choice.bare,
        "operands": [word for word in choice.words if "=" in word],
        "shells": sorted(shells),
        "macros": dict(macros),
        "links": dict(links),
        **{name: one for name, one in conditions.items() if name in ("path", "salt", *OF_USER)},
        "variables": {name[1:]: one for name, one in conditions.items() if name.startswith("$")},
    }
    return json.dumps(value, indent=1, sort_keys=True) + "\n"


def keep_build(kept: str, made: Made) -> None:
    """Writes what a build is made from into a folder of its own, in place of what was kept there
    before. Whatever ends it, that folder is whole, or isn't there.
    """
    refuse_other_folder(kept)
    goal = Path(os.path.realpath(kept))
    beside, before = (goal.with_name(f".{goal.name}.{os.getpid()}{end}") for end in ("", ".old"))
    files = made.files()
    try:
        try:
            for name, text in files.items():
                write_through(beside / name, text)
            if goal.exists():
                goal.replace(before)
            beside.replace(goal)
        finally:
            shutil.rmtree(beside, ignore_errors=True)
            shutil.rmtree(before, ignore_errors=True)
    except OSError as error:
        raise Fault(f"--keep {kept} can't be written: {error.strerror or error}") from None


def refuse_other_folder(kept: str) -> None:
    """Refuses to write over a folder that holds no build."""
    there = set(os.listdir(kept)) if os.path.isdir(kept) else set()
    if os.path.lexists(kept) and not os.path.isdir(kept):
        raise Fault(f"--keep {kept}: this is no folder; give another name, or remove it")
    if there and not {BOOK, WORDS} <= there:
        raise Fault(
            f"--keep {kept}: this folder holds other files than what a build is made from, so it"
            " isn't overwritten: give another name, or remove it"
        )


def path_of(name: str) -> str:
    """Where the text with this name is kept, from the folder in which all is."""
    parts = [part for part in name.split("/") if part not in ("", ".")]
    if ".." in parts:
        raise Fault(f"--keep: {name} lies above the project's folder, so it can't be kept")
    if parts in ([BOOK], [WORDS], [OPTIONS], [CONDITIONS]):
        raise Fault(f"--keep: the text {name} of the makefile needs another name, to be kept")
    return "/".join(parts)


def write_through(path: Path, text: bytes) -> None:
    """Writes a file that is whole on the disk before another one is put in place of what was."""
    path.parent.mkdir(parents=True, exist_ok=True)
    with path.open("wb") as file:
        file.write(text)
        file.flush()
        os.fsync(file.fileno())


def text_of_words(words: Iterable[str]) -> bytes:
    """A line for each word."""
    lines = list(words)
    if any(not word or "\n" in word for word in lines):
        raise Fault("--keep: a word that is empty or has a newline can't be kept")
    return "".join(f"{word}\n" for word in lines).encode("utf-8", "surrogateescape")
