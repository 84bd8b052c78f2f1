"""A refusal of mkcheck, as `check --json` prints it."""

from __future__ import annotations

import os
from dataclasses import dataclass
from itertools import islice

from mkcheck_tools.answers.meanings import meaning
from mkcheck_tools.answers.members import Members
from mkcheck_tools.faults import Fault

BAD_NAME, NO_MAKEFILE, NO_RULE, CYCLE = "BadName", "NoMakefile", "NoRule", "Cycle"
# The kinds of words of the command line that can be refused.
GOAL, OPERAND = "goal", "operand"
SHOWN_AT_MOST = 200


@dataclass(frozen=True)
class Refusal:
    """A refusal: its number, its name, the names that it is about, its sentence, how `check` prints
    it, and its place if it has one: a line of a file, or the number of an operand or of a goal."""

    number: int
    name: str
    names: tuple[str, ...]
    """The names of targets and files in its text."""

    sentence: str
    """What is said of it to people, with its place, its name and its words."""

    text: str
    word: str | None = None
    """The word of the makefile that is no name, where that is why."""

    file: str | None = None
    line: int | None = None
    is_of_word: bool = False
    """Whether its place is a word of the command line."""

    @property
    def is_of_file(self) -> bool:
        """Whether it is at a line of a file."""
        return self.file is not None and not self.is_of_word

    def is_shown(self, makefile: str) -> bool:
        """Whether its line may be shown: that of the makefile, and of files below the folder. One
        of another file, which a makefile includes, may be none of the project's."""
        file = self.file or "/"
        return self.is_of_file and (file == makefile or not file.startswith(("/", "../")))

    def shown(self, makefile: str, folder: str = "") -> str:
        """The line of the file, if it may be shown and can be read, by a makefile and its folder;
        else nothing."""
        if self.file is None or self.line is None or not self.is_shown(makefile):
            return ""
        return line_of(os.path.join(folder, self.file), self.line)

    @property
    def bad_name(self) -> str:
        """The word that is no name, where it is refused as one."""
        return (self.word or "") if self.name == BAD_NAME else ""


class Refused(Fault):
    """mkcheck refused the makefile. `sentence` is said in place of the usual one, and `line` is the
    line of the makefile, which is shown with its place where the refusal has names alone."""

    def __init__(self, refusal: Refusal, sentence: str | None = None, line: str = "") -> None:
        self.refusal = refusal
        if sentence is None:
            word = refusal.file if refusal.is_of_word else None
            sentence = meaning(refusal.number, word, refusal.bad_name)
        text = f"mkcheck graph: {refusal.text}{': ' if sentence else ''}{sentence}"
        place = f"{refusal.file}:{refusal.line}"
        front = "" if place in refusal.text.split() else f"{place}: "
        super().__init__(f"{text}\n\t{front}{line}" if line else text)

    @property
    def missing(self) -> str | None:
        """The name that no rule makes and that is no source, where that was the reason."""
        return self.refusal.names[0] if self.refusal.name == NO_RULE else None


def refusal_of(value: Members) -> Refusal:
    """A refusal by its members."""
    word = None if value.is_null("word") else value.text("word")
    names = value.texts("names")
    number, name, text = value.number("number"), value.text("name"), value.text("text")
    if name == NO_RULE and not names:
        raise value.wrong("names", "list of a name")
    file, line, is_of_word = place_of(value)
    sentence = value.text("sentence")
    return Refusal(number, name, names, sentence, text, word, file, line, is_of_word)


def place_of(value: Members) -> tuple[str | None, int | None, bool]:
    """The place of a refusal: a file and a line of it, or `goal` or `operand` and a number among
    these; and whether it is the latter."""
    if not value.is_null("place"):
        place = value.inner("place")
        return place.text("file"), place.number("line"), False
    if value.is_null("argument"):
        return None, None, False
    argument = value.inner("argument")
    kind = argument.text("kind")
    if kind not in (GOAL, OPERAND):
        raise argument.wrong("kind", "goal or operand")
    return kind, argument.number("number"), True


def line_of(path: str, number: int) -> str:
    """A line of a file, or its front; nothing where it can't be read. What doesn't show is a
    question mark."""
    if not os.path.isfile(path):
        return ""
    try:
        with open(path, encoding="utf-8", errors="replace", newline="\n") as lines:
            found = next(islice(lines, number - 1, None), "")
    except OSError:
        return ""
    found = found.removesuffix("\n")
    end = " .." if len(found) > SHOWN_AT_MOST else ""
    front = found[:SHOWN_AT_MOST]
    return "".join(one if one == "\t" or one.isprintable() else "?" for one in front) + end
