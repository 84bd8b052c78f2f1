"""The lines of a makefile around a rule, with the words that are missing marked in it."""

from __future__ import annotations

import os
import re
from dataclasses import dataclass

from mkcheck_tools.answers.graphs import goes_on
from mkcheck_tools.report.escaping import markup

BEFORE, BEHIND = 2, 5
SHOWN_AT_MOST = 14
BYTES_AT_MOST = 240
WORDS_AT_MOST = 6
# The target of an inference rule: one suffix, or two.
INFERENCE = re.compile(r"(?:\.[^./\s]+){1,2}")


@dataclass
class Makefiles:
    """The texts of makefiles, each read once."""

    texts: dict[str, list[str]]

    def lines(self, name: str) -> list[str]:
        """The lines of a text; none where it can't be read."""
        if name not in self.texts:
            self.texts[name] = []
            if not os.path.isfile(name):
                return []
            try:
                with open(name, encoding="utf-8", errors="surrogateescape", newline="\n") as file:
                    self.texts[name] = file.read().split("\n")
            except OSError:
                return []
        return self.texts[name]

    def end_of_rule(self, name: str, line: int) -> int:
        """The last line that is joined with a line, both counted from 1."""
        lines = self.lines(name)
        while line < len(lines) and goes_on(lines[line - 1]):
            line += 1
        return line

    def rule_line(self, name: str, target: str) -> int | None:
        """The first line that begins a rule and has a target as it is written, with commands if
        there is one; no macro is expanded."""
        found = None
        lines = self.lines(name)
        for number, line in enumerate(lines, 1):
            if line.startswith(("\t", "#")) or ":" not in line:
                continue
            front, _, behind = line.partition(":")
            if target not in front.split():
                continue
            end = self.end_of_rule(name, number)
            if ";" in behind or (end < len(lines) and lines[end].startswith("\t")):
                return number
            found = found or number
        return found

    def excerpt(self, name: str, line: int, missing: list[str]) -> str:
        """The lines around a rule, as markup; empty where there is no such line."""
        lines = self.lines(name)
        if not 1 <= line <= len(lines):
            return ""
        end = self.end_of_rule(name, line)
        last = min(end, line + SHOWN_AT_MOST - 1)
        first, behind = max(1, line - BEFORE), last
        while (
            behind < min(len(lines), last + BEHIND)
            and lines[behind].startswith("\t")
            and behind - first < SHOWN_AT_MOST
        ):
            behind += 1
        missing = [] if is_for_others(lines[line - 1]) else missing
        spot = insertion(lines, line, end) if missing else (0, 0)
        shown = []
        for number in range(first, behind + 1):
            text = lines[number - 1]
            look = ' class="rule"' if line <= number <= end else ""
            if missing and number == spot[0]:
                body = with_insertion(text, spot[1], missing)
            else:
                body = shown_line(text)
            shown.append(f"<span{look}><i>{number}</i>{body}\n</span>")
        return f'<pre class="lines">{"".join(shown)}</pre>'


def is_for_others(text: str) -> bool:
    """Whether a rule line may be for other targets than those that it names: a pattern rule, an
    inference rule, or one whose targets a macro has. What one of them lacks isn't written there."""
    front, _, _ = text.partition(":")
    return "%" in front or "$" in front or INFERENCE.fullmatch(front.strip()) is not None


def insertion(lines: list[str], line: int, end: int) -> tuple[int, int]:
    """Line and column at which prerequisites of a rule end."""
    number, column, depth = line, 0, 0
    while number <= end:
        text = lines[number - 1]
        column = 0
        while column < len(text):
            one, two = text[column], text[column : column + 2]
            if two in ("$(", "${"):
                depth += 1
                column += 1
            elif one in ")}" and depth:
                depth -= 1
            elif one == "#" and text[column - 1 : column] != "\\" or (one == ";" and not depth):
                return number, len(text[:column].rstrip())
            column += 1
        number += 1
    text = lines[end - 1]
    return end, len(text.rstrip("\\ \t" if goes_on(text) else " \t"))


def with_insertion(text: str, column: int, missing: list[str]) -> str:
    """A line with the words that are missing."""
    words = missing[:WORDS_AT_MOST]
    more = f" … and {len(missing) - len(words)} more" if len(missing) > len(words) else ""
    front = text[:column]
    if len(front) > BYTES_AT_MOST:
        end = front[-BYTES_AT_MOST:]
        front = f"… {end.partition(' ')[2] or end}"
    inserted = " ".join(word if len(word) <= 80 else f"{word[:79]}…" for word in words)
    return f"{markup(front)} <ins>{markup(inserted + more)}</ins>{shown_line(text[column:])}"


def shown_line(text: str) -> str:
    """A line, or the front of one that is long."""
    if len(text) > BYTES_AT_MOST:
        front = text[:BYTES_AT_MOST]
        return f"{markup(front.rpartition(' ')[0] or front)} …"
    return markup(text)
