"""Dependency files that compilers write, read as ninja reads them."""

from __future__ import annotations

import re
from dataclasses import dataclass, field

# Each pattern, with what becomes of the text that it matches. They are tried in this order.
ESCAPED_BLANK = re.compile(r"(?:\\\\)*\\ ")
BACKSLASHES_AND_BLANK = re.compile(r"(?:\\\\)+ ")
ESCAPED_HASH = re.compile(r"\\+#")
TARGET_COLON = re.compile(r"\\+:(?=[\0 \r\n\t]|\Z)")
ESCAPED_COLON = re.compile(r"\\+:")
DOLLAR = re.compile(r"\$\$")
PLAIN = re.compile(r"\\+[^\0\r\n]|[a-zA-Z0-9+,/_:.~()}{%=@\[\]!\x80-\U0010ffff-]+")
CONTINUED = re.compile(r"\\\r?\n")
NEWLINE = re.compile(r"\r?\n")


class DepfileFault(Exception):
    """A dependency file that ninja refuses."""


@dataclass
class Depfile:
    """The targets and the prerequisites that a dependency file names, each once."""

    targets: list[str] = field(default_factory=list)
    prerequisites: list[str] = field(default_factory=list)


def read_depfile(text: str) -> Depfile:
    """Reads a dependency file. Raises `DepfileFault` where ninja refuses it."""
    found = Depfile()
    place, in_targets, have_target, poisoned = 0, True, False, False
    while place < len(text):
        name, place, newline = next_name(text, place)
        is_prerequisite = not in_targets
        if name.endswith(":"):
            name = name[:-1]
            in_targets, have_target = False, True
        if name:
            if name not in found.prerequisites:
                if not is_prerequisite:
                    if name not in found.targets:
                        found.targets.append(name)
                elif poisoned:
                    raise DepfileFault("a prerequisite has prerequisites itself")
                else:
                    found.prerequisites.append(name)
            elif not is_prerequisite:
                poisoned = True
        if newline:
            in_targets, poisoned = True, False
    if not have_target and (found.targets or found.prerequisites):
        raise DepfileFault("there is no target in it")
    return found


def next_name(text: str, place: int) -> tuple[str, int, bool]:
    """A name without its escapes, where it ends, and whether a rule ends there."""
    parts: list[str] = []
    while place < len(text):
        if match := ESCAPED_BLANK.match(text, place):
            parts.append("\\" * (len(match.group()) // 2 - 1) + " ")
        elif match := BACKSLASHES_AND_BLANK.match(text, place):
            parts.append(match.group()[:-1])
            return "".join(parts), match.end(), False
        elif match := ESCAPED_HASH.match(text, place):
            parts.append("\\" * (len(match.group()) - 2) + "#")
        elif match := TARGET_COLON.match(text, place):
            parts.append(match.group())
            return "".join(parts), match.end(), False
        elif match := ESCAPED_COLON.match(text, place):
            parts.append("\\" * (len(match.group()) - 2) + ":")
        elif match := DOLLAR.match(text, place):
            parts.append("$")
        elif match := PLAIN.match(text, place):
            parts.append(match.group())
        elif match := CONTINUED.match(text, place):
            return "".join(parts), match.end(), False
        elif match := NEWLINE.match(text, place):
            return "".join(parts), match.end(), True
        else:
            return "".join(parts), place + 1, False
        place = match.end()
    return "".join(parts), place, False
