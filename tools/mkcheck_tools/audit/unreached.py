"""The targets of a makefile that the goals of an audit don't need, so that it says nothing of
them."""

from __future__ import annotations

import os
import re
from collections.abc import Iterator
from dataclasses import dataclass

from mkcheck_tools.answers.graphs import goes_on, read_graph
from mkcheck_tools.audit.makefile_lines import Sources
from mkcheck_tools.audit.readers import NINJA, POSIX, Reader, Wanted, checker_of
from mkcheck_tools.report.escaping import shortened

TRANSLATED = os.path.join(".mkcheck", "makefile")
NAMES_AT_MOST = 6
RULE = re.compile(r"([^\s:#=][^:=#]*?)\s*&?::?(?![:=])(.*)", re.DOTALL)
# A name that stands for itself alone, and may be a goal.
PLAIN = re.compile(r"(?!\.[^/]*$)[^$%()*?\[\]\\~]+")
OPENED = re.compile(r"\s*(?:ifeq|ifneq|ifdef|ifndef)\b")
CLOSED = re.compile(r"\s*endif\b")
DEFINED = re.compile(r"\s*(?:override\s+|export\s+)*define\b")
ENDED = re.compile(r"\s*endef\b")
NOTHING = re.compile(r"\s*(?:#.*)?$", re.DOTALL)


@dataclass
class Rule:
    """The plain targets of a rule, and whether there are commands for them."""

    targets: list[str]
    has_commands: bool


def unreached(wanted: Wanted, reader: Reader) -> str:
    """A sentence on the targets with commands that the goals don't need; empty where there is
    none, or no makefile."""
    if reader.kind == NINJA:
        return ""
    sources = Sources(wanted.root)
    if reader.kind == POSIX:
        reached = set(read_graph(checker_of(wanted).ask("graph").shown).nodes)
    else:
        translated = rules_in(sources.lines(TRANSLATED))
        reached = {name for rule in translated for name in rule.targets}
    folder = os.path.dirname(reader.path) or "."
    rules = (rule for rule in rules_in(sources.lines(reader.path)) if rule.has_commands)
    targets = dict.fromkeys(target for rule in rules for target in rule.targets)
    names = [
        one for one in targets if not reached & {one, os.path.normpath(os.path.join(folder, one))}
    ]
    return f"not looked at: {listed(names)} (name goals to look at them)" if names else ""


def rules_in(lines: list[str]) -> list[Rule]:
    """The rules of a makefile, in their order, but for those in conditionals and definitions."""
    found: list[Rule] = []
    last, depth, is_defined = None, 0, False
    for line in joined(lines):
        if is_defined or DEFINED.match(line):
            is_defined = not ENDED.match(line)
        elif line.startswith("\t"):
            if last is not None:
                last.has_commands = True
        elif OPENED.match(line) or CLOSED.match(line):
            depth += 1 if OPENED.match(line) else -1
        elif not NOTHING.match(line):
            last = rule_of(line)
            found += [last] if last is not None and depth == 0 else []
    return found


def rule_of(line: str) -> Rule | None:
    """The rule that a line begins; None where it begins none."""
    matched = RULE.match(line)
    if matched is None:
        return None
    names = [name for name in matched[1].split() if PLAIN.fullmatch(name)]
    return Rule(names, bool(matched[2].partition("#")[0].partition(";")[2].strip()))


def joined(lines: list[str]) -> Iterator[str]:
    """The lines, each with those in which it goes on."""
    parts: list[str] = []
    for line in lines:
        parts.append(line)
        if not goes_on(line):
            yield "\n".join(parts)
            parts = []
    if parts:
        yield "\n".join(parts)


def listed(names: list[str]) -> str:
    """Some names, and how many more there are."""
    more = len(names) - NAMES_AT_MOST
    shown = ", ".join(map(shortened, names[:NAMES_AT_MOST]))
    return shown + (f" and {more} more" if more > 0 else "")
