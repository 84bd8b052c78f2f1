"""Commands that make the folder of their target, which a recipe may have only where it isn't there.

`$(if $(wildcard $(@D)),,mkdir -p $(@D))` is such a line. `mkdir -p` changes nothing where the
folder is there, so recipes that differ by such commands alone do the same, and the longer one
stands for both. So it is with `$(if $(wildcard $(@D)),,@echo MKDIR $(@D);$(shell mkdir -p $(@D)))`:
a command that only prints makes nothing.
"""

from __future__ import annotations

import os
import re
import shlex

from mkcheck_tools.imports.database import Rule, Shown
from mkcheck_tools.imports.gnumake import Make

# A command that makes folders, and the rest of the line.
MAKING = re.compile(r"\s*(?:mkdir (?:-p|--parents)|install -d)\s+([^;&|<>`$()\n]+)(;|&&|$)")
# A command that prints words, and the rest of the line.
PRINTING = re.compile(
    r"""\s*echo(?:\s+(?:'[^'\n]*'|"[^"$`\\\n]*"|[^;&|<>`$()'"\\#\n])*)?(?:;|&&|$)"""
)


def without_folder(text: str, target: str) -> str:
    """A command without what makes the folder of its target, or one above it, and what only
    prints, at its front."""
    folder = os.path.normpath(os.path.dirname(target))
    while found := PRINTING.match(text) or made_above(text, folder):
        text = text[found.end() :]
    return text.strip()


def made_above(text: str, folder: str) -> re.Match[str] | None:
    """The front of a command that makes a folder, or one above it."""
    found = MAKING.match(text)
    try:
        words = shlex.split(found.group(1)) if found else []
    except ValueError:
        return None
    names = [os.path.normpath(word) for word in words]
    is_own = all(folder == name or folder.startswith(name + "/") for name in names)
    return found if is_own else None


def essential(rule: Rule) -> list[tuple[str, Shown]]:
    """The commands of a rule that do more, each with its text for that."""
    texts = ((without_folder(command.text, rule.name), command) for command in rule.commands)
    return [(text, command) for text, command in texts if text]


def essential_texts(rules: list[Rule]) -> list[str]:
    """The texts of these commands."""
    return [text for rule in rules for text, _ in essential(rule)]


def take_longer(makes: list[Make], others: list[Make]) -> None:
    """Gives recipes the commands that make their folders, where the same recipe has them in other
    makes."""
    known: dict[tuple[object, ...], list[Rule]] = {}
    for make in others:
        for name, rules in make.base.rules.items():
            if any(rule.ran for rule in rules):
                known.setdefault((make.key, name), rules)
    for make in makes:
        for name, rules in make.base.rules.items():
            found = known.get((make.key, name), [])
            for rule, other in zip(rules, found if len(found) == len(rules) else []):
                if rule.ran and other.ran:
                    lengthen(rule, other)


def lengthen(rule: Rule, other: Rule) -> None:
    """Gives one recipe the commands of another one that make the folder too."""
    own, more = essential(rule), essential(other)
    size = sum(len(command.text) for command in rule.commands)
    is_longer = sum(len(command.text) for command in other.commands) > size
    if not is_longer or [text for text, _ in own] != [text for text, _ in more]:
        return
    # The makes that a command starts are known by the command itself.
    mine = {id(theirs): command for (_, command), (_, theirs) in zip(own, more)}
    found = []
    for command in other.commands:
        kept = mine.get(id(command), command)
        kept.text = command.text
        found.append(kept)
    rule.commands = found
