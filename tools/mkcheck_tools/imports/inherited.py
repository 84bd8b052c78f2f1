"""Files whose commands may depend on the target for which they are made.

GNU make hands the macros of a target on to what that target needs. So a file that two targets need
is made by the commands of the one that wants it first.
"""

from __future__ import annotations

import re
from collections.abc import Iterable, Set
from dataclasses import dataclass

from mkcheck_tools.imports.builds import serial_order
from mkcheck_tools.imports.database import COMPUTED_NAME, WORD, Database, OwnMacro, Rule
from mkcheck_tools.imports.gnumake import Make

# A use of a macro whose name is computed: it may be any macro.
COMPUTED = re.compile(rf"{COMPUTED_NAME}|\$[({{](?:call|value|eval)\s+\$")


@dataclass
class Inherited:
    """A file, the targets whose macros its recipe may get, and whether it is made without them
    too."""

    name: str
    owners: list[str]
    is_free: bool


def inherited_in(make: Make, exported: set[str]) -> list[Inherited]:
    """The files of a make whose recipes ran, may use a macro of a target that needs them, and are
    reached without that target too. A file comes after all that it needs.

    `exported` has macros that some targets hand to their commands by the environment.
    """
    base = make.base
    wanted = reached(base, make.goals)
    macros = {name: own_macros(base, name) for name in wanted if name in base.rules}
    macros = {name: found for name, found in macros.items() if found and needs_of(base, name)}
    names = {name for found in macros.values() for name in found}
    outside = names & (exported | make.environment.keys())
    users = {
        name: outside | (mentioned(base, rules) & names)
        for name, rules in base.rules.items()
        if names and any(rule.ran and rule.commands for rule in rules)
    }
    owners: dict[str, list[str]] = {}
    for target, found in macros.items():
        for name in reached(base, needs_of(base, target)):
            if name != target and users.get(name, set()) & found:
                owners.setdefault(name, []).append(target)
    without = {
        target: set(reached(base, make.goals, {target}))
        for target in {target for found in owners.values() for target in found}
    }
    kept = []
    for name in wanted:
        if any(name in without[target] for target in owners.get(name, [])):
            is_free = name in reached(base, make.goals, set(owners[name]))
            kept.append(Inherited(name, owners[name], is_free))
    return kept


def own_macros(base: Database, name: str) -> set[str]:
    """The macros that a target hands on to what it needs."""
    own = [macro for rule in base.rules[name] for macro in rule.macros]
    own += [macro for macro in base.pattern_macros if is_like(name, macro.pattern)]
    return {macro.name for macro in own if not macro.is_private}


def is_like(name: str, pattern: str) -> bool:
    """Whether a name is one of a pattern."""
    front, _, end = pattern.partition("%")
    return name.startswith(front) and name.endswith(end) and len(name) > len(front) + len(end)


def needs_of(base: Database, name: str) -> list[str]:
    """What a file needs."""
    rules = base.rules.get(name, [])
    return [word for rule in rules for word in [*rule.needs, *rule.order_only]]


def reached(base: Database, names: Iterable[str], without: Set[str] = frozenset()) -> list[str]:
    """These files and all that they need, each after what it needs; not the files of `without` and
    what only they need."""
    return serial_order(names, lambda name: needs_of(base, name), without)


def mentioned(base: Database, rules: list[Rule]) -> set[str]:
    """The words of recipes, and of all macros that they may use: more than they use."""
    waiting = ["\n".join(rule.recipe or []) for rule in rules]
    found: set[str] = set()
    while waiting:
        text = waiting.pop()
        if COMPUTED.search(text):
            return {*base.values, *base.texts, *(m.name for m in all_macros(base))}
        more = set(WORD.findall(text)) - found
        found |= more
        waiting += [base.values[name] for name in more if name in base.values]
        waiting += [base.texts[name] for name in more if name in base.texts]
    return found


def all_macros(base: Database) -> list[OwnMacro]:
    """The macros of all targets and patterns."""
    own = [macro for rules in base.rules.values() for rule in rules for macro in rule.macros]
    return [*base.pattern_macros, *own]
