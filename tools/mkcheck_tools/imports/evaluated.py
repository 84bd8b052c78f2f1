"""Macros that recipes set by `$(eval ..)`, and files whose commands use what another recipe set.

GNU make expands a recipe when it runs it. So such a command is another one in a make that doesn't
run the recipe which sets the macro.
"""

from __future__ import annotations

import re
from collections import Counter
from dataclasses import dataclass

from mkcheck_tools.imports.database import WORD, Database, Rule
from mkcheck_tools.imports.gnumake import Make
from mkcheck_tools.imports.inherited import mentioned

EVAL = re.compile(
    r"\$[({]eval\s+(?:(?:override|export|private|define)\s+)*([\w.+-]+)\s*(=|::?:?=|\+=|\?=|!=|$)"
    r"([^\n]*)",
    re.MULTILINE,
)


@dataclass(frozen=True)
class Evaluated:
    """Files whose commands use macros that other recipes set, and these recipes."""

    users: tuple[str, ...]
    setters: tuple[str, ...]
    macros: tuple[str, ...]


def evaluated_in(make: Make) -> list[Evaluated]:
    """What to ask of a make: of all files together that use such macros and set none, and of
    recipes that go on from what others left in a macro, as those that count: of two with one text,
    since the first of all finds what it finds alone."""
    base = make.base
    ran = {name: rules for name, rules in base.rules.items() if has_run(rules)}
    evals = {name: evals_of(base, rules) for name, rules in ran.items()}
    setters = {name: {one.group(1) for one in found} for name, found in evals.items() if found}
    if not setters:
        return []
    known = set().union(*setters.values())
    uses = {name: mentioned(base, rules) & known for name, rules in ran.items()}
    asked = [of_users(ran, setters, uses, [name for name in uses if name not in setters])]
    seen: Counter[str] = Counter()
    for name in setters:
        text = "\n".join(line for rule in ran[name] for line in rule.recipe or [])
        seen[text] += 1
        if seen[text] <= 2:
            going_on = {one.group(1) for one in evals[name] if goes_on(one)}
            asked.append(of_users(ran, setters, {name: going_on}, [name]))
    return [one for one in asked if one.users and one.setters]


def of_users(
    ran: dict[str, list[Rule]],
    setters: dict[str, set[str]],
    uses: dict[str, set[str]],
    users: list[str],
) -> Evaluated:
    """Those of the users that use a macro which another recipe sets, and the recipes that set
    one. A recipe that runs in each make isn't among these."""
    used = set().union(*(uses[name] for name in users)) if users else set()
    others = [
        name
        for name, found in setters.items()
        if name not in users and found & used and not any(rule.is_phony for rule in ran[name])
    ]
    macros = used & set().union(*(setters[name] for name in others)) if others else set()
    found = [name for name in users if uses[name] & macros]
    return Evaluated(tuple(found), tuple(others), tuple(sorted(macros)))


def has_run(rules: list[Rule]) -> bool:
    """Whether a recipe of a file ran."""
    return any(rule.ran and rule.commands for rule in rules)


def goes_on(found: re.Match[str]) -> bool:
    """Whether a macro is set to something that depends on its value before."""
    name, operator, value = found.groups()
    own = rf"\$[({{]{re.escape(name)}[)}}]"
    return operator in ("+=", "?=") or re.search(own, value) is not None


def evals_of(base: Database, rules: list[Rule]) -> list[re.Match[str]]:
    """Each place at which a recipe, or a macro that it uses, sets a macro."""
    waiting = ["\n".join(rule.recipe or []) for rule in rules]
    seen: set[str] = set()
    found: list[re.Match[str]] = []
    while waiting:
        text = waiting.pop()
        found += EVAL.finditer(text)
        more = set(WORD.findall(text)) - seen
        seen |= more
        for values in (base.values, base.texts):
            waiting += [values[name] for name in more if name in values]
    return found
