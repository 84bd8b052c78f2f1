"""Why the commands of a real build are taken and not those of `make -n`; what it alone shows."""

from __future__ import annotations

from mkcheck_tools.imports.database import Rule
from mkcheck_tools.imports.failing import failure_of_asking
from mkcheck_tools.imports.gnumake import Make
from mkcheck_tools.imports.make_folder import MakeFolder
from mkcheck_tools.imports.own_folders import essential_texts

# What follows where `make -n` fails, and what helps.
TO_ASK = "so an import after an edit builds all anew, unless `make -n` succeeds before a build"


def ran(makes: list[Make]) -> dict[tuple[object, ...], list[Rule]]:
    """The rules of each target that ran, by the key of its make and its name."""
    found: dict[tuple[object, ...], list[Rule]] = {}
    for make in makes:
        for name, rules in make.base.rules.items():
            if any(rule.ran for rule in rules):
                found.setdefault((make.key, name), rules)
    return found


def to_build(front: MakeFolder, shown: list[Make], built: list[Make]) -> str:
    """Why what `make -n` showed isn't enough for what a build did; empty where it is.

    Recipes that `make -n` alone shows are no reason: it takes each target for changed.
    """
    if failed := failure_of_asking(front.copies.seen, shown):
        return f"`make -n` fails {failed.replace(front.wrapper, 'make')}; {TO_ASK}"
    if len(built) > len(shown):
        return "it starts more makes"
    one_shell = any(make.transcript.is_one_shell for make in built)
    known = ran(shown)
    for key, rules in ran(built).items():
        if key not in known:
            return f"{key[1]} isn't run by it"
        pairs = list(zip(essential_texts(rules), essential_texts(known[key])))
        same = all(one == other or (one_shell and is_front(other, one)) for one, other in pairs)
        if not same or len(pairs) != len(essential_texts(rules)):
            return f"{key[1]} has other commands there"
    return ""


def is_front(text: str, whole: str) -> bool:
    """Whether lines are the first ones of a text."""
    return whole.startswith(text + "\n")


def take_unseen(built: list[Make], shown: list[Make]) -> None:
    """Adds to a real build the recipes that only `make -n` shows, since their targets were there.

    With `.ONESHELL` the texts of `make -n` replace those of the build, behind which output may
    stand.
    """
    known, done = ran(shown), ran(built)
    for make in built:
        for name, rules in make.base.rules.items():
            others = known.get((make.key, name), [])
            if len(others) != len(rules):
                continue
            # Another make of this folder may have run it, as that of `make all-recursive`.
            is_unseen = (make.key, name) not in done
            for rule, other in zip(rules, others):
                if is_unseen and not rule.ran and other.ran:
                    rule.commands, rule.ran = other.commands, True
                    if rule.recipe is None:
                        rule.recipe, rule.makefile, rule.line = (
                            other.recipe,
                            other.makefile,
                            other.line,
                        )
                elif make.transcript.is_one_shell and rule.ran and other.ran:
                    for command, text in zip(rule.commands, other.commands):
                        if is_front(text.text, command.text):
                            command.text = text.text
