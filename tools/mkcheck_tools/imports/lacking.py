"""What the recipe lacks at which a build by make failed, where another recipe makes it later."""

from __future__ import annotations

import os
import re
from collections.abc import Iterable
from dataclasses import dataclass

from mkcheck_tools.imports.builds import path_name
from mkcheck_tools.imports.copies import Copies
from mkcheck_tools.imports.database import Rule
from mkcheck_tools.imports.failing import failed_rule, failure_of_make
from mkcheck_tools.imports.gnumake import Make, Wait
from mkcheck_tools.run.paths import SeenPath

# A word of a command or of its output that may be the name of a file, and the names and folders
# that can be handed to make as they are.
WORD = re.compile(r"[\w.+-]+")
PLAIN = re.compile(r"[\w./+-]+")


@dataclass(frozen=True)
class Lack:
    """A recipe that fails in a build from nothing, and the targets without which it does."""

    target: str
    """The name of its node."""

    text: str
    """What failed, with the first line of the error."""

    waits: list[Wait]


def lacking(copies: Copies, shown: list[Make], built: list[Make]) -> Lack | None:
    """What the recipe lacks at which a build failed: the targets that it, or what it printed,
    names, that aren't there yet and that other recipes make; None where there is none."""
    failed = failed_rule(built[0], built)
    if failed is None or failed[1].double_colon:
        return None
    make, rule = failed
    failure = failure_of_make(copies.seen, built[0], built)
    words = set(WORD.findall("\n".join([*failure.commands, *failure.lines])))
    place = copies.place("built")
    waits = []
    for other in shown:
        for name in made_in(other.base.rules.values()):
            path = SeenPath(os.path.normpath(os.path.join(other.folder, name)))
            if os.path.basename(name) not in words or os.path.lexists(place.real(path)):
                continue
            maker = name if other.folder == make.folder else starter_in(make, other)
            if maker not in ("", rule.name):
                waits.append(Wait(make.folder, rule.name, maker))
    names = (make.folder, rule.name, *(wait.maker for wait in waits))
    if not waits or not all(map(PLAIN.fullmatch, names)):
        return None
    target = path_name(copies.seen, make.folder, rule.name)
    return Lack(target, failure.brief, list(dict.fromkeys(waits)))


def made_in(rules: Iterable[list[Rule]]) -> list[str]:
    """The files that recipes of a make make."""
    return [
        rule.name for one in rules for rule in one if rule.has_recipe and not rule.is_phony
    ]


def starter_in(make: Make, below: Make) -> str:
    """The target of a make whose recipe starts another one, maybe by others; empty where none
    does."""
    while below.parent is not None and below.parent.folder != make.folder:
        below = below.parent
    if below.parent is None:
        return ""
    return next(
        (
            rule.name
            for rules in below.parent.base.rules.values()
            for rule in rules
            if any(command is below.started_by for command in rule.commands)
        ),
        "",
    )


def without_waits(makes: Iterable[Make], waits: Iterable[Wait]) -> None:
    """Takes the prerequisites away by which recipes were let wait."""
    for make in makes:
        for wait in waits:
            for rule in make.base.rules.get(wait.target, []) if make.folder == wait.folder else ():
                rule.order_only = [name for name in rule.order_only if name != wait.maker]
