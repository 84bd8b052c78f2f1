"""`$*` in a rule for a target: POSIX asks for it in inference rules alone, and makes differ."""

from __future__ import annotations

import re
from collections.abc import Sequence

from mkcheck_tools.answers.graphs import Graph
from mkcheck_tools.gnu.built_in import has_suffixes
from mkcheck_tools.gnu.macros import Prober
from mkcheck_tools.gnu.predefined import VALUES
from mkcheck_tools.gnu.texts import Text
from mkcheck_tools.judge.notes import Kind, Note, Warn
from mkcheck_tools.judge.refusals import listed

STEM = re.compile(r"(?<!\$)(?:\$\$)*\$(?:\*|[({]\*[DF]?[)}:])")
REFERENCE = re.compile(r"\$[({]([^(){}$:]+)[)}:]|\$([A-Za-z_])")
SUFFIXES = ".SUFFIXES"
# The suffixes of mkcheck's default text.
OF_DEFAULT_TEXT = (".o", ".c", ".y", ".l", ".a", ".sh", ".f")


def warn_of_stem(graph: Graph, prober: Prober, text: Text, warn: Warn) -> None:
    """Warns of each target in whose rule `$*` stands, where GNU make gives it another value."""
    using = macros_with_stem(text)
    targets = dict.fromkeys(
        target
        for rule in text.rules
        if any(uses_stem(command, using) for command in rule.commands)
        for target in rule.targets
    )
    made = [target for target in targets if target in graph.targets and "%" not in target]
    if not made:
        return
    own = [name for rule in cleared(text) for name in rule]
    kept = has_suffixes(prober)
    theirs = [*VALUES["SUFFIXES"].split(), *own] if kept else own
    ours = [*OF_DEFAULT_TEXT, *own] if kept and "-r" not in prober.checker.options else own
    differing = [one for one in made if stem(one, theirs) != (stem(one, ours) or one)]
    if differing:
        name = differing[0]
        there = stem(name, theirs)
        said = (
            f"the commands of {listed(differing)} use $*, which is {there or 'empty'} in GNU make"
            f" and {stem(name, ours) or name} here: POSIX has it in inference rules alone; write"
            " the name, or use $@"
        )
        warn(Note("", Kind.STEM, said))


def macros_with_stem(text: Text) -> frozenset[str]:
    """The macros whose texts use `$*`, by themselves or by others."""
    found: set[str] = set()
    while True:
        more = {name for name, value in text.macros if uses_stem(value, found)} - found
        if not more:
            return frozenset(found)
        found |= more


def uses_stem(text: str, macros: frozenset[str] | set[str]) -> bool:
    """Whether a text uses `$*`, or one of these macros."""
    if STEM.search(text):
        return True
    names = (one or other for one, other in REFERENCE.findall(text)) if macros else ()
    return any(name in macros for name in names)


def cleared(text: Text) -> list[tuple[str, ...]]:
    """The suffixes that each line of the makefile adds, after the last one that clears the list."""
    found: list[tuple[str, ...]] = []
    for rule in text.rules:
        if SUFFIXES in rule.targets:
            found = [*found, rule.prerequisites] if rule.prerequisites else []
    return found


def stem(name: str, suffixes: Sequence[str]) -> str:
    """A name without the first of these suffixes in which it ends; empty where it ends in none."""
    found = (one for one in suffixes if name.endswith(one) and len(name) > len(one))
    suffix = next(found, None)
    return name[: -len(suffix)] if suffix else ""
