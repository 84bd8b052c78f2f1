"""Built-in rules of GNU make that mkcheck's default text lacks, where they make what has no recipe
here, or has another one; and macros that only its rules use.
"""

from __future__ import annotations

import os
from collections.abc import Iterable, Mapping

from mkcheck_tools.answers.graphs import Graph
from mkcheck_tools.gnu.macros import PROBE, Prober
from mkcheck_tools.judge.notes import Kind, Note, Warn
from mkcheck_tools.judge.refusals import listed

# By the suffix of what is made, the suffixes of what it is made from, in the order of GNU make 4.
LINKED = (".o", ".c", ".cc", ".C", ".cpp", ".p", ".f", ".F", ".m", ".r", ".s", ".S", ".mod", ".sh")
TEXINFO = (".texinfo", ".texi", ".txinfo")
RULES = {
    "": LINKED,
    ".o": (".c", ".cc", ".C", ".cpp", ".p", ".f", ".F", ".m", ".r", ".s", ".S", ".mod"),
    ".c": (".y", ".l", ".w"),
    ".s": (".S",),
    ".f": (".F", ".r"),
    ".m": (".ym", ".lm"),
    ".r": (".l",),
    ".p": (".web",),
    ".ln": (".c", ".y", ".l"),
    ".sym": (".def",),
    ".info": TEXINFO,
    ".dvi": (".tex", *TEXINFO),
    ".tex": (".web", ".w"),
}
# Macros that rules of GNU make use and those of the default text don't, by the suffixes of what is
# made, which may be none, and of what it is made from.
OF_COMPILING = ("CPPFLAGS", "TARGET_ARCH", "COMPILE.c", "OUTPUT_OPTION")
MACROS = {
    ("", ".c"): ("CPPFLAGS", "TARGET_ARCH", "LOADLIBES", "LDLIBS", "LINK.c"),
    ("", ".f"): ("TARGET_ARCH", "LOADLIBES", "LDLIBS", "LINK.f"),
    (".o", ".c"): OF_COMPILING,
    (".o", ".y"): (*OF_COMPILING, "YACC.y"),
    (".o", ".l"): (*OF_COMPILING, "LEX.l"),
    (".o", ".f"): ("TARGET_ARCH", "COMPILE.f", "OUTPUT_OPTION"),
    (".c", ".y"): ("YACC.y",),
    (".c", ".l"): ("LEX.l",),
}
# The suffixes of the default text, so that rules of the makefile for these are kept without it.
SUFFIXES = ".o .c .y .l .a .sh .f"
# A rule that needs no suffix on the list.
PLAIN = ".out"


# How many rules one after another are tried.
CHAINED = 3


def origin_of(name: str, there: frozenset[str], depth: int = CHAINED) -> str | None:
    """The file from which GNU make would make another one, by the first of its rules that fits; if
    none does, by several rules."""
    front, suffix = os.path.splitext(name)
    if suffix == PLAIN:
        return front if front in there else None
    found = [front + other for other in RULES.get(suffix, ())]
    direct = next((other for other in found if other in there), None)
    if direct is not None or depth == 1:
        return direct
    deeper = (origin_of(other, there, depth - 1) for other in found if other != name)
    return next((other for other in deeper if other not in (None, name)), None)


def warn_of_rules(graph: Graph, prober: Prober, files: Iterable[str], warn: Warn) -> bool:
    """Warns of each name without a recipe that GNU make would make by a rule of its own, and of
    each that it would make from another file than the default text of mkcheck does. Returns whether
    there was one."""
    if "-r" in prober.checker.options:
        return False
    there = frozenset(files) | frozenset(graph.names)
    found = {
        name: origin
        for name in graph.names
        if name not in graph.phony
        and (origin := origin_of(name, there)) is not None
        and (name not in graph.targets or origin != next(iter(graph.prerequisites[name]), origin))
    }
    others = inferred(prober, graph) if not graph.targets.isdisjoint(found) else frozenset()
    found = {
        name: origin
        for name, origin in found.items()
        if name not in graph.targets or name in others
    }
    if not all(name.endswith(PLAIN) for name in found) and not has_suffixes(prober):
        found = {name: origin for name, origin in found.items() if name.endswith(PLAIN)}
    present = frozenset(files)
    for name, origin in found.items():
        if name in graph.targets:
            here = f"{name} is made from {graph.prerequisites[name][0]} here"
        else:
            here = f"{name} {'counts as a source' if name in present else 'has no recipe'} here"
        text = (
            f"GNU make makes {name} from {origin} by a built-in rule, which mkcheck doesn't have:"
            f" {here}; write that rule into the makefile, or give -r to make, to mkcheck and to"
            " mkcheck-record"
        )
        warn(Note(name, Kind.BUILT_IN_RULE, text))
    return bool(found)


def warn_of_rule_macros(
    graph: Graph, prober: Prober, environment: Mapping[str, str], warn: Warn
) -> None:
    """Warns of each macro that the makefile or the environment sets, and that GNU make's rules use
    for targets which the default text of mkcheck makes without it."""
    if "-r" in prober.checker.options:
        return
    names = dict.fromkeys(name for names in MACROS.values() for name in names)
    own = dict(zip(names, values_of(prober, list(names))))
    values = {name: own[name] or environment.get(name, "") for name in names}
    if not any(values.values()):
        return
    made: dict[str, list[str]] = {}
    for target in sorted(inferred(prober, graph)):
        first = next(iter(graph.prerequisites[target]), "")
        suffixes = (os.path.splitext(target)[1], os.path.splitext(first)[1])
        for name in MACROS.get(suffixes, MACROS.get(("", suffixes[1]), ())):
            if values[name]:
                made.setdefault(name, []).append(target)
    for name, targets in made.items():
        who = "the makefile" if own[name] else "the environment"
        text = (
            f"{who} sets {name}, which GNU make uses in its own rule for {listed(targets)}, and the"
            " default rule of POSIX and mkcheck doesn't: write that rule, with its command, into"
            " the makefile"
        )
        warn(Note("", Kind.BUILT_IN_RULE, text))


def values_of(prober: Prober, names: list[str]) -> list[str]:
    """The values of macros; the name itself for one that mkcheck refuses to expand, and that no
    command here needs."""
    found = prober.tried([f"$({name})" for name in names], {})
    if found is not None:
        return found
    if len(names) == 1:
        return names
    middle = len(names) // 2
    return [*values_of(prober, names[:middle]), *values_of(prober, names[middle:])]


def inferred(prober: Prober, graph: Graph) -> frozenset[str]:
    """The targets whose commands are those of the default text."""
    bare = prober.with_options("-r")
    other = bare.ask(f".SUFFIXES: {SUFFIXES}\n", "", prober.checker.words)
    return graph.targets - other.targets if other is not None else frozenset()


def has_suffixes(prober: Prober) -> bool:
    """Whether the suffixes of the default text are still on the list, and so GNU make's on its."""
    asked = prober.with_files(f"{PROBE}-1.c", f"{PROBE}-2.sh")
    graph = asked.ask("", "", (*prober.checker.operands, f"{PROBE}-1.o", f"{PROBE}-2"))
    return graph is not None and graph.targets >= {f"{PROBE}-1.o", f"{PROBE}-2"}
