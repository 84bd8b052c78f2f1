"""The build that is to be recorded: its graph, its files, and how makes would read it."""

from __future__ import annotations

import os
import re
import sys
from collections.abc import Mapping
from dataclasses import dataclass, field
from pathlib import Path

from mkcheck_tools.answers.checkers import Checker, find_checker
from mkcheck_tools.answers.graphs import Graph
from mkcheck_tools.answers.unrecorded import Unrecorded, asked_graph
from mkcheck_tools.gnu.built_in import warn_of_rule_macros, warn_of_rules
from mkcheck_tools.gnu.flags import warn_of_given_options, warn_of_other_reading
from mkcheck_tools.gnu.macros import (
    Prober,
    handed_down,
    refuse_absent_compiler,
    warn_of_environment,
    with_shell,
)
from mkcheck_tools.gnu.predefined import refuse_predefined
from mkcheck_tools.gnu.remade import made_first, warn_of_goal, warn_of_remade
from mkcheck_tools.gnu.searched import warn_of_searched, why_not_found
from mkcheck_tools.gnu.stems import warn_of_stem
from mkcheck_tools.gnu.texts import (
    FAILED_RUN_AGAIN,
    ignoring,
    is_strict,
    names_of_texts,
    plainly_included,
    refuse_mark,
    text_of,
)
from mkcheck_tools.gnu.waits import warn_of_wait
from mkcheck_tools.judge.linked import Over, names_over_links
from mkcheck_tools.judge.notes import Kind, Note, Warn
from mkcheck_tools.judge.refusals import check_opaque
from mkcheck_tools.replay.verdicts import check_trust
from mkcheck_tools.record.keeping import read_texts
from mkcheck_tools.record.leaving import left_over, without
from mkcheck_tools.record.request import Request
from mkcheck_tools.run.folders import Naming, sources_in
from mkcheck_tools.run.paths import Name, RealPath, unbound
from mkcheck_tools.run.places import Place

VARYING_HELP = "use $?, which is empty here: write $^"


@dataclass(frozen=True)
class Build:
    """What is to be recorded. `varying` are the targets whose commands use `$?`, and `macros` has
    variables to which the makefile gives other values. `texts` are those of the makefile, by the
    paths at which they are to be kept, if they are. `left` are files that are left over."""

    prober: Prober
    graph: Graph
    varying: frozenset[str]
    macros: Mapping[str, str]
    texts: Mapping[str, bytes]
    left: frozenset[str]
    flags: str
    """The options of the shell that the makefile gives, if any."""

    over: Mapping[Name, Over] = field(default_factory=dict)
    """The names that the makefile has for files over links."""

    @property
    def unrecorded(self) -> Unrecorded:
        """The build as it was before."""
        return self.prober.build


def build_of(request: Request, scratch: RealPath, warn: Warn) -> Build:
    """The build that is asked for. What makes would do otherwise is told, or refused."""
    choice, folder = request.choice, request.folder
    program = find_checker(Path(sys.argv[0]).resolve().parent)
    checker = Checker(program, Place.of(folder), choice.options, choice.words)
    naming = Naming(unbound(folder), choice.fixed)
    hidden = request.hidden
    sources = [name for name in sources_in(folder, naming) if name not in hidden]
    refuse_mark(folder, plainly_included(folder, makefile_of(request)))
    fixed, prefixes = list(choice.fixed), list(choice.prefixes)
    unrecorded = Unrecorded(checker, fixed, sources, scratch, prefixes)
    unrecorded, graph = asked_graph(unrecorded, why_not_found)
    left = left_over(request, unrecorded, graph)
    if left:
        unrecorded, graph = without(left, unrecorded)
    warn_of_prefixes(folder, choice.prefixes, warn)
    if choice.makefile is None and os.path.exists(os.path.join(folder, "GNUmakefile")):
        text = "GNU make reads GNUmakefile first, which isn't judged here; -f GNUmakefile judges it"
        warn(Note("", Kind.OTHER_MAKEFILE, text))
    check_trust(choice.trust.targets, graph.recipes)
    check_opaque(choice.opaque, graph.recipes)
    prober = Prober(unrecorded)
    refuse_predefined(graph, prober, warn)
    names = names_of_texts(prober)
    refuse_mark(folder, names)
    texts = {} if request.keep is None else read_texts(folder, names)
    text_of_makefile = text_of(prober)
    (flags,) = prober.values(".SHELLFLAGS")
    graph = with_shell(graph, prober, is_strict(flags, text_of_makefile), warn)
    graph = ignoring(graph, text_of_makefile)
    refuse_absent_compiler(graph)
    warn_of_stem(graph, prober, text_of_makefile, warn)
    warn_of_makes(graph, prober, choice.operands, warn)
    varying = warn_of_varying(unrecorded, warn)
    macros = handed_down(prober, choice.operands)
    over = names_over_links(folder, graph.names)
    return Build(prober, graph, frozenset(varying), macros, texts, left, flags, over)


def warn_of_varying(build: Unrecorded, warn: Warn) -> list[str]:
    """Warns of each recipe that uses `$?`, whose value no recording has, and returns the targets of
    these."""
    found = build.varying()
    for target in found:
        warn(Note(target, Kind.NEWER, f"the commands of {target} {VARYING_HELP}"))
    return found


def warn_of_makes(graph: Graph, prober: Prober, operands: dict[str, str], warn: Warn) -> None:
    """Warns of what makes would read, choose or make otherwise."""
    warn_of_environment(graph, prober, operands, warn)
    made = made_first(prober)
    warn_of_remade(prober, made, warn)
    warn_of_goal(graph, prober, made, warn)
    warn_of_wait(graph, prober, warn)
    warn_of_searched(graph, prober, prober.files, warn)
    warn_of_given_options(os.environ, warn)
    warn_of_other_reading(lambda name: prober.values(name)[0], warn)
    warn_of_rule_macros(graph, prober, os.environ, warn)
    if not warn_of_rules(graph, prober, prober.files, warn) and not graph.recipes:
        text = "the goals reach no recipe: is a macro misspelt?"
        warn(Note("", Kind.UNREACHED, text))


def warn_of_prefixes(folder: str, prefixes: tuple[str, ...], warn: Warn) -> None:
    """Warns of each prefix that was given under which no file can have its name."""
    for prefix in prefixes:
        inside = os.path.relpath(os.path.realpath(os.path.join(folder, prefix)), folder)
        if not os.path.isdir(os.path.join(folder, prefix)):
            warn(Note("", Kind.PREFIX, f"--fixed {prefix}: there is no such folder"))
        elif os.path.isabs(prefix) and inside.split("/")[0] not in (".", ".."):
            text = (
                f"--fixed {prefix}: files of the project are named from its folder, so none lies"
                f" under this prefix; write --fixed {inside}/"
            )
            warn(Note("", Kind.PREFIX, text))


def removes_on_error(request: Request) -> bool:
    """Whether what a recipe that failed left never counts as done: the makefile has GNU make remove
    it, or was written for a tool that runs the recipe again."""
    try:
        path = Path(request.folder, makefile_of(request))
        text = path.read_text(encoding="utf-8", errors="replace")
    except OSError:
        return False
    if FAILED_RUN_AGAIN in text.splitlines():
        return True
    return re.search(r"(?m)^\.DELETE_ON_ERROR[ \t]*:", text) is not None


def makefile_of(request: Request) -> str:
    """The name of the makefile."""
    if request.choice.makefile is not None:
        return request.choice.makefile
    there = os.path.exists(os.path.join(request.folder, "makefile"))
    return "makefile" if there else "Makefile"
