"""The footprint file of a recording: its sources, its fixed prefixes, and that it says enough."""

from __future__ import annotations

from dataclasses import replace

from mkcheck_tools.answers.graphs import Graph
from mkcheck_tools.answers.unrecorded import Unrecorded
from mkcheck_tools.book.footprint_files import Footprints, Record
from mkcheck_tools.faults import Fault, RecipeFault
from mkcheck_tools.judge.footprints import Footprint
from mkcheck_tools.run.folders import is_of_versions
from mkcheck_tools.run.toolchains import fixed_prefixes

BUILT_BEFORE = (
    "the folder holds files that recipes write, and without them the makefile means something else."
    " They were built before, so remove them, and record again:"
)

EDITED = (
    "the makefile doesn't mean any more what it meant when the recording began: a text of it was"
    " edited or made while recipes ran; record again"
)


def used(asked: list[str], names: set[str]) -> list[str]:
    """The prefixes that were asked for, and of the others those under which a name is."""
    own = [prefix for prefix in fixed_prefixes() if any(name.startswith(prefix) for name in names)]
    return list(dict.fromkeys([*own, *asked]))


def make_book(build: Unrecorded, graph: Graph, footprints: list[Footprint]) -> Footprints:
    """The footprint file.

    Its sources are the files that the graph names and that recipes read, and none that recipes
    write.
    """
    refuse_phony_reads(graph, build.files, footprints)
    written = {name for footprint in footprints for name in footprint.writes}
    names = {
        *graph.names,
        *written,
        *(name for footprint in footprints for name in footprint.reads),
    }
    made = {*graph.targets, *graph.phony}
    fixed = used(build.prefixes, names)
    sources = [
        name for name in build.files if name in names and name not in written and name not in made
    ]
    if not is_same(replace(build, fixed=fixed, files=sources), graph):
        if not is_same(build, graph):
            raise RecipeFault(EDITED)
        raise meaning_fault(replace(build, fixed=fixed), graph, footprints)
    records = [
        Record(one.recipe.target, one.recipe.lines, [*one.reads], [*one.writes])
        for one in footprints
    ]
    by_target = {record.target: record for record in records}
    return Footprints(fixed, sources, by_target, graph.goals)


def is_same(build: Unrecorded, graph: Graph) -> bool:
    """Whether the makefile means the same over other files."""
    try:
        return build.graph().text == graph.text
    except Fault:
        return False


def refuse_phony_reads(graph: Graph, files: list[str], footprints: list[Footprint]) -> None:
    """Refuses reads of a file that has a phony target's name and that no recipe made."""
    there = graph.phony.intersection(files)
    for footprint in footprints:
        for name in footprint.reads:
            if name in there:
                raise RecipeFault(
                    f"the recipe of {footprint.recipe.target} reads the file {name}, but {name} is"
                    " a phony target, and make doesn't look at a file of that name; give one of"
                    " the two another name",
                    [footprint.recipe.target],
                )
        there = there.difference(footprint.writes)


def meaning_fault(build: Unrecorded, graph: Graph, footprints: list[Footprint]) -> RecipeFault:
    """The fault where the makefile means something else without the files that recipes write; of
    the recipes that write a source, if that is the cause."""
    writers: dict[str, str] = {
        name: footprint.recipe.target for footprint in footprints for name in footprint.writes
    }
    named = [
        name
        for name in build.files
        if name in writers and name in graph.names and name not in graph.targets
    ]
    try:
        replace(build, files=[name for name in build.files if name not in writers]).graph()
    except Fault:
        text = "\n".join(
            f"the recipe of {writers[name]} writes {name}, which the makefile takes for a source,"
            f" since no rule makes it; give {name} a rule, or let the recipe write a file of"
            " another name"
            for name in named
        )
        return RecipeFault(text, [writers[name] for name in named])
    built = [name for name in build.files if name in writers and not is_of_versions(name)]
    return RecipeFault("\n\t".join([BUILT_BEFORE, *built]))
