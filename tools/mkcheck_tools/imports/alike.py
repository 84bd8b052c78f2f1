"""Recipes that may leave an output as it was, so that ninja doesn't build what needs it.

In mkcheck's model a recipe that runs writes all its files, so what needs them runs too. With
`restat`, ninja stops at an output that was left as it was. So such a recipe is split. `OUTPUT@made`
has the prerequisites and the reads. For each output one recipe waits for `OUTPUT@made`, reads
nothing, and writes the output. So what needs an output is out of date by that output alone, and not
by what the command reads. It waits for all outputs, since one command makes them.

That is a build in which the output stays as it was. `passing_through` gives the one in which it
changes whenever what the command reads does.
"""

from __future__ import annotations

from dataclasses import replace

from mkcheck_tools.book.footprint_files import Footprints, Record
from mkcheck_tools.imports.builds import Build, Command, Kind, Node, Setting
from mkcheck_tools.imports.plain import is_phony, is_writable

COMMAND = ": restat"
HANDING_ON = Command(COMMAND)


def split_alike(build: Build, footprints: Footprints) -> None:
    """Splits all such recipes that were recorded, in the build and in its footprints."""
    for name in [name for name, node in build.nodes.items() if node.left_alike]:
        record = footprints.records.get(name)
        if record is not None and build.nodes[name].kind is Kind.FILE:
            if name in build.unmended and any(not footprints.is_fixed(one) for one in record.reads):
                build.problem(build.unmended[name], name)
            split(build, footprints, build.nodes[name], record)


def split(build: Build, footprints: Footprints, node: Node, record: Record) -> None:
    """Splits one recipe."""
    outputs = [node, *(build.nodes[name] for name in record.writes if is_output(build, name, node))]
    made = Node(f"{node.name}@made", piece_of=node.name)
    made.groups, made.order_only, made.late = node.groups, node.order_only, node.late
    made.first_only, made.commands, made.setting = node.first_only, node.commands, node.setting
    made.origin, made.known_as, made.folder = node.origin, node.known_as, node.folder
    build.nodes[made.name] = made
    names = {output.name for output in outputs}
    rest = [name for name in record.writes if name not in names]
    reads = list(record.reads)
    footprints.records[made.name] = Record(made.name, record.commands, reads, [made.name, *rest])
    for output in outputs:
        output.groups, output.order_only, output.late = [[]], [made.name], []
        output.first_only, output.setting, output.left_alike = [], Setting(), False
        output.commands = [HANDING_ON]
        footprints.records[output.name] = Record(output.name, [COMMAND], [], [output.name])
    if len(outputs) > 1:
        wait_for_all(build, names)


def passing_through(build: Build, footprints: Footprints) -> Build | None:
    """A build that was split, in which each output is out of date by what its command reads; None
    where nothing was split."""
    nodes = dict(build.nodes)
    for node in build.nodes.values():
        if node.commands != [HANDING_ON]:
            continue
        (made,) = node.order_only
        nodes[node.name] = replace(node, groups=[[made]], order_only=[])
        nodes[made] = by_its_reads(build, footprints, build.nodes[made])
    return replace(build, nodes=nodes) if nodes != build.nodes else None


def by_its_reads(build: Build, footprints: Footprints, made: Node) -> Node:
    """The part with the command, out of date by its reads, and by nothing that always runs."""
    groups = [[name for name in group if not is_phony(build, name)] for group in made.groups]
    record = footprints.records[made.name]
    own = {*record.writes, *(name for group in groups for name in group)}
    reads = [name for name in record.reads if not footprints.is_fixed(name) and name not in own]
    late = [name for name in made.late if not is_phony(build, name)]
    late += [name for name in reads if is_writable(name)]
    return replace(made, groups=groups, late=list(dict.fromkeys(late)))


def wait_for_all(build: Build, names: set[str]) -> None:
    """Lets what needs one of the outputs wait for all: one command makes them."""
    for other in build.nodes.values():
        if other.name not in names and names & set(other.prerequisites(later=False)):
            more = sorted(names - {name for group in other.groups for name in group})
            other.order_only = list(dict.fromkeys([*other.order_only, *more]))


def is_output(build: Build, name: str, leader: Node) -> bool:
    """Whether a file is a further output of the line with a recipe."""
    node = build.nodes.get(name)
    if node is None or node is leader or node.commands or not node.has_rule:
        return False
    return node.kind is Kind.FILE and [leader.name] in node.groups
