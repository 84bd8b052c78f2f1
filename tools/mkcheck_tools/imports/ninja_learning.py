"""What is known of a build of ninja only after it: dependency files, outputs, restat."""

from __future__ import annotations

import os
import re
from collections.abc import Mapping

from mkcheck_tools.faults import Fault
from mkcheck_tools.imports.builds import Kind
from mkcheck_tools.imports.depfiles import DepfileFault, read_depfile
from mkcheck_tools.imports.ninja import NinjaBuild
from mkcheck_tools.imports.ninja_files import Edge, canonical
from mkcheck_tools.imports.ninja_inputs import Inputs
from mkcheck_tools.imports.telling import Far
from mkcheck_tools.run.places import Place, run

# A time that no file has that was written in a build.
OLD = 1
OTHER_BYTES = b"These bytes were put here by mkcheck-import, to see whether they stay.\n"
# The line of an output in what `ninja -t deps` says.
NOTED = re.compile(r"(.*): #deps \d+, deps mtime ")


def learn(
    translation: NinjaBuild,
    built: Place,
    environment: Mapping[str, str],
    noted: Mapping[str, list[str]] | None,
    far: Far,
) -> None:
    """Adds to a translation what is known after a build, which lies in a place; `noted` has what
    ninja would note from dependency files, where it didn't build itself, and `far` tells how far
    that is."""
    folders: set[str] = set()
    noted = noted_by_ninja(translation, built, environment) if noted is None else noted
    reached = list(translation.reached)
    for edge in reached:
        if edge.value("deps"):
            add_late(translation, edge, noted.get(edge.outputs[0], []))
        else:
            learn_depfile(translation, edge, built)
        folders |= learn_outputs(translation, edge, built)
        test_phony(translation, edge, built)
    restat = [edge for edge in reached if edge.restat]
    for edge in far.each("tried", restat, lambda edge: edge.outputs[0]):
        try_restat(translation, edge, built, environment)
    for node in translation.build.nodes.values():
        found = [name for group in node.groups for name in group if name in folders]
        if found and node.has_rule and (node.commands or node.kind is Kind.FILE):
            node.groups = [[one for one in group if one not in folders] for group in node.groups]
            node.order_only = list(dict.fromkeys([*node.order_only, *found]))


def noted_by_ninja(
    translation: NinjaBuild, built: Place, environment: Mapping[str, str]
) -> dict[str, list[str]]:
    """The prerequisites that ninja noted from the dependency files of lines with `deps`."""
    said = run(["ninja", "-C", translation.seen, "-t", "deps"], built, environment)
    if said.status:
        raise Fault(f"ninja -t deps fails after a build: {said.output.strip()[-200:]}")
    found: dict[str, list[str]] = {}
    words: list[str] = []
    for line in said.output.splitlines():
        if line.startswith("    "):
            words.append(line[4:])
        elif match := NOTED.match(line):
            words = found[match.group(1)] = []
    return found


def learn_depfile(translation: NinjaBuild, edge: Edge, built: Place) -> None:
    """Reads the dependency file of a build line, where it has one."""
    depfile = edge.value("depfile", escape=str)
    if not depfile:
        return
    where = f"{edge.file}:{edge.line}"
    try:
        with open(translation.real(depfile, built), "rb") as file:
            text = file.read().decode("utf-8", "surrogateescape")
        add_late(translation, edge, read_depfile(text).prerequisites)
    except FileNotFoundError:
        translation.run_always(translation.leader(edge))
        translation.build.note(
            f"{where} doesn't write its depfile {depfile}, so ninja runs it in each build"
        )
    except OSError as error:
        translation.build.question(f"{depfile}, a depfile of {where}: {error.strerror}", depfile)
    except DepfileFault as fault:
        text = f"{depfile}, a depfile of {where}, is refused by ninja: {fault}"
        translation.build.question(text, depfile)


def add_late(translation: NinjaBuild, edge: Edge, paths: list[str]) -> None:
    """Adds the prerequisites that a dependency file names."""
    build, node = translation.build, translation.leader(edge)
    known = {name for group in node.groups for name in group} | {*node.late, node.name}
    before = len(node.late)
    inputs = Inputs()
    for path in paths:
        inputs.add(translation.resolver.resolve(canonical(path)))
    for path in dict.fromkeys(inputs.normal):
        name, maker = translation.name(path), translation.manifest.maker.get(path)
        if name in known or (name.startswith("/") and maker is None):
            continue
        if maker is not None and not maker.is_phony and id(maker) not in translation.leaders:
            where = f"{maker.file}:{maker.line}"
            build.note(f"{name} is made by {where}, which the goals don't reach")
            node.late.append(build.node(name).name)
        elif (found := translation.node_of(path)) is not None:
            node.late.append(found)
    node.told += node.late[before:]


def learn_outputs(translation: NinjaBuild, edge: Edge, built: Place) -> set[str]:
    """Looks at the outputs of a build line, and gives the names of those that are folders."""
    build, leader = translation.build, translation.leader(edge)
    where = f"{edge.file}:{edge.line}"
    files: list[str] = []
    missing: list[str] = []
    folders: set[str] = set()
    for path in edge.outputs:
        place, name = translation.real(path, built), translation.name(path)
        if os.path.isdir(place):
            folders.add(name)
        else:
            (files if os.path.lexists(place) else missing).append(name)
    if leader.name in folders:
        leader.kind = Kind.PHONY
        leader.uses_no_files = (
            f"{where} makes the folder {leader.name} and uses {{file}}, but the time of a folder"
            " says nothing of the files in it: let the line write a file, and have that as output"
        )
    if missing and files:
        translation.run_always(leader)
        for name in missing:
            build.nodes[name].kind = Kind.PHONY
        build.note(f"{where} doesn't write its output {missing[0]}, so ninja runs it in each build")
    return folders


def test_phony(translation: NinjaBuild, edge: Edge, built: Place) -> None:
    """Tests that the phony names which a build line needs are no files after a build."""
    for path in translation.through.get(id(edge), []):
        if os.path.exists(translation.real(path, built)):
            maker = translation.manifest.maker[path]
            translation.build.question(
                f"{path} is a phony name of {maker.file}:{maker.line}, and a file or a folder of"
                f" this name is there after a build. Then ninja compares its own time, and"
                f" {edge.outputs[0]} isn't made again when the inputs of {path} change: give it"
                " another name",
                edge.outputs[0],
            )


def try_restat(
    translation: NinjaBuild, edge: Edge, built: Place, environment: Mapping[str, str]
) -> None:
    """Runs the command of a line with `restat` again, and looks whether it writes its outputs."""
    build, where = translation.build, f"{edge.file}:{edge.line}"
    paths = [translation.real(path, built) for path in edge.outputs]
    paths = [path for path in paths if os.path.isfile(path)]
    for path in paths:
        os.utime(path, (OLD, OLD))
    enter = 'cd "$1" && exec /bin/sh -c "$2"'
    words = ["/bin/sh", "-c", enter, "sh", translation.seen, edge.value("command")]
    done = run(words, built, environment)
    left = [path for path in paths if os.path.isfile(path) and os.stat(path).st_mtime == OLD]
    if done.status:
        build.question(
            f"{where} has `restat`, and its command fails when it runs a second time, with status"
            f" {done.status}: so it can't be tried whether it always writes its outputs",
            edge.outputs[0],
        )
    elif left:
        translation.leader(edge).left_alike = True
        kept = [path for path in left if not is_mended(path, words, built, environment)]
        if kept:
            build.question(
                f"{where} has `restat`, and its command leaves {os.path.basename(kept[0])} as it is"
                " also where that is old and holds other bytes: so when what it reads changes, it"
                " may stay old, which isn't judged; let the command compare what it would write"
                " with what is there (cmp -s)",
                os.path.basename(kept[0]),
            )
        build.note(
            f"{where} has `restat`, and its command leaves {os.path.basename(left[0])} as it was"
            " when nothing changed. Then ninja doesn't build what needs that; so a change of what"
            " the command reads counts as reaching its outputs alone, and that a replay leaves them"
            " as they are is no fault",
            os.path.basename(left[0]),
        )
        if "symbolextractor" in edge.value("command"):
            build.relinked[translation.name(edge.inputs[0])] = translation.leader(edge).name
            build.note(
                f"{where} is Meson's: programs are linked again only when the symbols of"
                f" {edge.inputs[0]} change, so that they aren't made again when its other contents"
                " change is on purpose, and isn't judged",
                edge.inputs[0],
            )
    else:
        build.note(
            f"{where} has `restat`; its command was seen to always write its outputs",
            os.path.basename(edge.outputs[0]),
        )


def is_mended(path: str, words: list[str], built: Place, environment: Mapping[str, str]) -> bool:
    """Whether a command writes an output anew that is old and holds other bytes."""
    with open(path, "rb") as file:
        before = file.read()
    with open(path, "r+b") as file:
        file.write(OTHER_BYTES)
        file.truncate()
    os.utime(path, (OLD, OLD))
    run(words, built, environment)
    with open(path, "rb") as file:
        after = file.read()
    if after != before:
        with open(path, "r+b") as file:
            file.write(before)
            file.truncate()
    return after == before
