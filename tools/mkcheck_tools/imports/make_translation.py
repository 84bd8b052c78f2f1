"""The translation of a build of GNU make, with what make knows after it where it was made."""

from __future__ import annotations

import contextlib
import os

from mkcheck_tools.gnu.remade import is_dependency_file
from mkcheck_tools.imports.answers import counted
from mkcheck_tools.imports.builds import Build, in_folder, path_name
from mkcheck_tools.imports.depfiles import DepfileFault, read_depfile
from mkcheck_tools.imports.environments import Trier
from mkcheck_tools.imports.gnumake import Make, content, last_words, outer_environment, passing
from mkcheck_tools.imports.later import add_later
from mkcheck_tools.imports.leaving import leave_alone
from mkcheck_tools.imports.make_built import MakeBuilt
from mkcheck_tools.imports.make_folder import MakeFolder, MakeShown
from mkcheck_tools.imports.overlaps import name_overlaps
from mkcheck_tools.imports.own_folders import take_longer
from mkcheck_tools.imports.real_commands import take_unseen, to_build
from mkcheck_tools.imports.rereading import changed, place_of
from mkcheck_tools.imports.telling import Far
from mkcheck_tools.imports.translating import Translation
from mkcheck_tools.imports.unchanged import mark_unchanged
from mkcheck_tools.imports.views import Subject

# How the names of dependency files end.
DEPENDENCY_ENDINGS = (".d", ".dep", ".deps", ".P", ".Po", ".Plo")


def shown_build(shown: MakeShown) -> Build:
    """The build as `make -n` shows it."""
    front = shown.front
    root, files = front.copies.seen, shown.files
    subject = Subject(
        root,
        shown.makes,
        files,
        None,
        front.wrapper,
        shown.links,
        shown.exported,
        shown.expanded,
    )
    translation = Translation(subject, outer_environment())
    build = translation.translate()
    build.tool = front.version
    build.runs_failed_again = all(map(removes_failed, shown.makes))
    name_overlaps(translation)
    name_makefiles(translation, shown.makes, set())
    name_passing(build, front, shown.makes)
    build.read_made = set(shown.read_made)
    shown.leftovers.name(build, shown.times, front.keep)
    return build


def made_build(built: MakeBuilt, far: Far) -> Build:
    """The build as make made it; `far` tells how far that is."""
    shown, front = built.shown, built.shown.front
    makes = shown.makes
    reason = "--build was given" if front.is_built else to_build(front, makes, built.makes)
    if reason:
        makes = built.makes
        take_unseen(built.makes, shown.makes)
    for others in (shown.makes, built.makes, built.later):
        take_longer(makes, others)
    leave_alone(front.copies.seen, makes, shown.times, built.times)
    root, files = front.copies.seen, shown.files
    subject = Subject(
        root,
        makes,
        files,
        built.files,
        front.wrapper,
        built.links,
        shown.exported,
        shown.expanded,
    )
    translation = Translation(subject, outer_environment())
    build = translation.translate()
    translation.name_failed(built.makes)
    build.made = built.made
    build.tool = front.version
    build.runs_failed_again = all(map(removes_failed, makes))
    if reason:
        build.note(f"the commands are those of a real build, not of `make -n`: {reason}")
    dependencies = built.makefiles.dependencies
    written = {name for name in dependencies if shown.times.get(name) != built.times.get(name)}
    add_later(translation, built.after, written)
    build.unread = unread_dependencies(built)
    if built.unchanged:
        place = front.copies.shut("built")
        mark_unchanged(build, built.unchanged, place, outer_environment(), far)
    for lack in built.lacks:
        makers = [path_name(root, wait.folder, wait.maker) for wait in lack.waits]
        text = f"a build from nothing fails at {lack.text}; let {lack.target} need {makers[0]}"
        build.waited.setdefault(lack.target, [text]).extend(makers)
    name_overlaps(translation)
    name_makefiles(translation, makes, dependencies)
    name_changes(build, built, makes)
    build.makefiles, build.read_again = built.makefiles.unmade, built.read_again
    build.read_made = shown.read_made - built.read_again
    shown.leftovers.name(build, shown.times, front.keep)
    return build


def removes_failed(make: Make) -> bool:
    """Whether a make removes the target of a recipe that fails."""
    return any(rule.is_target for rule in make.base.rules.get(".DELETE_ON_ERROR", []))


def name_changes(build: Build, built: MakeBuilt, makes: list[Make]) -> None:
    """Names what isn't the same in each make, or only in the makefiles as they were read."""
    shown, front = built.shown, built.shown.front
    varying = set()
    for make, rule, what in changed(makes, built.later):
        varying.add((make.folder, rule.name))
        where, name = place_of(front.copies.seen, make, rule)
        build.problem(
            f"{where}: after a build make has other commands for {name}:"
            f" {what.replace(front.wrapper, 'make')}, so what it does is judged for"
            " the first ones alone",
            name,
        )
    folder = front.copies.place("built").folder
    for path, one in shown.expanded.items():
        # Make has expanded the recipe again there, without running it.
        text = content(os.path.join(folder, path)).decode("latin-1")
        if len(built.makes) == len(shown.makes) and text != one.text:
            target = path_name(front.copies.seen, one.folder, one.target)
            build.problem(
                f"{target}: after a build make writes something else into {path} by $(file ..), so"
                " what it does is judged for the first contents alone",
                target,
            )
    failed = [make for make in built.later if make.status != 0]
    if failed and all(make.status == 0 for make in shown.makes):
        build.problem(
            "make fails after a build when all sources have new times, so it isn't known"
            f" whether it has the same commands then ({last_words(failed[0].errors)})"
        )
    name_passing(build, front, makes)
    for text, target in built.sentences.items():
        build.question(text, target)
    trier = Trier(build, front.copies.shut("built"), outer_environment())
    built.readings.name(build, varying, trier)


def name_passing(build: Build, front: MakeFolder, makes: list[Make]) -> None:
    """Names the makes that don't do what their makefiles say."""
    for make, option in ((make, passing(make)) for make in makes):
        if option:
            folder = path_name(front.copies.seen, front.copies.seen, make.folder)
            build.question(
                f"a recipe starts make {in_folder(folder)} with {option}, by which it runs nothing"
                " or passes over files: what it does then isn't judged; leave that option out",
                folder,
            )


def unread_dependencies(built: MakeBuilt) -> dict[str, list[str]]:
    """The dependency files that a build wrote and no make reads, each with what it names."""
    copies = built.shown.front.copies
    folder = copies.place("built").folder
    read = {
        path_name(copies.seen, make.folder, text)
        for make in [*built.makes, *built.after]
        for text in make.makefiles
    }
    found = {}
    for name in sorted(built.made - read):
        if name.endswith(DEPENDENCY_ENDINGS) and is_dependency_file(f"{folder}/{name}"):
            text = content(f"{folder}/{name}").decode("utf-8", "surrogateescape")
            with contextlib.suppress(DepfileFault):
                words = read_depfile(text).prerequisites
                places = {make.folder for make in built.makes}
                found[name] = [
                    path_name(copies.seen, place, word) for place in places for word in words
                ]
    return found


def name_makefiles(translation: Translation, makes: list[Make], dependency_files: set[str]) -> None:
    """Notes the makefiles that make would make anew, which is left out."""
    found: dict[str, None] = {}
    for make in makes:
        view = translation.views.get(make.key)
        if view is None:
            continue
        for name in make.makefiles:
            rules = make.base.rules.get(name, [])
            if any(rule.has_recipe for rule in rules):
                path = translation.path(view, name)
                found[path] = None
                needs = [word for rule in rules for word in rule.needs]
                if path not in dependency_files:
                    needed = [translation.path(view, word) for word in needs]
                    translation.build.remade.setdefault(path, needed)
    if found:
        some = ", ".join(list(found)[:5]) + (" .." if len(found) > 5 else "")
        made = "they are" if len(found) > 1 else "it is"
        translation.build.note(
            f"{counted(len(found), 'makefile')} that make makes anew when what {made} made"
            f" from changes ({some}): that is left out"
        )
