"""A folder in which ninja builds: what its files say, the build, and the translation."""

from __future__ import annotations

import shlex
from collections.abc import Mapping
from dataclasses import dataclass, replace

from mkcheck_tools.faults import Fault
from mkcheck_tools.imports.builds import Build, in_folder
from mkcheck_tools.imports.copies import Copies, Tail, listing, run_here
from mkcheck_tools.imports.failing import NINJA_STATUS, build_fault, failure_of_ninja
from mkcheck_tools.imports.gnumake import outer_environment
from mkcheck_tools.imports.ninja import NinjaBuild, read_ninja
from mkcheck_tools.imports.ninja_dyndeps import add_dyndeps
from mkcheck_tools.imports.ninja_files import Manifest
from mkcheck_tools.imports.ninja_learning import learn
from mkcheck_tools.imports.ninja_text import NinjaFault
from mkcheck_tools.imports.telling import Far
from mkcheck_tools.run.places import Place


@dataclass(frozen=True)
class NinjaFolder:
    """Starts ninja in one folder of a project, always with the same words."""

    copies: Copies
    folder: str
    """The folder of `build.ninja`, a path from the root."""

    words: tuple[str, ...]


@dataclass(frozen=True)
class NinjaShown:
    """What `build.ninja` says, of which ninja says that it could build it."""

    front: NinjaFolder
    manifest: Manifest
    version: str
    is_built: bool = False
    """Whether a copy has what a build makes."""

    noted: Mapping[str, list[str]] | None = None
    """What ninja would note from dependency files, by the first outputs, where recorded recipes
    made that copy; None where ninja did."""

    is_late: bool = False
    """Whether a second build succeeded where the first one failed."""


def ninja_shown(front: NinjaFolder) -> NinjaShown:
    """Reads `build.ninja`, and asks ninja whether it could build, in a copy for that: `ninja -n`
    makes folders of outputs, and takes dependency files away."""
    place = front.copies.place("asked")
    found = read_ninja(place, front.folder, front.words, outer_environment())
    return NinjaShown(front, *found)


def ninja_built(shown: NinjaShown, tail: Tail) -> NinjaShown:
    """Lets ninja build in a copy; `tail` has the end of what it prints."""
    front = shown.front
    front.copies.renew("asked")
    place = front.copies.shut("built")
    # What an earlier build left must not help this one.
    run_here(place, ["ninja", "-C", front.folder, "-t", "clean"], outer_environment())
    command = ["ninja", "-j1", "-k0", "-C", front.folder, *front.words]
    environment = {**outer_environment(), "NINJA_STATUS": NINJA_STATUS}
    status, said, errors = run_here(place, command, environment, tail)
    is_late = False
    if status != 0:
        # Where a header comes too late the second build finds it; the race is found by mkcheck.
        status, said, errors = run_here(place, command, environment)
        is_late = status == 0
    if status != 0:
        words = f"`{shlex.join(['ninja', *front.words])}` {in_folder(front.folder)}"
        raise build_fault(failure_of_ninja(said, errors), words)
    return replace(shown, is_built=True, is_late=is_late)


def ninja_build(shown: NinjaShown, far: Far) -> Build:
    """The build, with what is known after a build where one was made; `far` tells how far that
    is."""
    copies = shown.front.copies
    place = copies.place("read")
    before = listing(place.folder)
    built = copies.shut("built") if shown.is_built else None
    try:
        translation = translation_of(shown, place, built)
        translation.translate(shown.front.words)
    except NinjaFault as fault:
        raise Fault(str(fault)) from None
    if shown.is_late:
        translation.build.note(
            "the first build with one job failed, and the second one succeeded: a file comes too"
            " late"
        )
    if built is not None:
        learn(translation, built, outer_environment(), shown.noted, far)
        translation.build.made = listing(built.folder) - before
    return translation.build


def translation_of(shown: NinjaShown, place: Place, built: Place | None) -> NinjaBuild:
    """The translation before it is made, with what dyndep files say after a build."""
    manifest = shown.manifest
    translation = NinjaBuild(place, shown.front.folder, manifest, shown.version)
    if built is None:
        return translation
    add_dyndeps(manifest, lambda path: translation.real(path, built))
    return NinjaBuild(place, shown.front.folder, manifest, shown.version)
