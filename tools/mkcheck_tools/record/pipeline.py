"""A recording, from what is asked for to what is written: the build, the recording of its recipes,
their replay, the verdict on each, and the footprint file with its notes and its state.
"""

from __future__ import annotations

import os
import secrets
import threading
from collections.abc import Mapping
from contextlib import AbstractContextManager, nullcontext
from dataclasses import dataclass, replace

from mkcheck_tools.answers.graphs import Recipe, firsts_of
from mkcheck_tools.book import formats
from mkcheck_tools.book.answer_files import RecordingAnswer
from mkcheck_tools.book.books import make_book
from mkcheck_tools.book.footprint_files import Footprints
from mkcheck_tools.book.note_files import text_of_notes
from mkcheck_tools.book.paths import path_of_notes, path_of_state
from mkcheck_tools.book.states import Unusable
from mkcheck_tools.book.updating import FIRST_TIME, Conditions, Updating, believed, probe_programs
from mkcheck_tools.faults import Failure, Fault, RecipeFault, failure_of, sentence_of
from mkcheck_tools.gnu.remade import optional_dependencies
from mkcheck_tools.gnu.unlooked import warn_of_unlooked
from mkcheck_tools.record.comparing import compare_again, compare_make
from mkcheck_tools.replay.dates import dated, without_told
from mkcheck_tools.judge.footprints import Footprint
from mkcheck_tools.judge.late import Late, with_met
from mkcheck_tools.judge.leftovers import warn_of_left_over, warn_of_unmade
from mkcheck_tools.judge.linked import with_names
from mkcheck_tools.judge.modules import warn_of_modules
from mkcheck_tools.judge.notes import Kind, Note, Notes, Warn, ignore
from mkcheck_tools.judge.remains import warn_of_remains
from mkcheck_tools.judge.sharing import with_shared
from mkcheck_tools.replay.verdicts import ReplayVerdict, judge
from mkcheck_tools.record.answering import status_of, tell, tell_of_update, write_answer
from mkcheck_tools.record.building import Build, build_of, makefile_of, removes_on_error
from mkcheck_tools.record.keeping import Made, keep_build, text_of_conditions
from mkcheck_tools.record.leaving import with_folders
from mkcheck_tools.record.presuming import Beginning, keep_premises
from mkcheck_tools.record.recording import Recorded, Workshop, record
from mkcheck_tools.record.request import Request
from mkcheck_tools.replay.digests import Digests
from mkcheck_tools.replay.early import Disturbed, Early, early_replays
from mkcheck_tools.replay.meetings import meetings_of
from mkcheck_tools.replay.replays import Replay, Replayed, processors
from mkcheck_tools.replay.worlds import World
from mkcheck_tools.run import places
from mkcheck_tools.run.ending import write_text
from mkcheck_tools.run.paths import Name, RealPath, real_in, unbound
from mkcheck_tools.run.places import Place
from mkcheck_tools.run.stopping import Stopped, pass_over_signals
from mkcheck_tools.trace import tracing

UNBOUND = (
    "the system allows no mount namespace (unshare --mount), so recipes run in a copy at another"
    " path: files of the project that they name by absolute paths, files above its folder, and a"
    " project below a fixed prefix aren't seen as they are there; and what a recipe writes outside"
    " of the folder is written for real"
)
OPEN = (
    "the system doesn't allow making all but the project's folder read-only for recipes: what one"
    " writes outside of it is written for real"
)
UNREPLAYED = (
    "no recipe was run again, since that needs a mount namespace or a copy: nothing tests that each"
    " writes what it wrote this time, and from its recorded reads alone"
)
UNTESTED = (
    "no recipe was run again (--no-replay), so nothing tests that each writes what it wrote this"
    " time, and from its recorded reads alone"
)


def record_folder(request: Request, scratch: RealPath) -> int:
    """Records a folder, writes what was recorded, and gives the status.

    Whatever ends it early, the state keeps what was recorded.
    """
    notes = Notes(tell)
    tracing.strace()
    # While mkcheck is asked, this program reads itself.
    probing = threading.Thread(target=probe_programs)
    probing.start()
    try:
        before = Beginning.of(request)
        build = build_of(request, scratch, notes.add)
    finally:
        probing.join()
    before = None if before is None else before.with_outside(request, build.graph.names)
    request = replace(request, left=with_folders(build.left))
    shop = workshop(request, build, scratch, notes.add)
    with early_replays_of(shop, build) as early:
        status = recorded_and_written(shop, build, early, notes, before)
    return status


def recorded_and_written(
    shop: Workshop, build: Build, early: Early | None, notes: Notes, before: Beginning | None
) -> int:
    """The same, where `early` starts replays while recipes are recorded, and `before` is what was
    there when an update began."""
    request = shop.request
    recorded = recorded_by(shop, build, early, notes.add)
    verdict = ReplayVerdict()
    try:
        if recorded.stopped is not None:
            raise recorded.stopped
        warn_of_recorded(shop, build, recorded, notes.add)
        compared = compare(shop, recorded, notes.add)
        replayed = replay(shop, build, recorded, early, notes.add)
        verdict = verdict_of(shop, build, recorded, replayed)
        if replayed.stopped is not None:
            raise replayed.stopped
        for note in verdict.notes:
            notes.add(note)
        result = result_of(build, recorded, verdict, notes.add)
        result = replace(result, failures=[*recorded.failures, *compared, *result.failures])
        status, kept = write(shop, recorded, verdict, result, notes)
        if kept and before is not None and shop.updating is not None:
            conditions = conditions_of(shop, build, recorded)
            keep_premises(shop, build, recorded, shop.updating, before, conditions)
        if status == 0 and request.keep is not None and result.text is not None:
            choice, conditions = request.choice, conditions_of(shop, build, recorded)
            made = Made(build.texts, result.text, choice.words, choice.options, conditions)
            keep_build(request.keep, made)
        return status
    except BaseException as end:
        raise told_of_end(end, request, keep(shop, recorded, verdict, False))


def workshop(request: Request, build: Build, scratch: RealPath, warn: Warn) -> Workshop:
    """Where the recipes run: on a copy, at the project's own path where the system allows it, or in
    the folder."""
    folder, choice = request.folder, request.choice
    copied = real_in(scratch, os.path.join("copy", os.path.basename(folder)))
    os.mkdir(os.path.dirname(copied))
    place = Place.of(copied)
    if request.in_place:
        place = Place.of(folder)
    elif places.namespace() is not None:
        place = Place(copied, unbound(folder), shut=True)
        if places.shut() is None:
            warn(Note("", Kind.OPEN, OPEN))
    else:
        warn(Note("", Kind.UNBOUND, UNBOUND))
    graph = build.graph
    environment = tracing.environment(place, choice.operands, build.macros)
    set_here = {*choice.operands, *build.macros}
    conditions = Conditions.of(asked_of(request, place), environment, set_here)
    updating = updating_of(request, build, conditions, warn)
    return Workshop(
        request,
        place,
        graph.targets - graph.phony,
        scratch,
        graph.ancestors(),
        build.macros,
        build.varying,
        build.prober.ruled,
        conditions,
        updating,
        not removes_on_error(request),
        None if updating is None else Digests(place.seen),
        build.over,
        graph.once,
    )


def asked_of(request: Request, place: Place) -> dict[str, str]:
    """The conditions of a recording that are asked for."""
    return {
        "folder": request.folder,
        "path": place.seen,
        "fixed": " ".join([*request.choice.fixed, *request.choice.steady]),
        "opaque": " ".join(sorted(request.choice.opaque)),
        "replay": "yes" if request.replay else "no",
    }


def updating_of(
    request: Request, build: Build, conditions: Conditions, warn: Warn
) -> Updating | None:
    """What keeps the recording beside the footprints, and knows the one before where it is an
    update; it tells where all has to be recorded."""
    if request.book is None or request.in_place:
        return None
    orders = build.graph.orders()
    updating = Updating(request.book, request.choice, conditions, orders=orders, warn=warn)
    updating.left = build.left
    if request.update:
        try:
            updating.state = believed(request.book, conditions)
        except Unusable as reason:
            state = path_of_state(str(request.output))
            if not os.path.exists(request.book) and not os.path.exists(path_of_state(request.book)):
                tell(f"{request.output} {FIRST_TIME}")
            else:
                kept = "" if os.path.exists(state) else ", as after a recording by -o"
                tell(f"{state} {reason}{kept}: all recipes are recorded")
    return updating


def conditions_of(shop: Workshop, build: Build, recorded: Recorded) -> str:
    """On what the recipes go beside their commands and files, for `--keep`. Without a state each
    text has a salt of its own, and is like no other one."""
    updating = shop.updating
    saved = None if updating is None else updating.saved
    conditions = shop.conditions.salted(secrets.token_hex(16))
    given = (name for name in recorded.given if name not in recorded.writers)
    paths = ((name, real_in(shop.folder, name)) for name in given)
    return text_of_conditions(
        conditions if saved is None else saved.conditions,
        shop.request.choice,
        build.macros,
        {shell_of(recipe, build.flags) for recipe in build.graph.recipes},
        {name: os.readlink(path) for name, path in paths if os.path.islink(path)},
    )


def shell_of(recipe: Recipe, flags: str) -> str:
    """The shell that runs a recipe, and how: by the flags that the makefile gives, if any."""
    return f"{recipe.shell} {flags or ('-ec' if recipe.strict else '-c')}"


def early_replays_of(shop: Workshop, build: Build) -> AbstractContextManager[Early | None]:
    """What starts replays while recipes are recorded, where that can be."""
    request = shop.request
    is_asked_for = request.replay and not (request.again or request.make)
    if not is_asked_for or not shop.place.is_bound or processors() == 1:
        return nullcontext()

    def replay_early(world: World, writers: Mapping[Name, list[str]], early: Early) -> Replay:
        replays = replay_of(shop, build, world, {}, writers)
        return replace(replays, targets=early.targets, memory=early.memory, _stopped=early.stopped)

    firsts = firsts_of(build.graph.recipes)
    made = {Name(name): first for name, first in firsts.items() if name in shop.absent}
    return early_replays(replay_early, made, real_in(shop.scratch, "replays"), shop.failing)


def replay_of(
    shop: Workshop, build: Build, world: World, late: Late, writers: Mapping[Name, list[str]]
) -> Replay:
    """What replays the recipes of a world."""
    return Replay(
        world,
        shop.place.seen,
        real_in(shop.scratch, "replays"),
        shop.environment,
        shop.ancestors,
        late,
        writers,
        build.graph.once,
        failing=shop.failing,
        trusted=shop.request.choice.trust.targets,
        alike=shop.request.choice.trust.alike,
    )


def recorded_by(shop: Workshop, build: Build, early: Early | None, warn: Warn) -> Recorded:
    """The recording of all recipes. It is repeated where recipes were kept that have to be
    recorded, since others make other files now; and without replays beside it where one of these
    may have disturbed a recipe."""
    request, updating = shop.request, shop.updating
    follow = shop.follow if request.replay or updating is not None else None
    while True:
        if early is not None:
            early.begin()
        try:
            recorded = record(shop, build.graph.recipes, warn, follow, early)
        except Disturbed:
            assert early is not None
            early.is_off = True
            continue
        is_done = recorded.stopped is not None or bool(recorded.failures) or not request.replay
        if is_done or updating is None or not updating.refuse(recorded.late_keys):
            return recorded


def warn_of_recorded(shop: Workshop, build: Build, recorded: Recorded, warn: Warn) -> None:
    """Warns of what the recording shows of the makefile and the folder."""
    request = shop.request
    warn_of_unlooked(build.graph, build.prober, recorded.writers, warn)
    makefile = makefile_of(request)
    warn_of_left_over(request.folder, makefile, build.graph, recorded.footprints, warn)
    warn_of_unmade(request.folder, optional_dependencies(build.prober), build.graph, warn)
    refuse_other_meaning(build, recorded)
    warn_of_modules(recorded.footprints, shop.fixed, warn)
    if not request.replay:
        warn(Note("", Kind.UNREPLAYED, UNTESTED))


def refuse_other_meaning(build: Build, recorded: Recorded) -> None:
    """Refuses, before the replays, footprints without which the makefile means something else; what
    is of one recipe is said after them."""
    try:
        book_of(build, recorded, recorded.footprints, ignore)
    except RecipeFault as fault:
        if not fault.targets:
            raise


def compare(shop: Workshop, recorded: Recorded, warn: Warn) -> list[Failure]:
    """The further runs that are asked for; returns what failed in one of them alone."""
    failures: list[Failure] = []
    if shop.request.again:
        recipes = [footprint.recipe for footprint in recorded.footprints]
        second = record(shop, recipes, warn)
        if second.stopped is not None:
            raise second.stopped
        compare_again(recorded, second, warn)
        failures = [Failure(one.target, f"run again, {one.text}") for one in second.failures]
    if shop.request.make:
        choice = shop.request.choice
        compare_make(shop, [*choice.options, *choice.words], recorded, warn)
    return failures


def replay(
    shop: Workshop, build: Build, recorded: Recorded, early: Early | None, warn: Warn
) -> Replayed:
    """The replays of what was recorded; nothing where none is wanted."""
    world = recorded.world
    if world is None or not shop.request.replay:
        return Replayed([])
    if places.namespace() is None and shop.place.folder == shop.folder:
        warn(Note("", Kind.UNREPLAYED, UNREPLAYED))
        return Replayed([])
    meetings = meetings_of(recorded.footprints, world.trials)
    replays = replay_of(shop, build, world, recorded.late, recorded.writers)
    replays = replace(replays, meetings=meetings)
    if early is None:
        return replays.run(world.trials)
    early.slots.release()
    replays = replace(replays, memory=early.memory, slots=early.slots, _stopped=early.stopped)
    return replays.run(world.trials, early.begun, early.pool)


def verdict_of(
    shop: Workshop, build: Build, recorded: Recorded, replayed: Replayed
) -> ReplayVerdict:
    """What the replays say of the recipes."""
    world = recorded.world
    if world is None:
        return ReplayVerdict()
    trust = shop.request.choice.trust
    verdict = judge(replayed.outcomes, trust, build.graph.once, world.makers)
    if shop.request.replay:
        dates: list[Note] = []
        for trial in world.trials:
            try:
                dates += dated(world, trial)
            except Exception as error:
                verdict.failures.append(failure_of(error, trial.recipe.target))
        verdict.notes = [*without_told(verdict.notes, dates), *dates]
    return verdict


@dataclass(frozen=True)
class Result:
    """What a recording gives: the footprints that can be believed, the text of the file with them,
    and why others aren't there. Without a text nothing is written."""

    footprints: list[Footprint]
    text: str | None
    failures: list[Failure]


def result_of(build: Build, recorded: Recorded, verdict: ReplayVerdict, warn: Warn) -> Result:
    """The footprints of the recipes that passed. One that no footprint file can hold costs itself
    too."""
    failures = list(verdict.failures)
    failed = {failure.target for failure in failures}
    found = with_met(recorded.footprints, recorded.late_keys, verdict.met)
    while footprints := [one for one in found if one.recipe.target not in failed]:
        try:
            text = formats.text_of(book_of(build, recorded, footprints, warn))
            warn_of_remains(footprints, build.graph, warn)
            return Result(footprints, text, failures)
        except RecipeFault as fault:
            if not fault.targets:
                return Result([], None, [*failures, Failure("", str(fault))])
            failed.update(fault.targets)
            failures += [Failure(target, str(fault)) for target in fault.targets]
    if failures or recorded.failures:
        return Result([], None, failures)
    return Result([], formats.text_of(book_of(build, recorded, [], warn)), failures)


def book_of(
    build: Build, recorded: Recorded, footprints: list[Footprint], warn: Warn
) -> Footprints:
    """The footprint file with these footprints."""
    known = with_shared(footprints, build.graph, warn, recorded.looked_late)
    return make_book(build.unrecorded, build.graph, with_names(known, build.over))


def keep(shop: Workshop, recorded: Recorded, verdict: ReplayVerdict, whole: bool) -> bool:
    """Keeps what was recorded in the state; tells whether that is done."""
    updating = shop.updating
    if updating is None or recorded.world is None or not (recorded.footprints or whole):
        return False
    footprints = with_met(recorded.footprints, recorded.late_keys, verdict.met)
    unsteady = verdict.unsteady - shop.request.choice.trust.kept
    failed = {*unsteady, *(failure.target for failure in verdict.failures)}
    targets = [one.recipe.target for one in footprints if one.recipe.target not in failed]
    passed = {
        target: [note for note in verdict.notes if note.target == target]
        for target in targets
        if target in verdict.judged or not shop.request.replay
    }
    waiting = [target for target in targets if target not in passed]
    try:
        updating.save(footprints, passed, waiting, whole)
    except (Fault, OSError) as error:
        tell(f"the state isn't kept: {sentence_of(error, 'recorder')}")
        return False
    return True


def told_of_end(end: BaseException, request: Request, kept: bool) -> BaseException:
    """What ends a recording early, having told what there is of it."""
    more = f"mkcheck-record --update {request.output} goes on from there"
    if isinstance(end, Stopped):
        end.rest = f"what was recorded is kept: {more}" if kept else end.rest
    elif kept:
        tell(f"what was recorded is kept: {more}")
    return end


def write(
    shop: Workshop, recorded: Recorded, verdict: ReplayVerdict, result: Result, notes: Notes
) -> tuple[int, bool]:
    """Writes the footprints, their notes and their state; tells what isn't there, and gives the
    status, and whether the state is that of a whole recording."""
    request, updating = shop.request, shop.updating
    failed = {failure.target for failure in result.failures}
    found = notes.without(failed)
    if result.text is not None:
        if request.output is not None or request.keep is None:
            write_text(result.text, request.output)
        if request.book is not None:
            text = text_of_notes(result.text, found, request.choice)
            write_text(text, path_of_notes(request.book))
    whole = not result.failures
    kept = False
    if updating is not None:
        if not whole or request.update or os.path.exists(path_of_state(updating.book)):
            kept = keep(shop, recorded, verdict, whole)
        else:
            pass_over_signals()
            updating.forget()
    known = len(updating.reused) + len(updating.resumed) if updating is not None else 0
    recipes = len(recorded.footprints) + len(recorded.failures)
    if whole and request.update:
        tell_of_update(recipes, known)
    if not whole:
        tell_failures(request, result, recipes, kept)
    status = status_of(request, found) if whole else RecipeFault.status
    is_written, failures = result.text is not None, tuple(result.failures)
    write_answer(request.answer, RecordingAnswer(status, is_written, recipes, known, failures))
    return status, kept and whole


def tell_failures(request: Request, result: Result, recipes: int, kept: bool) -> None:
    """Tells of each recipe that has no record why."""
    tell(f"recorded {len(result.footprints)} of {recipes} recipes")
    for text in dict.fromkeys(failure.text for failure in result.failures):
        tell(text)
    if result.text is None and request.output is not None and os.path.exists(request.output):
        tell(f"{request.output} is still that of the recording before")
    if kept:
        tell(f"when that is mended, mkcheck-record --update {request.output} records the rest")
