"""What is said of replays: errors, warnings, and recipes that are taken as they are."""

from __future__ import annotations

import os
from collections import Counter
from collections.abc import Iterable, Iterator, Mapping
from dataclasses import dataclass, field

from mkcheck_tools.answers.graphs import Recipe
from mkcheck_tools.faults import Failure, Fault, failure_of
from mkcheck_tools.judge.footprints import LOCK_CURE
from mkcheck_tools.judge.late import Met
from mkcheck_tools.judge.modules import CURE as MODULES_CURE
from mkcheck_tools.judge.modules import folder_of_modules
from mkcheck_tools.judge.notes import Kind, Note
from mkcheck_tools.judge.refusals import listed
from mkcheck_tools.judge.trust import Trust
from mkcheck_tools.replay.runs import (
    AGAIN,
    BARE,
    DAMAGED,
    DRAWN,
    HANDED,
    LOOKED,
    ORDERED,
    VARIED,
    Outcome,
)
from mkcheck_tools.replay.surroundings import (
    CLOCK,
    EARLIER,
    FLAGS,
    FOLDERS,
    INPUT,
    LISTING,
    MACHINE,
    MEMORY,
    NAMES,
    SOURCES,
    TERMINAL,
    VARIABLES,
)
from mkcheck_tools.replay.worlds import GIVEN, Trial
from mkcheck_tools.run.paths import Name

SHOWN_AT_MOST = 10

# Of each run: where it was, what it means that it left other files, and what to do.
SETTINGS = {
    BARE: "in a folder that holds only what it is recorded to read",
    AGAIN: "where its own outputs are already there",
    DAMAGED: "where its outputs are there with other bytes and later stamps",
    DRAWN: "where sets and hashes have another order",
    LOOKED: "where the files at which it only looks have other sizes and stamps",
    ORDERED: "where the files that it reads have their stamps in another order",
    VARIED: "where its own outputs are already there, at another time and amid other variables",
    HANDED: "with MAKEFLAGS and MAKELEVEL as make -j2 sets them",
}
# Of each kind of other surroundings: the note on a recipe that goes by them, what they are, and
# what to do.
AMID = {
    FLAGS: (
        Kind.SHELL_OPTIONS,
        "by a shell that ends a command at the first part of it that fails (sh -e, by which POSIX"
        " and GNU make under .POSIX: run it, and makes else don't)",
        "let each part end well, or write .POSIX: as the first line of the makefile",
    ),
    CLOCK: (
        Kind.CLOCK,
        "at another time of another day",
        "no make notices when that changes; let it take what it needs from a file",
    ),
    EARLIER: (
        Kind.EARLIER,
        "where an earlier run left one more file like those that it writes",
        "after an edit it may write fewer of them, and old ones would count, so let it first remove"
        " them all by a pattern",
    ),
    FOLDERS: (
        Kind.FOLDER_STAMP,
        "where folders have other stamps, as they get when files in them come, go or are replaced",
        "let it leave these out (tar --mtime=@0)",
    ),
    INPUT: (Kind.INPUT, "with other standard input", "let it read a file in its place"),
    LISTING: (
        Kind.LISTING,
        "where folders list their names the other way round, as on another file system",
        "let it sort them",
    ),
    MACHINE: (
        Kind.MACHINE,
        "on a machine with another name, an older kernel, fewer processors, and another limit of"
        " open files",
        "no make notices when that changes; let it take what it needs from a file",
    ),
    MEMORY: (
        Kind.FOLDER_SIZE,
        "in memory, where folders have other sizes and blocks than on a disk",
        "a folder that had more files once, or lies on another disk, has others too, so let it go"
        " by its files alone",
    ),
    NAMES: (
        Kind.LINKS,
        "where the files that it reads have second names, as hard links are",
        "let it go by what the files hold",
    ),
    SOURCES: (
        Kind.SOURCE_STAMPS,
        "where the sources that it reads have other stamps in another order, as in another copy of"
        " the project",
        "let it go by what the files hold",
    ),
    TERMINAL: (
        Kind.TERMINAL,
        "at a terminal, as where a user starts make",
        "let it do the same wherever its output goes",
    ),
    VARIABLES: (
        Kind.VARIABLES,
        "in another language, another time zone and by another user (LC_ALL, TZ, USER, LOGNAME,"
        " HOME, id)",
        "let it set these itself (LC_ALL=C sort, TZ=UTC0 date)",
    ),
}
LAID = " or to look at"
MEANINGS = {
    BARE: (
        "nothing for which it looked was missing in that run, so it depends on something else, such"
        " as the time, a random name, a process number, or the size of a folder or the order of the"
        " names in it"
    ),
    AGAIN: (
        "what it leaves depends on what was left before, so each make after the first may leave"
        " other files"
    ),
    DAMAGED: (
        "what it leaves depends on what was left before, so a make after a stop may leave other"
        " files"
    ),
    DRAWN: "it depends on the order of a set or hash, which each run draws anew",
    LOOKED: "it depends on the size, the stamp or the names of a file that it doesn't read",
    ORDERED: (
        "it compares stamps of files that recipes make, whose order is another one after an edit,"
        " or with several jobs"
    ),
    VARIED: "it depends on something that isn't recorded, such as the time or random numbers",
    HANDED: "it goes by what make hands down, so another number of jobs gives other files",
}
CURES = {
    BARE: "Take that out of the recipe",
    AGAIN: "Let the recipe begin with rm -f of its outputs, or write them anew",
    DAMAGED: "Let the recipe begin with rm -f of its outputs, or write them anew",
    DRAWN: "Let the program sort what it goes over",
    LOOKED: "Let the recipe read that file, and its target need it",
    ORDERED: "Let the recipe go by what the files hold",
    VARIED: "Take that out of the recipe",
    HANDED: "Let the recipe do without MAKEFLAGS and MAKELEVEL",
}
KEPT = (
    "it writes that only where it finds that it has to, as a make in a subfolder, cmp -s, cp -u or"
    " test -nt do. A recipe that reads what it is made from, and learns of a change by it alone,"
    " then isn't run, so that change is lost"
)
TWIN = (
    "the two are one file there, by a hard link (ln), so what the recipe writes to {} it writes to"
    " {}, too"
)
TWIN_CURE = "Let it make a copy in place of the link (cp)"
KEPT_CURE = "Let the recipe write all its outputs each time, or split it as shown here"
MODULES = "and then only looks at their texts"
LOCKED = "it locks that file, and makes it only where there is none"
STAMPS = (
    "it uses the time stamp of a file that a recipe makes, which is another one in each build, and"
    " here too"
)
STAMPS_CURE = "Let it leave stamps out (gzip -n, tar --mtime=@0, ar D)"
FAILURES = {
    BARE: (
        "nothing for which it looked was missing in that run, so it needs something else that"
        " wasn't there this time, such as a server, another process or a stamp"
    ),
    AGAIN: "each make that runs it again will stop here",
    LOOKED: MEANINGS[LOOKED],
    ORDERED: MEANINGS[ORDERED],
    VARIED: MEANINGS[VARIED],
    HANDED: MEANINGS[HANDED],
}
FAILURE_CURES = {
    BARE: "Let the recipe read what it needs as a file, or make it itself",
    AGAIN: "Let the recipe begin with rm -f of its outputs",
    LOOKED: CURES[LOOKED],
    ORDERED: CURES[ORDERED],
    VARIED: CURES[VARIED],
    HANDED: CURES[HANDED],
}


@dataclass
class ReplayVerdict:
    """What the replays say: errors, notes, and what recipes did beside their late files."""

    failures: list[Failure] = field(default_factory=list)
    notes: list[Note] = field(default_factory=list)
    judged: set[str] = field(default_factory=set)
    """The targets whose recipes were replayed."""

    unsteady: set[str] = field(default_factory=set)
    """The targets whose recipes are trusted, and of which nothing shows that they do the same each
    time."""

    met: dict[str, Met] = field(default_factory=dict)


def check_trust(trusted: Iterable[str], recipes: Iterable[Recipe]) -> None:
    """Refuses a trusted name that is no recipe's: a slip of the keyboard would trust nothing."""
    targets = {recipe.target for recipe in recipes}
    for name in trusted:
        if name not in targets:
            raise Fault(f"--trust {name}: the goals reach no recipe of that name")


def judge(
    outcomes: Iterable[Outcome],
    trust: Trust,
    once: frozenset[str],
    makers: Mapping[Name, list[str]],
) -> ReplayVerdict:
    """The verdict. `once` are targets that no make makes again, and `makers` has who made which
    folder.

    A recipe that fails over its own outputs is an error only where a make may run it again.
    """
    verdict = ReplayVerdict()
    for outcome in outcomes:
        target = outcome.trial.recipe.target
        verdict.judged.add(target)
        if outcome.met is not None:
            verdict.met[target] = outcome.met
        if outcome.half:
            verdict.notes.append(note_of_half(target))
        try:
            if target in trust.targets:
                if target in trust.alike:
                    verdict.notes.append(note_of_alike(target))
                if target not in trust.alike or not outcome.passed:
                    verdict.notes.append(note_of_trusted(outcome))
                if not outcome.passed and not outcome.passes_over:
                    verdict.unsteady.add(target)
            elif outcome.run == AGAIN and outcome.failed and target in once:
                verdict.notes.append(note_of_stop(outcome, AGAIN, outcome.failed))
            elif not outcome.passed:
                verdict.failures.append(Failure(target, complaint(outcome, makers)))
            elif outcome.warning:
                verdict.notes.append(note_of_stop(outcome, DAMAGED, outcome.warning))
            if outcome.passed:
                verdict.notes += notes_amid(outcome, once)
        except Exception as error:
            verdict.failures.append(failure_of(error, target))
    return verdict


def notes_amid(outcome: Outcome, once: frozenset[str]) -> Iterator[Note]:
    """What is to be known of a recipe that passed, and does something else amid other surroundings.
    A failure is seen, so that counts where another make has these alone, or where it may be for a
    file that the recipe isn't recorded to read. One that no make makes again left nothing."""
    target = outcome.trial.recipe.target
    for kind, other in outcome.amid.items():
        if other.failed and kind != FLAGS and not other.missing:
            continue
        if kind == EARLIER and target in once:
            continue
        noted, where, cure = AMID[kind]
        noted = Kind.ENDS_EARLY if other.failed and not other.missing else noted
        what = "fails" if other.failed else other.differences[0].what
        if other.missing:
            what = f"fails, and looks for {listed(other.missing)}, which it isn't recorded to read"
        details = [] if other.failed else other.differences[0].details
        front = f"the recipe of {target}, run {where}, {what}: {cure}"
        yield Note(target, noted, "\n".join([front, *(f"\t{line}" for line in details)]))


def subject(outcome: Outcome) -> str:
    """What the recipe did otherwise, and where: the beginning of a sentence."""
    what = "fails" if outcome.failed else outcome.differences[0].what
    setting = SETTINGS[outcome.run] + (LAID if outcome.laid else "")
    return f"the recipe of {outcome.trial.recipe.target}, run {setting}, {what}"


def complaint(outcome: Outcome, makers: Mapping[Name, list[str]]) -> str:
    """The error of a replay that failed, or left other files than the recording."""
    target = outcome.trial.recipe.target
    if outcome.broken:
        return f"the recipe of {target} can't be replayed: {outcome.broken}"
    meaning, cure = MEANINGS[outcome.run], CURES[outcome.run]
    kept = outcome.differences[0].name if is_kept(outcome) else ""
    twin = next((one for one in outcome.differences if one.twin), None)
    if twin is not None:
        meaning, cure = TWIN.format(twin.twin, twin.name), TWIN_CURE
    elif outcome.stamps:
        meaning, cure = STAMPS, STAMPS_CURE
    elif outcome.missing:
        verb = "was" if len(outcome.missing) == 1 else "were"
        meaning = (
            f"it looks in vain for {listed(outcome.missing)}, which {verb} there when it was"
            " recorded"
        )
        cure = FAILURE_CURES[BARE]
    elif outcome.failed:
        meaning, cure = FAILURES[outcome.run], FAILURE_CURES[outcome.run]
    elif folder_of_modules([kept]):
        meaning, cure = f"Python keeps compiled modules there, {MODULES}", MODULES_CURE
    elif kept in outcome.trial.locked:
        meaning, cure = LOCKED, LOCK_CURE
    elif kept:
        meaning, cure = KEPT, KEPT_CURE
    lines = [
        f"{subject(outcome)}: {meaning}. {cure[0].upper()}{cure[1:]}, or give --trust {target} to"
        " take the recipe as it is"
    ]
    causes = [] if folder_of_modules([kept]) else likely_causes(outcome, makers)
    lines += [f"\t{line}" for line in causes]
    lines += [f"\t{line}" for line in split_of(outcome, kept)] if meaning == KEPT else []
    lines += [f"\tit looks at {listed(outcome.glanced)}"] if outcome.glanced else []
    lines += [f"\t{line}" for line in outcome.failed.split("\n") if line]
    if outcome.differences:
        lines += [f"\t{line}" for line in outcome.differences[0].details]
        more = outcome.differences[1:]
        for one in more[:SHOWN_AT_MOST]:
            lines += [f"\tit {one.what}", *(f"\t{line}" for line in one.details)]
        if len(more) > SHOWN_AT_MOST:
            lines.append(f"\tand {len(more) - SHOWN_AT_MOST} more differences")
    return "\n".join(lines)


def split_of(outcome: Outcome, kept: str) -> list[str]:
    """How a recipe that writes a file only where its contents change is split in two: the one makes
    the contents in each run, and the other one reads nothing else."""
    target = outcome.trial.recipe.target
    own = {name for name in outcome.trial.before if name != kept}
    needs = f"{listed(sorted(own))} .." if len(own) > 3 else " ".join(sorted(own))
    return [
        f"{kept}@made: {needs}".rstrip(),
        f"    the commands of {target}, which write {kept}@made in each run",
        f"{kept}: {kept}@made",
        f"    cmp -s {kept}@made {kept} || cp {kept}@made {kept}",
        f"and record with --trust {kept}, whose recipe then only copies",
    ]


def is_kept(outcome: Outcome) -> bool:
    """Whether the first difference is an output that the recipe passed over."""
    return bool(outcome.differences) and outcome.differences[0].kept and outcome.run != ORDERED


def likely_causes(outcome: Outcome, makers: Mapping[Name, list[str]]) -> list[str]:
    """What a recipe uses and no record can name: folders of others, files that it takes away; and
    what Python keeps."""
    trial = outcome.trial
    compiled = said_of_modules(trial)
    if compiled or outcome.run != BARE:
        return compiled
    text = "\n".join(trial.recipe.lines)
    above = {os.path.dirname(name) for name in trial.writes}
    said = []
    for name in sorted(outcome.absent):
        others = [target for target in makers.get(name, ()) if target != trial.recipe.target]
        if others and (name in above or name in text):
            said.append(
                f"the folder {name} is made by the recipe of {others[0]}, and needn't be there when"
                f" this one runs: let this recipe make it too (mkdir -p {name})"
            )
    said += said_of_orders(trial) if not outcome.failed else []
    gone = [name for name, version in trial.after.items() if version is None]
    return said + [
        f"it takes away {name}, which it neither made nor read: let it do without (rm -f {name})"
        for name in gone[:SHOWN_AT_MOST]
        if name not in trial.before
    ]


def said_of_orders(trial: Trial) -> list[str]:
    """What is said of a recipe that lists a folder in which it reads several files of recipes: many
    file systems list these in the order in which they were made."""
    made = [name for name, version in trial.before.items() if version != GIVEN]
    counts = Counter(os.path.dirname(name) or "." for name in made)
    return [
        f"it lists {name}, whose files come in another order in each build: let it sort their names"
        for name in trial.listed
        if counts[name] > 1
    ][:1]


def said_of_modules(trial: Trial) -> list[str]:
    """What is said of a recipe that reads or writes a module that Python compiled in the project:
    the module's text is only looked at then."""
    folder = folder_of_modules((*trial.before, *trial.writes))
    if folder is None:
        return []
    return [f"Python keeps compiled modules in {folder}, {MODULES}: {MODULES_CURE}"]


def note_of_stop(outcome: Outcome, run: str, failed: str) -> Note:
    """The note of a recipe that fails over outputs that only a make leaves which was stopped."""
    target = outcome.trial.recipe.target
    outputs = "$@" if outcome.trial.writes == (target,) else "of its outputs"
    text = (
        f"the recipe of {target}, run {SETTINGS[run]}, fails: after a make that was stopped, its"
        f" outputs may have to be removed by hand; begin the recipe with rm -f {outputs}"
        f" ({last_line(failed)})"
    )
    return Note(target, Kind.STOPPED, text)


def note_of_half(target: str) -> Note:
    """The note of a recipe that leaves a target which the next make takes for done."""
    text = (
        f"where a write fails, the recipe of {target} leaves {target} half-written, and the next"
        " make takes that for done: let the recipe write to another name, and end with mv"
        f" {target}.new {target}; of makes, GNU make alone removes such files, by .DELETE_ON_ERROR"
    )
    return Note(target, Kind.HALF_WRITTEN, text)


def note_of_alike(target: str) -> Note:
    """The note of a recipe that may leave its outputs as they were."""
    text = f"the recipe of {target} may leave its outputs, so it ran again without these alone"
    return Note(target, Kind.ALIKE, text)


def note_of_trusted(outcome: Outcome) -> Note:
    """The note of a recipe that was trusted."""
    target = outcome.trial.recipe.target
    if outcome.passed:
        text = f"trusted without need: the recipe of {target} left the same files when it ran again"
        return Note(target, Kind.TRUSTED_NEEDLESSLY, text)
    shown = complaint(outcome, {}) if outcome.broken else subject(outcome)
    return Note(target, Kind.TRUSTED, f"trusted, and not shown to be right: {shown}")


def last_line(text: str) -> str:
    """The last line of a text that says something."""
    lines = [line.strip() for line in text.split("\n") if line.strip()]
    return lines[-1] if lines else text
