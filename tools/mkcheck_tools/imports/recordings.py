"""The recording of a translated build, as far as it isn't known yet."""

from __future__ import annotations

import os
import shutil
import sys
from collections.abc import Iterable, Sequence
from dataclasses import dataclass, field, replace
from functools import partial
from pathlib import Path

from mkcheck_tools.book.answer_files import RecordingAnswer
from mkcheck_tools.book.note_files import read_notes
from mkcheck_tools.book.paths import path_of_notes, path_of_state
from mkcheck_tools.book.states import Entry, State, Unusable
from mkcheck_tools.book.states import read as read_state
from mkcheck_tools.book.states import read_choice
from mkcheck_tools.faults import FAILED, Failure, Fault, last_lines
from mkcheck_tools.imports.builds import Kind as BuildKind
from mkcheck_tools.imports.configured import configuring
from mkcheck_tools.imports.desk import Desk
from mkcheck_tools.imports.judging import BOOK, FIRST, LATER, Judge, RecordingFault
from mkcheck_tools.imports.kept import basis_of, digest_of_value, made_in
from mkcheck_tools.imports.known_names import known_as, whole_of
from mkcheck_tools.imports.recorded import Recorded
from mkcheck_tools.imports.removals import cleared_by, is_begun_without
from mkcheck_tools.imports.request import Request
from mkcheck_tools.imports.telling import COUNT
from mkcheck_tools.imports.translated import Translated, recorder, save
from mkcheck_tools.judge.notes import Kind
from mkcheck_tools.judge.trust import ALIKE, KEPT
from mkcheck_tools.run.folders import prefix_of

# How often recipes that fail are recorded behind others.
ROUNDS_AT_MOST = 10
# The kinds of notes on what the translation has in it.
OF_TRANSLATION = frozenset({Kind.BUILT_IN_RULE, Kind.UNLOOKED, Kind.WAIT})


@dataclass(frozen=True)
class Recording:
    """A recording: what the recorder said, and what it knows of each recipe."""

    recorded: Recorded
    count: str
    """How many of all recipes were recorded by now, where all have a record."""

    state: State | None
    recipes: int
    """How many recipes have a record."""

    digest: str
    """A digest of all that the recorder gave."""

    asked: Sequence[str] = ()
    """The words of the recorder, and the makefile that it recorded."""

    came: RecordingAnswer | None = None
    """What the recording came to."""

    waiting: Waiting | None = None
    """The recipes that were let wait."""

    @property
    def is_partial(self) -> bool:
        """Whether what recipes left isn't known of all."""
        is_known = self.state is not None and len(self.state.entries) == self.recipes
        return bool(self.recorded.unrecorded) or not is_known

    def bases(self, judge: Judge, files: Iterable[str]) -> dict[str, str]:
        """On what the recipes of some files depend, as digests."""
        known = recordings(judge, self.state)
        return {name: basis_of(known.get(name)) for name in files}

    def made(self, reread: Sequence[str]) -> str:
        """A digest of what recipes made, as `made_in` gives it; empty where it isn't known."""
        if self.state is None or len(self.state.entries) != self.recipes:
            return ""
        return made_in(self.state, reread) or ""


def recorded(
    request: Request, translated: Translated, desk: Desk, known: Recording | None = None
) -> Recording:
    """The recording of the first build, as far as it isn't known yet. Where all is asked for by
    which one is `known` that was made just before, that is it."""
    asked = asked_of(request, translated, trusted_targets(request, translated.judge))
    if known is not None and known.came is not None and known.asked == asked:
        waiting = known.waiting or Waiting()
        return taken(request, translated, desk, known.came, asked, waiting)
    record = partial(record_build, request, translated, desk)
    return desk.step("record", record, word_of_recording, translated.judge.tail.text)


def recorded_at_once(request: Request, translated: Translated, desk: Desk) -> Recording:
    """The same where the tool hasn't built yet. Raises `RecordingFault` as soon as a recipe
    fails."""
    record = partial(record_build, request, translated, desk, ("-S",))
    return desk.step("record", record, word_of_recording, translated.judge.tail.text)


def word_of_recording(recording: Recording) -> str:
    """How many of all recipes were recorded by now, where all have a record."""
    return recording.count


def asked_of(request: Request, translated: Translated, trusted: Sequence[str]) -> list[str]:
    """The words of the recorder, and at the end the makefile that it records."""
    words = [word for prefix in request.fixed for word in ("--fixed", prefix)]
    words += [word for target in trusted for word in ("--trust", target)]
    words += [] if request.replay else ["--no-replay"]
    name = FIRST if translated.has_first else LATER
    text = Path(translated.judge.path(name)).read_bytes().decode("utf-8", "surrogateescape")
    return [*words, text]


def record_build(
    request: Request, translated: Translated, desk: Desk, more: Sequence[str] = ()
) -> Recording:
    """Records the first build, with `more` words of the recorder, and reads what it gave."""
    judge = translated.judge
    trusted = trusted_targets(request, judge)
    asked = asked_of(request, translated, trusted)
    desk.take_state()
    bench = Bench(judge, translated.has_first, desk.recording)
    words = [sys.executable, str(recorder()), *more, *asked[:-1]]
    anew = bench.anew_before(trusted)
    if is_other_choice(desk.recording, request.fixed, [*trusted, *anew]):
        os.unlink(path_of_state(desk.recording))
        anew = set()
    made = bench.record_anew(words, anew) if anew else None
    if made is None:
        anew = set()
        made = bench.record(words)
        if more_anew := bench.begun_anew(made.came):
            trusting = bench.record_anew(words, more_anew)
            made, anew = (bench.record(words), anew) if trusting is None else (trusting, more_anew)
    desk.log += [line for line in made.text.splitlines() if not COUNT.match(line)]
    waiting = replace(made.waiting, anew=frozenset(anew))
    return taken(request, translated, desk, made.came, asked, waiting)


@dataclass
class Waiting:
    """Recipes that fail where they don't wait for targets that are made later."""

    makers: dict[str, list[str]] = field(default_factory=dict)
    """For each of them, by its name in the makefile, these targets."""

    texts: dict[str, Failure] = field(default_factory=dict)
    """Why each failed."""

    anew: frozenset[str] = frozenset()
    """Those that begin without their outputs, since others take these away before."""

    def add(self, failures: Iterable[Failure]) -> bool:
        """Lets recipes that failed wait for what they looked for in vain; tells whether there is
        anything new for which one waits."""
        is_new = False
        for failure in failures:
            known = self.makers.get(failure.target, [])
            if more := [name for name in failure.makers if name not in known]:
                self.makers[failure.target] = [*known, *more]
                self.texts.setdefault(failure.target, failure)
                is_new = True
        return is_new


@dataclass(frozen=True)
class Made:
    """What one recording came to, and what the recorder said."""

    came: RecordingAnswer
    text: str
    waiting: Waiting


@dataclass(frozen=True)
class Bench:
    """Has the recorder record a build, more than once where that mends what failed."""

    judge: Judge
    first: bool
    """Whether the first build is another one."""

    book: str

    def record(self, words: list[str]) -> Made:
        """Records the build. A recipe that failed, and that looked for a target which is made
        later, is recorded behind the recipe of that one: then `check` finds what it lacks."""
        waiting = Waiting()
        # Whether nothing was known when it began, so that all was recorded by now.
        is_first: bool | None = None
        for _ in range(ROUNDS_AT_MOST):
            try:
                came, text = self.judge.record(words, self.first, self.book, waiting.makers)
                is_first = came.known == 0 if is_first is None else is_first
                if not waiting.add(came.unrecorded):
                    return Made(replace(came, known=0) if is_first else came, text, waiting)
            except RecordingFault as fault:
                is_first = True if is_first is None else is_first
                is_new = waiting.add(fault.failures)
                if not waiting.makers:
                    raise
                if not is_new:
                    break
        # What these wait for may be a cycle.
        return Made(*self.judge.record(words, self.first, self.book, {}), Waiting())

    def record_anew(self, words: list[str], targets: set[str]) -> Made | None:
        """The same, where these recipes run again without their outputs alone, since others take
        these away before; None where that isn't so, and the state is gone."""
        trusts = [word for one in sorted(targets) for word in ("--trust", ALIKE + one)]
        made = self.record([*words, *trusts])
        noted = {note.target for note in read_notes(self.book).notes if note.kind is Kind.TRUSTED}
        known, build = self.known(), self.judge.build
        nodes = [self.node(target) for target in targets]
        is_right = not noted & targets and all(
            is_begun_without(known, name, cleared_by(build, known, name)) for name in nodes
        )
        if is_right:
            return made
        os.unlink(path_of_state(self.book))
        return None

    def begun_anew(self, came: RecordingAnswer) -> set[str]:
        """The phony recipes that can't be recorded, perhaps since they find their outputs, where
        phony recipes before them take files away."""
        known, build = self.known(), self.judge.build
        found = set()
        for failure in came.unrecorded:
            node = build.nodes.get(self.node(failure.target))
            is_odd = failure.make_in is not None or FAILED in failure.text
            if node is not None and node.kind is BuildKind.PHONY and node.commands and not is_odd:
                if cleared_by(build, known, node.name):
                    found.add(failure.target)
        return found

    def anew_before(self, trusted: Sequence[str]) -> set[str]:
        """Those that were recorded so the last time."""
        choice = read_choice(path_of_state(self.book))
        words = set(choice.trusted) if choice is not None else set()
        found = {word.removeprefix(ALIKE) for word in words if word.startswith(ALIKE)}
        own = {word.removeprefix(ALIKE).removeprefix(KEPT) for word in trusted}
        return found & {*self.judge.names().written.values()} - own

    def known(self) -> dict[str, Entry]:
        """What the recorder knows of each recipe."""
        return recordings(self.judge, state_of(self.book))

    def node(self, target: str) -> str:
        """The node of a target of the makefile."""
        back = {word: name for name, word in self.judge.names().written.items()}
        return back.get(target, target)


def taken(
    request: Request,
    translated: Translated,
    desk: Desk,
    came: RecordingAnswer,
    asked: Sequence[str],
    waiting: Waiting,
) -> Recording:
    """What the recorder gave of a build, and what it knows of each recipe."""
    build, judge = translated.build, translated.judge
    shutil.copyfile(desk.recording, desk.path(BOOK))
    if os.path.exists(path_of_notes(desk.recording)):
        shutil.copyfile(path_of_notes(desk.recording), path_of_notes(desk.path(BOOK)))
    state = state_of(desk.recording)
    folders = {name.rstrip("/") for name in build.made if name.endswith("/")}
    if folders and state is None:
        raise Fault("what recipes looked at isn't known: import again")
    found = Recorded(
        judge.unrecorded(came.unrecorded, request.log),
        judge.notes(OF_TRANSLATION, waiting.anew.union(own_trusted(request, judge))),
        waited_in(judge, came, waiting, request.log),
        judge.looks(state, folders) if state is not None else {},
    )
    save(judge, desk, found)
    return Recording(
        found,
        "" if came.unrecorded else f"{came.recipes - came.known} of {came.recipes} recipes",
        state,
        len(judge.read_book().records),
        digest_of_recording(desk.text(BOOK), found, request.replay),
        asked,
        came,
        waiting,
    )


def waited_in(
    judge: Judge, came: RecordingAnswer, waiting: Waiting, log: str
) -> dict[str, list[str]]:
    """The recipes that were recorded behind what they lack, as `Recorded` has them."""
    failed = {failure.target for failure in came.unrecorded}
    back = {word: name for name, word in judge.names().written.items() if "\0" not in name}
    return {
        back.get(target, target): [last_lines(failure.text, log), *waiting.makers[target]]
        for target, failure in waiting.texts.items()
        if target not in failed
    }


def digest_of_recording(book: str, found: Recorded, replay: bool) -> str:
    """A digest of all that the recorder gave. An update tells its notes in another order."""
    unrecorded = sorted((name, without_details(text)) for name, text in found.unrecorded.items())
    said = unrecorded, sorted(map(str, found.noted.notes)), sorted(found.waited)
    return digest_of_value([book, *said, found.noted.missing, replay])


def without_details(text: str) -> str:
    """What is said of a recipe without a record, but for the details in which two runs of it
    differ: these are others each time."""
    first = text.split("\n", 1)[0]
    return text if FAILED in first else first


def state_of(book: str) -> State | None:
    """What the recorder knows of each recipe."""
    try:
        return read_state(path_of_state(book))
    except Unusable:
        return None


def is_other_choice(book: str, fixed: Sequence[str], trusted: Sequence[str]) -> bool:
    """Whether the recording before was asked for something that this one isn't: the recorder would
    take that from it."""
    before = read_choice(path_of_state(book))
    if before is None:
        return False
    asked = {name if name in before.steady else prefix_of(name) for name in fixed}
    is_other = {*before.prefixes, *before.steady} != asked
    return is_other or bool(before.trusted and not trusted)


def trusted_targets(request: Request, judge: Judge) -> list[str]:
    """The targets whose recipes are trusted, as the recorder takes them."""
    own = own_trusted(request, judge)
    asked = [word for target in request.trusted for word in parts_of(judge, target)]
    return [KEPT + target for target in asked] + [ALIKE + target for target in own]


def parts_of(judge: Judge, target: str) -> list[str]:
    """The names in the makefile under which the recipe of a target is recorded that the user names:
    its own, and those of its parts."""
    names, build = judge.names().written, judge.build
    nodes = [node for name, node in build.nodes.items() if name in names and node.commands]
    found = [
        names[node.name]
        for node in nodes
        if target in (names[node.name], known_as(build, node), whole_of(build, node).name)
    ]
    return found or [target]


def own_trusted(request: Request, judge: Judge) -> list[str]:
    """The targets whose recipes are trusted without being asked for, and run again without their
    outputs alone: those of `restat`, and those that configure again."""
    names, build = judge.names().written, judge.build
    alike = [name for name, node in build.nodes.items() if node.left_alike]
    found = [names[name] for name in [*alike, *configuring(build)] if name in names]
    asked = {word for target in request.trusted for word in parts_of(judge, target)}
    return [target for target in found if target not in asked]


def recordings(judge: Judge, state: State | None) -> dict[str, Entry]:
    """What the recorder knows of each recipe, by the names of nodes."""
    back = {word: name for name, word in judge.names().written.items() if "\0" not in name}
    entries = {} if state is None else state.entries
    return {back.get(word, word): entry for word, entry in entries.items()}
