"""An import, from what is asked for to the answer: what the tool says, the build, its translation,
the recording, what that settles, and the verdict. Each step gives a value that the next one takes.
"""

from __future__ import annotations

import json
import os
import secrets
from collections.abc import Mapping
from dataclasses import dataclass, replace
from functools import partial
from typing import Generic

from mkcheck_tools.book.paths import path_of_store
from mkcheck_tools.book.updating import Conditions
from mkcheck_tools.faults import Fault
from mkcheck_tools.imports.answers import AS_FAR_AS_JUDGED, counted
from mkcheck_tools.imports.builds import Build
from mkcheck_tools.imports.copies import Copies
from mkcheck_tools.imports.desk import LOG, SAVED, Desk
from mkcheck_tools.imports.gnumake import outer_environment
from mkcheck_tools.imports.grouping import grouped
from mkcheck_tools.imports.judged import Judged, answer, is_probed, judged_by, tell, write_answer
from mkcheck_tools.imports.judging import BOOK, FIRST, RecordingFault
from mkcheck_tools.imports.kept import Answer, Kept, Now, change_of, digest_of_value, files_of
from mkcheck_tools.imports.leftovers import tracked_files
from mkcheck_tools.imports.probing import Before
from mkcheck_tools.imports.recordings import Recording, recorded, recorded_at_once
from mkcheck_tools.imports.request import Request
from mkcheck_tools.imports.saving import build_of_text, recorded_of_text
from mkcheck_tools.imports.tools import Built, NinjaTool, Shown, Tool, program_of, tool_of
from mkcheck_tools.imports.translated import (
    Translated,
    add_configured,
    checker,
    find_programs,
    judge_of,
    word_of_translation,
    written,
)
from mkcheck_tools.replay.versions import digest_of
from mkcheck_tools.run import places
from mkcheck_tools.run.paths import resolved
from mkcheck_tools.run.places import Place

STEPS = ("read", "translate", "graph", "record", "check")
OTHER_FILES = "recipes make other files now, or other dependency files"
WITHOUT_BUILD = (
    "it was translated without a build (--only translate), so what the build tool knows only after"
    " one, as dependency files, isn't in it: import without --only"
)


def import_folder(request: Request, desk: Desk, scratch: str) -> int:
    """Does the steps that are asked for, and gives the status. What was made is written however
    they end."""
    find_programs(request)
    left_out = (request.output, os.path.join(request.root, ".mkcheck"))
    copies = Copies(request.root, os.path.join(scratch, "copies"), left_out)
    if request.only in ("graph", "record", "check"):
        return saved_step(request, desk, copies)
    tool = tool_of(request, copies, scratch)
    if isinstance(tool, NinjaTool):
        return Import(request, desk, copies, tool).run()
    return Import(request, desk, copies, tool).run()


@dataclass(frozen=True)
class Import(Generic[Shown, Built]):
    """The steps of one import by one build tool."""

    request: Request
    desk: Desk
    copies: Copies
    tool: Tool[Shown, Built]

    def run(self) -> int:
        """Does the steps, and gives the status."""
        only = self.request.only
        # What is edited from now on is another file the next time.
        files = files_of(self.request.root, (self.request.output,))
        shown = self.desk.step("read", self.tool.read, self.tool.word)
        if only == "read":
            return 0
        if self.request.look:
            return look(self.translated(shown, None), self.desk, self.tool.unsure(shown))
        if only == "translate":
            built = self.built(shown) if self.request.build else None
            return end_early(self.translated(shown, built).build)
        files = files.without(self.tool.hidden(shown))
        now = Now(self.request.root, conditions_of(self.request), files, self.tool.said(shown))
        status = self.again(now)
        return self.anew(shown, now) if status is None else status

    def built(self, shown: Shown) -> Built:
        """Lets the tool build in a copy."""
        how_far = partial(self.tool.how_far, shown)
        build = partial(self.tool.build, shown)
        return self.desk.step("build", build, self.tool.word_of_build, how_far)

    def translated(self, shown: Shown, built: Built | None) -> Translated:
        """The translation, which is written."""

        def translate() -> Translated:
            if built is not None:
                build = self.tool.translate_built(built)
            else:
                build = self.tool.translate(shown)
                if self.request.only is not None:
                    build.problem(WITHOUT_BUILD)
            place = self.copies.place("read")
            add_configured(build, place, self.request.configured)
            return written(build, place, self.desk)

        look = self.tool.far.text
        translated = self.desk.step("translate", translate, word_of_translation, look)
        made = translated.build
        for text in grouped(made.problems, made.subjects) if self.request.is_whole else ():
            self.desk.say(f"not judged: {text}")
        return translated

    def anew(self, shown: Shown, now: Now) -> int:
        """Builds, translates, records and checks; gives the status."""
        known = self.recorded_first(shown)
        built = self.built(shown) if known is None else known[0]
        basis = self.tool.basis(built)
        translated = self.translated(shown, built)
        if translated.build.failed:
            raise Fault(translated.build.failed)
        judge = translated.judge
        self.desk.step("graph", partial(judge.graph, translated.has_first), str)
        nodes = translated.build.nodes
        own = (name for name in basis.alike if name in nodes and nodes[name].commands)
        basis = replace(basis, alike=tuple(own))
        kept = now.kept(basis, translated.text, secrets.token_hex(16))
        self.desk.keep(kept)
        first = None if known is None else known[1]
        recording = recorded(self.request, translated, self.desk, first)
        before = Before({}, files=now.files.entries)
        judged = judged_by(translated, recording, self.desk, self.copies, before)
        bases = recording.bases(judge, kept.alike)
        return self.answer(judged, recording, replace(kept, bases=bases))

    def recorded_first(self, shown: Shown) -> tuple[Built, Recording] | None:
        """Records the build before the tool builds, and gives what that shows in place of a build;
        None where the tool has to build, as to tell why a recipe fails."""
        build = self.tool.recordable(shown)
        if build is None:
            return None
        place = self.copies.place("read")
        add_configured(build, place, self.request.configured)
        translated = written(build, place, self.desk)
        translated.judge.graph(translated.has_first)
        try:
            recording = recorded_at_once(self.request, translated, self.desk)
        except RecordingFault as fault:
            if not fault.is_of_command:
                raise
            return None
        if recording.state is None or recording.is_partial:
            return None
        store = path_of_store(self.desk.recording)
        built = self.tool.recorded(shown, recording.state, store)
        return None if built is None else (built, recording)

    def again(self, now: Now) -> int | None:
        """Does as much as the last import left to do, and gives the status; None where all has to
        be done, since it isn't sure that its translation still holds."""
        kept = self.desk.take_kept()
        if kept is None:
            return None
        if places.namespace() is None:
            self.refuse("without mount namespaces copies have other paths each time")
            return None
        change = change_of(kept, now)
        if change.why:
            self.refuse(change.why)
            return None
        place = self.copies.place("read")
        translated = written(build_of_text(kept.build), place, self.desk)
        try:
            recording = recorded(self.request, translated, self.desk)
        except RecordingFault:
            self.refuse("a recipe can't be recorded")
            return None
        before = kept.answer
        is_same = before is not None and before.recorded == recording.digest
        bases = recording.bases(translated.judge, kept.alike)
        if change.is_edited or (before is not None and not is_same):
            if why := other_build(kept, recording, bases):
                self.refuse(why)
                return None
        elif before is not None and self.desk.digests(self.request.output) == before.files:
            return self.answer_before(before)
        known = Before({}, files=now.files.entries, tried=kept.tried)
        if is_probed(translated, recording, known):
            self.refuse("recipes have to be tried in a copy that is built")
            return None
        judged = judged_by(translated, recording, self.desk, self.copies, known)
        return self.answer(judged, recording, replace(kept, files=now.files, bases=bases))

    def refuse(self, why: str) -> None:
        """Tells why the last translation isn't taken."""
        self.desk.clear()
        self.desk.say(f"translated anew, since {why}")

    def answer_before(self, answer: Answer) -> int:
        """Gives the answer of the last import, with all that belongs to it."""
        self.desk.clear()
        self.desk.take_output()
        self.desk.log_notes(build_of_text(self.desk.text(SAVED)).notes)
        tell(answer.lines, self.desk)
        return answer.status

    def answer(self, judged: Judged, recording: Recording, kept: Kept) -> int:
        """Prints the answer, keeps what the next import may take, and gives the status."""
        lines, status = answer(self.request, judged, recording.recorded)
        tell(lines, self.desk)
        write_answer(judged, self.desk)
        files = self.desk.digests(self.desk.drafts)
        found = Answer(tuple(lines), status, recording.digest, files) if status != 2 else None
        made = recording.made(kept.reread)
        self.desk.keep(replace(kept, made=made, tried=judged.tried, answer=found))
        return status


def other_build(kept: Kept, recording: Recording, bases: Mapping[str, str]) -> str:
    """Why the translation may not be that of the files as they are now, which were recorded; empty
    where it is. `bases` are those of the recipes that left files as they were."""
    if recording.recorded.unrecorded:
        return "a recipe can't be recorded"
    if kept.anew:
        return f"recipes do something else now, and {kept.anew[0]}"
    others = [name for name in kept.alike if not bases[name] or bases[name] != kept.bases.get(name)]
    if others:
        return (
            f"what the recipe of {others[0]} depends on isn't the same, and whether it leaves"
            f" {others[0]} as it is was tried"
        )
    made = recording.made(kept.reread)
    if not made or not kept.made:
        return "what recipes make isn't known"
    return "" if made == kept.made else OTHER_FILES


def look(translated: Translated, desk: Desk, why: str) -> int:
    """Says what will be judged, as far as that is known without a build; `why` is a reason for
    which it isn't."""
    build = translated.build
    recipes = [node for node in build.nodes.values() if node.commands]
    named = [node for node in recipes if node.name not in build.unjudged]
    goals = ", ".join(build.goals[:5]) + (" .." if len(build.goals) > 5 else "")
    problems = grouped(build.problems, build.subjects)
    heading = "Not judged:"
    if why:
        print(f"only a build shows what will be judged, for {goals}, by {build.tool}: {why}")
        heading = "Left open by `make -n` (a build may show it):"
    else:
        desk.step("graph", partial(translated.judge.graph, translated.has_first), str)
        all_of = f"{len(named)} of {counted(len(recipes), 'recipe')}"
        print(f"{all_of} will be judged, for {goals}, by {build.tool}")
    notes = grouped(build.notes, build.subjects)
    for front, texts in ((heading, problems), ("Notes:", notes)):
        if texts:
            print("\n".join(["", front, *(f"    {text}" for text in texts)]))
    return 0


def end_early(build: Build) -> int:
    """The status of a step that was asked for alone."""
    for text in grouped(build.problems, build.subjects):
        print(f"not judged: {text}")
    return AS_FAR_AS_JUDGED if build.problems else 0


def saved_step(request: Request, desk: Desk, copies: Copies) -> int:
    """Does one step with what those before it left in the folder of the output."""
    desk.take_output()
    if not os.path.exists(desk.path(SAVED)):
        raise Fault(f"{request.output} has no translation: import without --only first")
    build = build_of_text(desk.text(SAVED))
    desk.log += desk.text(LOG).splitlines()
    place = Place.of(request.root)
    if request.only == "record":
        tool = tool_of(request, copies, os.path.join(os.path.dirname(copies.scratch), "tool"))
        desk.step("read", tool.read)
        place = copies.place("read")
    judge = judge_of(build, place, desk)
    has_first = os.path.exists(judge.path(FIRST))
    translated = Translated(build, judge, has_first, "")
    if request.only == "graph":
        desk.step("graph", partial(judge.graph, has_first), str)
        return end_early(build)
    if request.only == "record":
        recorded(request, translated, desk)
        return end_early(build)
    if not os.path.exists(judge.path(BOOK)):
        raise Fault(f"{request.output} has no footprints: import with --only record first")
    noted = judge.notes(frozenset(), frozenset())
    recording = Recording(recorded_of_text(desk.text(SAVED), noted), "", None, 0, "")
    judged = judged_by(translated, recording, desk, None, Before({}))
    lines, status = answer(request, judged, recording.recorded)
    tell(lines, desk)
    write_answer(judged, desk)
    return status


def conditions_of(request: Request) -> Conditions:
    """What an import depends on beside files: words, programs, the environment."""
    program = program_of(request)
    tracked = tracked_files(request.root)
    asked = {
        "folder": json.dumps([request.root, request.folder]),
        "words": json.dumps([request.makefile, *request.words]),
        "options": json.dumps(
            [
                *(request.tool, request.keep, request.build),
                *(request.fixed, request.configured, request.trusted),
            ]
        ),
        "mkcheck": digest_of(resolved(checker())),
        request.tool: f"{program} {digest_of(resolved(program))}",
        "namespaces": f"{places.namespace() is not None} {places.shut() is not None}",
        "git": "" if tracked is None else digest_of_value(sorted(tracked)),
    }
    return Conditions.of(asked, outer_environment())
