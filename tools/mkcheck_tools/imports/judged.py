"""What a recording settles of a build, the verdict on it, and the answer."""

from __future__ import annotations

import copy
import os
from collections.abc import Iterable
from dataclasses import dataclass, replace

from mkcheck_tools.book.footprint_files import Footprints
from mkcheck_tools.book.states import Entry
from mkcheck_tools.imports.answers import answer_of, status_of
from mkcheck_tools.imports.builds import Build
from mkcheck_tools.imports.copies import Copies, listing
from mkcheck_tools.imports.desk import ANSWER, Desk
from mkcheck_tools.imports.judging import BuildVerdict, write
from mkcheck_tools.imports.kept import Tried
from mkcheck_tools.imports.probing import Before, Probing
from mkcheck_tools.imports.recorded import Recorded
from mkcheck_tools.imports.recordings import Recording, recordings
from mkcheck_tools.imports.removals import drop_removals
from mkcheck_tools.imports.request import Request
from mkcheck_tools.imports.sentences import Sentences
from mkcheck_tools.imports.settling import Settling
from mkcheck_tools.imports.telling import Far
from mkcheck_tools.imports.told import Teller
from mkcheck_tools.imports.translated import Translated, save
from mkcheck_tools.run.places import Place


@dataclass(frozen=True)
class Settled:
    """A build and its footprints as the recording settles them; at which folders its recipes
    looked, and what the recorder knows of each."""

    build: Build
    footprints: Footprints
    looked: dict[str, list[str]]
    recordings: dict[str, Entry]


@dataclass(frozen=True)
class Judged:
    """A build as the recording settles it, its footprints, what was found of it, and what came of
    trying its recipes."""

    build: Build
    footprints: Footprints
    verdict: BuildVerdict
    has_first: bool
    tried: dict[str, Tried]


def is_probed(translated: Translated, recording: Recording, before: Before) -> bool:
    """Whether there are recipes that have to be tried in a copy of the project that is built."""
    settled = settled_by(translated, recording)
    return probing(settled, before, None, {}).needs_build()


def probing(
    settled: Settled, before: Before, built: Place | None, environment: dict[str, str]
) -> Probing:
    """What tries recipes, of which the recording tells more than was known `before`."""
    known = replace(before, looked=settled.looked, recordings=settled.recordings)
    return Probing(settled.build, settled.footprints, known, built, environment)


def judged_by(
    translated: Translated,
    recording: Recording,
    desk: Desk,
    copies: Copies | None,
    before: Before,
) -> Judged:
    """Settles what only the recording tells, and checks. Without copies of the project nothing is
    tried; `before` has what came of that in the import before."""

    def check() -> Judged:
        settled = settled_by(translated, recording)
        judge = replace(translated.judge, build=settled.build)
        place = None
        if copies is not None and "built" in copies.made:
            place = copies.shut("built")
        said = replace(recording.recorded, looked=settled.looked)
        tried = probing(settled, before, place, judge.environment).probe(far)
        if place is not None and copies is not None:
            copies.place("read")
        judge.write_book(settled.footprints, said.noted)
        has_first = save(judge, desk, said)
        verdict = judge.check(has_first)
        name_unfound(settled.build, verdict, said)
        return Judged(settled.build, settled.footprints, verdict, has_first, tried)

    far = Far()
    return desk.step("check", check, word_of_check, far.text)


def name_unfound(build: Build, verdict: BuildVerdict, said: Recorded) -> None:
    """Names recipes that fail where they don't wait for what other recipes make later, and of which
    no finding says so: footprints name no folders, and other findings hide races."""
    races = [found.words for found in verdict.findings if found.kind == "race"]
    known = [(name_before(words[0]), {*map(name_before, words[1:])}) for words in races]
    for target, (text, *makers) in {**build.waited, **said.waited}.items():
        if not any(target == recipe and names & {*makers} for recipe, names in known):
            node = build.nodes.get(target)
            where = str(node.origin) if node is not None and node.origin else target
            build.problem(f"{where}: {text}", target)


def name_before(name: str) -> str:
    """The name of the file for which a node stands that one of several makes has."""
    return name.partition("@make")[0]


def word_of_check(judged: Judged) -> str:
    """Whether the first build is another one."""
    return "two passes" if judged.has_first else ""


def settled_by(translated: Translated, recording: Recording) -> Settled:
    """The build and its footprints as the recording settles them."""
    build = copy.deepcopy(translated.build)
    judge = replace(translated.judge, build=build)
    footprints = judge.read_book()
    judge.complete(footprints, translated.has_first, recording.recorded.unrecorded)
    known = recordings(translated.judge, recording.state)
    drop_removals(build, footprints, known)
    settling = Settling(build, footprints, listing(judge.place.folder))
    settling.settle()
    looked = recording.recorded.looked
    renamed = {settling.renamed.get(name, name): found for name, found in looked.items()}
    return Settled(
        build,
        footprints,
        renamed,
        {settling.renamed.get(name, name): entry for name, entry in known.items()},
    )


def answer(request: Request, judged: Judged, said: Recorded) -> tuple[list[str], int]:
    """The lines of the answer, and its status."""
    told = Sentences(judged.build, judged.footprints, judged.has_first)
    folder = os.path.relpath(request.output, request.root)
    folder = request.output if folder.startswith("../") else folder
    words = f"-f {folder}/makefile -b {folder}/footprint.json"
    verdict = judged.verdict
    texts = told.texts(verdict.findings, f"mkcheck check -w {words}" * verdict.hides)
    return answer_of(judged.build, said, verdict, texts), status_of(judged.build, verdict)


def tell(lines: Iterable[str], desk: Desk) -> None:
    """Prints an answer."""
    for line in lines:
        print(line)
    desk.log += ["", *lines]


def write_answer(judged: Judged, desk: Desk) -> None:
    """Writes the answer for other programs."""
    teller = Teller(judged.build, judged.footprints, judged.has_first)
    write(desk.path(ANSWER), teller.answer(judged.verdict))
