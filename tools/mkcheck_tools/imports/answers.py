"""The lines of an answer."""

from __future__ import annotations

from itertools import takewhile

from mkcheck_tools.imports.builds import Build
from mkcheck_tools.imports.grouping import grouped
from mkcheck_tools.imports.judging import BuildVerdict
from mkcheck_tools.imports.known_names import KnownNames
from mkcheck_tools.imports.plain import names_of
from mkcheck_tools.imports.recorded import Recorded

SHOWN_AT_MOST = 8
# The status of a yes beside which something couldn't be judged.
AS_FAR_AS_JUDGED = 4


def answer_of(
    build: Build, recorded: Recorded, verdict: BuildVerdict, sentences: list[str]
) -> list[str]:
    """What is printed: the answer, the findings as sentences, and all on which the answer rests."""
    lines = [headline(build, recorded.doubts, verdict, sentences)]
    lines += ["", *sentences] if sentences else []
    known = KnownNames.of(build, names_of(build))
    if build.problems:
        texts = list(map(known.replace, grouped(build.problems, build.subjects)))
        lines += ["", "Not judged:", *(f"    {text}" for text in texts)]
    if build.unjudged:
        lines += [
            "",
            "Of a recipe that isn't judged it is presumed that it writes its targets alone.",
        ]
    if recorded.warnings:
        texts = list(dict.fromkeys(map(known.replace, recorded.warnings)))
        lines += ["", "What the recorder says:"]
        lines += [f"    {text}" for text in shown(texts)]
    if build.given:
        lines += [
            "",
            "There already, so the rules that the build has for them aren't judged"
            f" ({counted(len(build.given), 'file')}): {', '.join(shown(list(build.given)))}",
        ]
    if build.unwritten:
        lines += [
            "",
            "Not written by their recipes, which therefore run in each build"
            f" ({counted(len(build.unwritten), 'target')}): {', '.join(shown(build.unwritten))}",
        ]
    if build.notes:
        texts = list(map(known.replace, grouped(build.notes, build.subjects)))
        lines += ["", "Of the translation:", *(f"    {text}" for text in shown(texts))]
    return lines


def headline(build: Build, notes: int, verdict: BuildVerdict, sentences: list[str]) -> str:
    """The first line. One sentence may tell of several findings; `notes` are those of the recorder
    that say why a yes may be wrong."""
    counts = judged(build, verdict)
    if verdict.refused:
        return f"no answer: {verdict.refused}"
    if verdict.findings:
        told = len(list(takewhile(bool, sentences)))
        among = f" in {counted(told, 'sentence')}" if told != len(verdict.findings) else ""
        return f"no: {counted(len(verdict.findings), 'finding')}{among} ({counts})"
    if is_nothing_judged(build, verdict):
        return f"no answer: no recipe could be judged, of {verdict.recipes}"
    doubts = f", with {counted(notes, 'doubt')}" if notes else ""
    if build.problems:
        return f"yes as far as judged ({counts}{doubts})"
    tool = build.tool or "the build tool"
    return f"yes: {counts}{doubts}, for the build as {tool} reads it in this configuration"


def judged(build: Build, verdict: BuildVerdict) -> str:
    """How much was judged."""
    left_out = len(build.unjudged & verdict.targets)
    if left_out:
        return f"{verdict.recipes - left_out} of {counted(verdict.recipes, 'recipe')} judged"
    text = f"{counted(verdict.recipes, 'recipe')}, {counted(verdict.reads, 'read')}"
    if not build.problems:
        return text
    questions = len(grouped(build.problems, build.subjects))
    return f"{text}; {counted(questions, 'question')} not judged"


def is_nothing_judged(build: Build, verdict: BuildVerdict) -> bool:
    """Whether no recipe was judged, and nothing was found."""
    return bool(verdict.targets) and verdict.targets <= build.unjudged and not verdict.findings


def status_of(build: Build, verdict: BuildVerdict) -> int:
    """The status of an answer."""
    if verdict.refused or is_nothing_judged(build, verdict):
        return 2
    if verdict.findings:
        return 1
    return AS_FAR_AS_JUDGED if build.problems else 0


def shown(texts: list[str]) -> list[str]:
    """Texts, or the first of many and how many more there are."""
    if len(texts) <= SHOWN_AT_MOST:
        return texts
    more = len(texts) - SHOWN_AT_MOST + 1
    return [*texts[: SHOWN_AT_MOST - 1], f"and {more} more, in import.log"]


def counted(number: int, word: str) -> str:
    """A number and a word, which is one or several."""
    return f"{number} {word}" if number == 1 else f"{number} {word}s"
