"""Which lines mend findings, at which place of which file, and what only a person can decide."""

from __future__ import annotations

import os
from collections.abc import Iterable
from dataclasses import dataclass, field

from mkcheck_tools.answers.graphs import goes_on
from mkcheck_tools.audit.layouts import Layout
from mkcheck_tools.audit.makefile_lines import Sources
from mkcheck_tools.audit.verdicts import Audited, Finding, Mend


@dataclass(frozen=True)
class Left:
    """A finding that is left to a person, and what to do; nothing where its sentence says so."""

    finding: Finding
    why: str


@dataclass(frozen=True)
class Addition:
    """Lines to add to a file, behind a line; at the end of the file without one."""

    file: str
    behind: int | None
    lines: tuple[str, ...]


@dataclass
class Lacking:
    """What rules lack at one place: the words of each target, and lines that stand for
    themselves."""

    words: dict[str, list[str]] = field(default_factory=dict)
    whole: dict[str, None] = field(default_factory=dict)

    def add(self, mend: Mend) -> None:
        """A line to add. One with a recipe isn't joined with another."""
        if ";" in mend.words or any(target.startswith(".") for target in mend.targets):
            self.whole[mend.text] = None
            return
        for target in mend.targets:
            words = self.words.setdefault(target, [])
            words += [word for word in mend.words if word not in words]

    def lines(self) -> tuple[str, ...]:
        """The lines: targets that lack the same are one."""
        alike: dict[tuple[str, ...], list[str]] = {}
        for target, words in self.words.items():
            alike.setdefault(tuple(words), []).append(target)
        joined = [f"{' '.join(names)}: {' '.join(words)}" for words, names in alike.items()]
        return (*joined, *self.whole)


@dataclass(frozen=True)
class Mending:
    """What mends the findings of an audit: additions, and what is left to a person."""

    additions: tuple[Addition, ...]
    left: tuple[Left, ...]

    def why(self, finding: Finding) -> str | None:
        """What a person has to do about a finding, if it is left to one."""
        return next((left.why for left in self.left if left.finding is finding), None)


def mending_of(audited: Audited, sources: Sources) -> Mending:
    """What mends the findings that nobody accepted."""
    left: list[Left] = []
    lacking: dict[tuple[str, int | None], Lacking] = {}
    for finding in audited.open:
        why = why_left(finding, audited, sources)
        if why is not None:
            left.append(Left(finding, why))
            continue
        for mend in finding.mends:
            place = place_of(mend, audited, sources)
            if place is not None:
                lacking.setdefault(place, Lacking()).add(mend)
    additions = [Addition(file, behind, one.lines()) for (file, behind), one in lacking.items()]
    return Mending(tuple(additions), tuple(left))


def why_left(finding: Finding, audited: Audited, sources: Sources) -> str | None:
    """What a person has to do about a finding, which may be empty where the finding says so itself;
    None where lines mend it that can be written."""
    if not finding.mends:
        return finding.advice
    for mend in finding.mends:
        inside = next(mend.inside, None)
        if inside is not None:
            return (
                f"{inside[1]} lies in {inside[0]}, which has to be there before it: let the recipe"
                f" that makes it need that (`{inside[1]}: | {inside[0]}`), and write `mkdir -p` in"
                " recipes that make folders"
            )
        name = mend.spot.file
        if name in audited.generators:
            return f"{name} lacks `{mend.text}`; {audited.generators[name]}"
        if name.endswith(".ninja"):
            text = f"| {' '.join(mend.words)}"
            return f"write `{text}` at the end of that build line (behind its `|`, if it has one)"
        if mend.takes_all:
            words, macro = " ".join(mend.words), mend.takes_all
            return (
                f"add `{mend.text}`; the recipe takes all prerequisites by {macro}, so write"
                f" $(filter-out {words},{macro}) there, if it isn't to take {words} too"
            )
        if not is_own_file(sources.root, name):
            return f"add `{mend.text}` to {name}, which isn't a file of the project"
        if place_of(mend, audited, sources) is None:
            return f"add `{mend.text}` to the makefile that includes {name}"
    return None


def is_own_file(root: str, name: str) -> bool:
    """Whether a file lies in the project's folder."""
    path = os.path.realpath(os.path.join(root, name))
    return os.path.isfile(path) and path.startswith(os.path.realpath(root) + os.sep)


def place_of(mend: Mend, audited: Audited, sources: Sources) -> tuple[str, int | None] | None:
    """The file to which a line is added, and the line behind which it comes; none at the end.

    A file that has no rule for a goal may be included before the first one: a line in it would
    change what make makes without a goal. The line then stands in the makefile that make reads
    first, if that lies in the same folder; else no place is known. Before the rule of one of its
    targets a line would give that another first prerequisite, and so another `$<`: it comes last.
    """
    name = mend.spot.file
    layout = Layout.of(sources.lines(name))
    if layout.first_goal is not None or name == audited.makefile:
        place = layout.place_after(mend.spot.line)
        return name, None if has_rule_behind(mend, sources.lines(name), place) else place
    if os.path.dirname(name) == os.path.dirname(audited.makefile):
        return audited.makefile, None
    return None


def has_rule_behind(mend: Mend, lines: list[str], place: int | None) -> bool:
    """Whether a rule for one of several targets of a line stands behind its place."""
    if place is None or len(mend.targets) == 1:
        return False
    fronts = (line.partition(":")[0].split() for line in lines[place:] if ":" in line)
    return any(target in front for front in fronts for target in mend.targets)


def addition_of(mend: Mend, audited: Audited, sources: Sources) -> Addition | None:
    """A line with its place; None where none is known."""
    place = place_of(mend, audited, sources)
    return None if place is None else Addition(*place, (mend.text,))


def closes(text: str) -> bool:
    """Whether a line at the end of a text is one of its own: behind an escaped newline it would be
    a part of the line before."""
    last = text.removesuffix("\n").rpartition("\n")[2]
    return not goes_on(last.removesuffix("\r"))


def texts_of(additions: Iterable[Addition], sources: Sources) -> dict[str, tuple[str, str]]:
    """The texts of files, before and after the additions."""
    found: dict[str, list[Addition]] = {}
    for addition in additions:
        found.setdefault(addition.file, []).append(addition)
    return {
        name: (sources.text(name), with_additions(sources.text(name), those))
        for name, those in found.items()
    }


def with_additions(text: str, additions: Iterable[Addition]) -> str:
    """A text with lines added, which end as its others do."""
    lines = [f"{line}\n" for line in text.split("\n")]
    rest = lines.pop().removesuffix("\n")
    end = "\r\n" if lines and lines[0].endswith("\r\n") else "\n"
    if rest:
        lines.append(f"{rest}{end}")
    closing = [] if closes(text) else [end]
    for addition in sorted(additions, key=lambda one: -(one.behind or len(lines) + 1)):
        added = [f"{line}{end}" for line in addition.lines]
        if addition.behind is None:
            lines += [*closing, *added]
        else:
            lines[addition.behind : addition.behind] = added
    return "".join(lines)
