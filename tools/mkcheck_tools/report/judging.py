"""Has a build judged, and gathers all that a report shows of it."""

from __future__ import annotations

from collections.abc import Iterable
from dataclasses import dataclass, field, replace

from mkcheck_tools.answers.checkers import Checker
from mkcheck_tools.answers.findings import (
    KINDS,
    Answer,
    Finding,
    Group,
    answer_of,
    refusal_by,
)
from mkcheck_tools.answers.graphs import Graph, read_graph
from mkcheck_tools.answers.refusals import Refusal, Refused
from mkcheck_tools.book.note_files import Noted, read_notes
from mkcheck_tools.faults import Fault
from mkcheck_tools.report.books import Reached, book_of
from mkcheck_tools.report.escaping import counted, visible
from mkcheck_tools.report.makefiles import Makefiles
from mkcheck_tools.report.origins import Origins


@dataclass(frozen=True)
class Above:
    """The answer of an audit, of which that to a makefile is a part."""

    word: str
    """`yes`, `no` or `refused`."""

    text: str
    is_plain: bool
    """Whether it is a yes to all that was asked."""


@dataclass
class Judged:
    """A build and the answer to it."""

    checker: Checker
    version: str
    makefile: str
    status: int
    checked: Answer
    graph: Graph = field(default_factory=Graph)
    book: Reached = field(default_factory=lambda: Reached((), frozenset(), {}, {}))
    noted: Noted = field(default_factory=Noted)
    """What the recorder knew beside the footprints."""

    origins: Origins | None = None
    """Where the names stand in the original makefiles, where the makefile is a translation."""

    above: Above | None = None
    """What an audit says of the whole build, of which the makefile may be a part."""

    @property
    def word(self) -> str:
        """The word at the top of a page."""
        return self.above.word if self.above is not None else self.answer

    @property
    def original(self) -> str:
        """The makefile that people write."""
        return (self.origins.original if self.origins else "") or self.makefile

    def rule_of(self, target: str, makefiles: Makefiles) -> tuple[str, int | None]:
        """The makefile and the line of the rule of a target."""
        if self.origins is not None:
            return self.origins.place([target]) or (self.original, None)
        return self.makefile, makefiles.rule_line(self.makefile, target)

    def lines_by_makefile(self, adds: Iterable[str]) -> dict[str, list[str]]:
        """Lines to add, by the makefile to which each is added."""
        if self.origins is None:
            return {self.makefile: list(adds)}
        found: dict[str, list[str]] = {}
        for makefile, lines in self.origins.lines(adds).items():
            found.setdefault(makefile or self.original, []).extend(lines)
        return found

    def missing_words(self, group: Group) -> list[str]:
        """The prerequisites that a group lacks, as its makefile has them."""
        if self.origins is None:
            return group.missing()
        node = self.origins.nodes.get(group.targets[0], {}) if group.targets else {}
        return [self.origins.word(name, node.get("folder") or ".") for name in group.missing()]

    @property
    def answer(self) -> str:
        """The answer in a word."""
        return self.checked.word

    @property
    def yes(self) -> str:
        """A yes in a line, as `check` prints it; nothing for another answer."""
        one = self.checked
        return f"yes {one.recipes} recipes {one.reads} reads" if one.is_yes else ""

    @property
    def refusal(self) -> Refusal | None:
        """The refusal, if it is one."""
        return self.checked.refusal

    @property
    def findings(self) -> tuple[Finding, ...]:
        """The findings of a no."""
        return self.checked.findings

    @property
    def groups(self) -> tuple[Group, ...]:
        """The groups of these."""
        return self.checked.groups

    @property
    def hidden(self) -> tuple[Group, ...]:
        """The groups of races and stale reads that these hide."""
        return self.checked.later

    @property
    def counts(self) -> str:
        """How many findings there are, in how many groups."""
        number = len(self.findings)
        return f"{counted(number, 'finding')} in {counted(len(self.groups), 'group')}"

    @property
    def kinds(self) -> list[str]:
        """The kinds of findings that there are, worst first; unknown ones last."""
        known = {finding.kind: None for finding in self.findings}
        return [*(kind for kind in KINDS if kind in known), *(k for k in known if k not in KINDS)]

    def of_kind(self, kind: str) -> list[Group]:
        """The groups with findings of a kind."""
        return [group for group in self.groups if kind in group.kinds]


def graph_and_book(checker: Checker) -> tuple[Graph, Reached]:
    """The graph, and the footprints that count for it."""
    reply = checker.ask("graph")
    if reply.status != 0:
        refusal = refusal_by(checker)
        raise Refused(replace(refusal, text=visible(refusal.text)))
    if not reply.text.startswith("goals "):
        raise Fault("mkcheck graph printed no goals")
    graph = read_graph(reply.text)
    return graph, book_of(checker.book, graph)


def judge(checker: Checker) -> Judged:
    """Has a build judged."""
    reply = checker.check()
    answer = answer_of(reply)
    origins = Origins.beside(checker.makefile)
    if origins is not None:
        groups = tuple(origins.at_origins(answer.groups))
        later = tuple(origins.at_origins(answer.later))
        answer = replace(answer, groups=groups, later=later)
    judged = Judged(checker, checker.version(), checker.makefile, reply.status, answer)
    judged.origins = origins
    judged.noted = read_notes(checker.book)
    if answer.refusal is None:
        judged.graph, judged.book = graph_and_book(checker)
    return judged


def repair_of(checker: Checker) -> str:
    """The lines by which the answer becomes yes; nothing where mkcheck knows none."""
    try:
        reply = checker.ask("repair")
    except Fault:
        return ""
    return reply.text.strip("\n") if reply.status == 0 else ""
