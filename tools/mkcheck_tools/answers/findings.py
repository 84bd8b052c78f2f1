"""What `mkcheck check --json` answers, as values: ways, findings in groups, or a refusal."""

from __future__ import annotations

from dataclasses import dataclass, replace
from functools import cached_property

from mkcheck_tools.answers.checkers import INSTALL, NO, REFUSED, Checker, Reply
from mkcheck_tools.answers.members import Members
from mkcheck_tools.answers.refusals import Refusal, refusal_of
from mkcheck_tools.faults import Fault

# The form of answers that is read here.
FORMAT = 1
YES_WORD, NO_WORD, REFUSED_WORD = "yes", "no", "refused"
WORDS = {0: YES_WORD, NO: NO_WORD, REFUSED: REFUSED_WORD}
# The kinds of findings, worst first.
KINDS = (
    "race",
    "writers",
    "loose",
    "given",
    "own",
    "stale",
    "selection",
    "varying",
    "unknown",
    "target",
    "commands",
    "record",
)
# How many names a finding of a kind has.
NAMES = {"race": 3, "writers": 3, "record": 1, "commands": 1, "varying": 1, "target": 1}
# Findings of other kinds hide those of these.
HIDDEN = ("race", "stale")
PHONY = ".PHONY"


@dataclass(frozen=True)
class Finding:
    """A finding: its number, its kind, and its names."""

    number: int
    kind: str
    names: tuple[str, ...]

    @property
    def text(self) -> str:
        """The finding as `check` prints it."""
        return " ".join(["no", self.kind, *self.names])

    @property
    def reader(self) -> str:
        """The recipe that reads, or the name that the finding is about."""
        return self.names[0]

    @property
    def file(self) -> str:
        """The file that the finding is about."""
        return self.names[-1]


@dataclass(frozen=True)
class Way:
    """A way: why a recipe runs when a file that it reads changes."""

    recipe: str
    file: str
    end: str
    path: tuple[str, ...]


@dataclass(frozen=True)
class Group:
    """Findings of a kind in one sentence, at their rule line if there is one, and what mends them:
    lines to add to the end of the makefile, or else what to do. It may stand for findings of other
    kinds too."""

    kind: str
    sentence: str
    targets: tuple[str, ...]
    files: tuple[str, ...]
    file: str = ""
    line: int | None = None
    adds: tuple[str, ...] = ()
    advice: str = ""
    findings: tuple[Finding, ...] = ()
    also: tuple[str, ...] = ()

    @property
    def kinds(self) -> tuple[str, ...]:
        """The kinds of its findings."""
        return (self.kind, *self.also)

    def of_kind(self, kind: str) -> list[Finding]:
        """Its findings of a kind."""
        return [finding for finding in self.findings if finding.kind == kind]

    @cached_property
    def lacking(self) -> dict[str, list[str]]:
        """For each target of the lines to add, special ones too, the prerequisites that it gets."""
        found: dict[str, list[str]] = {}
        for line in self.adds:
            targets, _, prerequisites = line.partition(": ")
            for target in targets.split(" "):
                found.setdefault(target, []).extend(prerequisites.split(" "))
        return found

    def missing(self) -> list[str]:
        """The prerequisites of the lines to add, each once; none of a special target."""
        lists = [names for target, names in self.lacking.items() if target != PHONY]
        return list(dict.fromkeys(name for names in lists for name in names))

    def lacks(self, finding: Finding) -> str:
        """The prerequisite by which a line to add mends a finding: one of its names, if there is
        one. It is empty where no line mends it."""
        names = self.lacking.get(finding.names[0], [])
        return next((name for name in finding.names[1:] if name in names), next(iter(names), ""))


@dataclass(frozen=True)
class Answer:
    """What `check` answers: a yes with its counts and ways; a no with its findings, and the groups
    of these and of what they hide; or a refusal."""

    word: str
    recipes: int = 0
    reads: int = 0
    ways: tuple[Way, ...] = ()
    findings: tuple[Finding, ...] = ()
    groups: tuple[Group, ...] = ()
    later: tuple[Group, ...] = ()
    refusal: Refusal | None = None

    @property
    def is_yes(self) -> bool:
        """Whether it is a yes."""
        return self.word == YES_WORD

    @property
    def hides(self) -> bool:
        """Whether findings hide races and stale reads, of which `later` has those that can be seen
        already."""
        return any(group.kind not in HIDDEN for group in self.groups)

    @property
    def ungrouped(self) -> list[Finding]:
        """The findings that are in no group."""
        known = {one.number for group in self.groups for one in group.findings}
        return [one for one in self.findings if one.number not in known]


def answer_of(reply: Reply) -> Answer:
    """The answer in a reply to `check --json`."""
    value = Members.read(reply.output)
    if value.number("format") != FORMAT:
        raise Fault(
            f"mkcheck check --json answers in form {value.number('format')}, and these tools read"
            f" form {FORMAT}; {INSTALL}"
        )
    word = value.text("answer")
    if word != WORDS[reply.status]:
        raise Fault(
            f"mkcheck check --json answers {word!r} with status {reply.status}; {INSTALL}"
        )
    if word == REFUSED_WORD:
        return Answer(word, refusal=refusal_of(value))
    if word == YES_WORD:
        ways = tuple(map(way_of, value.inner("certificate").objects("ways")))
        return Answer(word, value.number("recipes"), value.number("reads"), ways)
    findings = tuple(map(finding_of, value.objects("findings")))
    return Answer(
        word,
        findings=findings,
        groups=with_findings(tuple(map(group_of, value.objects("groups"))), findings),
        later=tuple(map(group_of, value.objects("later"))),
    )


def refusal_by(checker: Checker) -> Refusal:
    """Why mkcheck refuses a build whose graph it doesn't give, as `check` says it."""
    refusal = answer_of(checker.check()).refusal
    if refusal is None:
        raise Fault(f"{checker.program} refuses the graph of a build that it checks; {INSTALL}")
    return refusal


def way_of(value: Members) -> Way:
    """A way."""
    return Way(value.text("recipe"), value.text("file"), value.text("end"), value.texts("path"))


def finding_of(value: Members) -> Finding:
    """A finding. Its text is `no`, its kind and its names, which have no blanks."""
    words = value.text("text").split(" ")
    is_known = words[0] == "no" and len(words) > 2
    if not is_known or (words[1] in KINDS and len(words) - 2 != NAMES.get(words[1], 2)):
        raise Fault(f"mkcheck printed a line that no finding has: {value.text('text')[:80]!r}")
    return Finding(value.number("number"), words[1], tuple(words[2:]))


def group_of(value: Members) -> Group:
    """A group, without its findings."""
    place = None if value.is_null("place") else value.inner("place")
    added = "" if value.is_null("add") else value.text("add")
    return Group(
        value.text("kind"),
        value.text("sentence"),
        value.texts("targets"),
        value.texts("files"),
        file=place.text("file") if place else "",
        line=place.number("line") if place else None,
        adds=tuple(added.split("\n")[:-1]),
        advice="" if value.is_null("do") else value.text("do"),
        also=value.texts("also") if "also" in value.values else (),
    )


# A kind, the targets of a finding and its file.
Key = tuple[str, tuple[str, ...], str]


def key_of(finding: Finding) -> Key:
    """By what the group of a finding is looked up. A group of `loose` has no writers."""
    kind, names = finding.kind, finding.names
    if kind == "writers":
        return kind, names[:2], finding.file
    if kind == "loose":
        return kind, names[:1], names[0]
    return kind, names[:1], finding.file if len(names) > 1 else ""


def keys_of(group: Group) -> list[Key]:
    """All of them that a group has."""
    if group.kind == "writers":
        return [(group.kind, group.targets, file) for file in group.files]
    if group.kind == "loose":
        return [(group.kind, (name,), name) for name in group.targets]
    files = group.files or ("",)
    return [
        (kind, (name,), file)
        for kind in group.kinds
        for name in group.targets
        for file in files
    ]


def with_findings(groups: tuple[Group, ...], findings: tuple[Finding, ...]) -> tuple[Group, ...]:
    """The groups, each with its findings."""
    known: dict[Key, list[int]] = {}
    for number, group in enumerate(groups):
        for key in keys_of(group):
            known.setdefault(key, []).append(number)
    found: list[list[Finding]] = [[] for _ in groups]
    for finding in findings:
        numbers = known.get(key_of(finding), [])
        if len(numbers) > 1:
            # A name of which one writer can be added, and another one can't.
            mended = [one for one in numbers if groups[one].lacks(finding) in finding.names[1:]]
            numbers = mended or [one for one in numbers if not groups[one].adds] or numbers
        if numbers:
            found[numbers[0]].append(finding)
    return tuple(replace(group, findings=tuple(own)) for group, own in zip(groups, found))
