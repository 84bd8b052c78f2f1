"""`repair`: the lines that mend a makefile, or its findings and why nothing known mends it."""

from __future__ import annotations

from typing import NamedTuple

from graph import Node, cycle_from, cycle_with
from judge import Finding, Subject
from lines import Refused, is_make_name
from reading import Files, Found
from request import FILE_LIMIT, Request, prepared

JUDGEMENTS = 64
ADVICE = b"; mkcheck check -w says what to do\n"
OTHERS = b"lines for the other findings:\n"
NO_OTHERS = b"no lines for the other findings:\n"
OTHERS_TOO_LONG = (
    b"with lines for the other findings the makefile would have more than 16777216 bytes\n"
)
SAYS = b"with these lines mkcheck check says:\n"
UNWRITABLE = b"a makefile can't hold its names"
# Why no line mends a finding of this kind.
CAUSES = {
    b"record": b"nothing says what its recipe reads",
    b"commands": b"it was recorded with other commands",
    b"varying": b"its commands differ from make to make",
    b"target": b"its recipe doesn't write it, and it can't be phony",
    b"writers": b"two recipes write one file",
    b"given": b"a recipe writes what the build starts from",
    b"own": b"a recipe reads what it writes",
    b"unknown": b"no target alone is known to make the file",
    b"loose": b"the recipe that writes it needs it",
    b"selection": b"another inference rule applies later",
}
TOO_LONG = b"with the lines that mend this the makefile would have more than 16777216 bytes\n"
CYCLE = b"no lines mend this, since each of these names needs the next one:"
AGAIN = b"these lines change commands: append them, and record again\n"
JUDGED = b"the makefile was judged 64 times: append these lines, and run mkcheck repair again\n"
LONGER = b"with further lines the makefile would have more than 16777216 bytes\n"
SIDE_LIMIT = 2000


class Appended:
    """Files, of which one has a text appended."""

    def __init__(self, files: Files, name: bytes, text: bytes) -> None:
        self.files = files
        self.name = name
        self.text = text

    def read(self, name: bytes) -> Found:
        found = self.files.read(name)
        if name != self.name:
            return found
        assert isinstance(found, bytes)
        return found + self.text

    def why(self, name: bytes) -> bytes:
        return self.files.why(name)


def judged(request: Request, files: Files) -> tuple[Subject, bytes]:
    """What `check` judges, and the name of its makefile."""
    graph, book, passed_over = prepared(request, files)
    return Subject(graph, book, passed_over), graph.rules.makefile.texts[0]


def printed(findings: list[Finding]) -> bytes:
    return b"".join(b" ".join([b"no"] + words) + b"\n" for words in findings)


# Words.


class Word(NamedTuple):
    """A target and a prerequisite that it needs, or None in its place where it is phony."""

    target: bytes
    prerequisite: bytes | None


def maker(subject: Subject, file: bytes) -> bytes:
    """What a recipe needs that reads a file."""
    if file in subject.there.sources or file in subject.graph.nodes:
        return file
    return subject.writers[file][0]


def unreached(subject: Subject) -> list[bytes]:
    """The targets that have commands and that the goals don't reach, each once."""
    targets = [
        target
        for rule in subject.rules.makefile.rules
        if not rule.default and rule.commands is not None
        for target in rule.targets
        if target not in subject.graph.nodes
    ]
    return list(dict.fromkeys(targets))


def makers(subject: Subject, file: bytes) -> list[bytes]:
    """The targets that the goals don't reach and whose recipes may make a file."""
    outside = unreached(subject)
    if file in outside:
        return [file]
    return [target for target in outside if file in subject.writes(target)]


def writes_its_own(subject: Subject, writer: bytes, name: bytes) -> bool:
    """Whether a recipe that writes a name has it as a direct prerequisite."""
    return name in subject.node(writer).prerequisites


def is_needed(subject: Subject, target: bytes) -> bool:
    """Whether a recipe that isn't phony has the target as a direct prerequisite."""
    return any(
        node.recipe and not node.phony and target in node.prerequisites
        for node in subject.graph.serial
    )


def is_inferred(subject: Subject, target: bytes) -> bool:
    """Whether the commands of a target are those of an inference rule, which a phony target hasn't."""
    return subject.rules.own_commands(target) is None


def word_for(subject: Subject, finding: Finding) -> Word | None:
    """The word of a finding, whatever its names are, or None."""
    kind, first = finding[:2]
    word = None
    if kind == b"target":
        stays = is_needed(subject, first) or is_inferred(subject, first)
        word = None if stays else Word(first, None)
    elif kind == b"loose":
        stays = writes_its_own(subject, finding[2], first)
        word = None if stays else Word(first, finding[2])
    elif kind in (b"race", b"stale"):
        word = Word(first, maker(subject, finding[-1]))
    elif kind == b"unknown" and len(makers(subject, finding[2])) == 1:
        word = Word(first, makers(subject, finding[2])[0])
    return word


def word_of(subject: Subject, finding: Finding) -> Word | None:
    """The word of a finding, or None."""
    word = word_for(subject, finding)
    if word is None or not all(name is None or is_make_name(name) for name in word):
        return None
    return word


def some_words(subject: Subject, findings: list[Finding]) -> list[Word]:
    """The words of those findings that give one, each once."""
    found = [word_of(subject, finding) for finding in findings]
    return list(dict.fromkeys(word for word in found if word is not None))


def words_of(subject: Subject, findings: list[Finding]) -> list[Word] | None:
    """The words of all findings, each once, or None where one gives none."""
    if any(word_of(subject, finding) is None for finding in findings):
        return None
    return some_words(subject, findings)


# Lines.


def cut(names: list[bytes]) -> list[list[bytes]]:
    """The names in rows that are short enough, each as long as it may be."""
    rows: list[list[bytes]] = []
    for name in names:
        if rows and len(b" ".join(rows[-1] + [name])) <= SIDE_LIMIT:
            rows[-1].append(name)
        else:
            rows.append([name])
    return rows


def lines_between(targets: list[bytes], prerequisites: list[bytes]) -> list[bytes]:
    return [
        b" ".join(left) + b": " + b" ".join(right) + b"\n"
        for left in cut(targets)
        for right in cut(prerequisites)
    ]


def lines_of(words: list[Word]) -> list[bytes]:
    """The lines that say the words."""
    phony = [target for target, prerequisite in words if prerequisite is None]
    lacking: dict[bytes, list[bytes]] = {}
    for target, prerequisite in words:
        if prerequisite is not None:
            lacking.setdefault(target, []).append(prerequisite)
    alike: dict[tuple[bytes, ...], list[bytes]] = {}
    for target, prerequisites in lacking.items():
        alike.setdefault(tuple(prerequisites), []).append(target)
    lines = lines_between([b".PHONY"], phony)
    for needed, targets in alike.items():
        lines += lines_between(targets, list(needed))
    return lines


def obstacle(subject: Subject, findings: list[Finding]) -> bytes:
    """Why the first finding without a word has none."""
    stuck = next(finding for finding in findings if word_of(subject, finding) is None)
    cause = CAUSES[stuck[0]] if word_for(subject, stuck) is None else UNWRITABLE
    return b"no line mends `" + b" ".join([b"no"] + stuck) + b"`: " + cause + ADVICE


def hides(findings: list[Finding]) -> bool:
    """Whether findings hide races and stale reads."""
    return any(finding[0] not in (b"race", b"stale") for finding in findings)


def seen_later(subject: Subject, findings: list[Finding]) -> list[Finding]:
    """The races and stale reads that findings hide, without those that mending these may settle."""
    if not hides(findings):
        return []
    phony = [
        finding[1]
        for finding in findings
        if finding[0] == b"target" and word_of(subject, finding) is not None
    ]
    return subject.hidden(findings, phony)


def without_cycles(subject: Subject, words: list[Word]) -> list[Word]:
    """The words without those whose lines would close a cycle with the makefile or one another: as
    long as there is one, the lines on the first one go."""
    steps = [(target, needed) for target, needed in words if needed is not None]
    while cycle := cycle_with(subject.graph, steps):
        on_it = set(zip(cycle, cycle[1:]))
        steps = [step for step in steps if step not in on_it]
    return [word for word in words if word.prerequisite is None or tuple(word) in steps]


def other_lines(subject: Subject, findings: list[Finding]) -> list[bytes]:
    """The lines of the findings that give some, and of the races and stale reads that they hide, but
    for lines on cycles."""
    words = some_words(subject, findings + seen_later(subject, findings))
    return lines_of(without_cycles(subject, words))


# What nodes need.


def needs(subject: Subject, node: Node) -> list[bytes]:
    """What has to be done before a node: its prerequisites, the writers of what its recipe reads,
    and, where it has no recipe, its own writers."""
    needed = list(node.prerequisites)
    if not node.recipe:
        return needed + subject.writers.get(node.name, [])
    for file in subject.reads(node.name):
        needed += [writer for writer in subject.writers.get(file, []) if writer != node.name]
    return needed


# Rounds.


class Repair(NamedTuple):
    """The text that mends the makefile, empty where it is right; or why nothing does, and the text
    of the lines for a part of its findings."""

    text: bytes
    reason: bytes = b""
    part: bytes = b""


def repaired(request: Request, files: Files) -> Repair:
    """What comes of mending."""
    subject, name = judged(request, files)
    findings = subject.findings()
    if not findings:
        return Repair(b"")
    words = words_of(subject, findings)
    if words is None:
        said = printed(findings) + obstacle(subject, findings)
        return tried_once(request, files, name, other_lines(subject, findings), said)
    cycle = cycle_from(subject.graph.goals, lambda name: needs(subject, subject.node(name)))
    if cycle:
        return Repair(b"", printed(findings) + b" ".join([CYCLE] + cycle) + b"\n")
    lines, text, reason = mended(request, files, name, words)
    if reason is None:
        return Repair(text)
    if not lines:
        return Repair(b"", printed(findings) + TOO_LONG)
    tried = b"".join(b"tried " + line for line in lines)
    return Repair(b"", printed(findings) + tried + SAYS + reason)


def start_of(found: bytes) -> bytes:
    """What comes before lines that are appended to a makefile."""
    return b"\n\n" if found.endswith(b"\\") else b"\n"


def tried_once(
    request: Request, files: Files, name: bytes, lines: list[bytes], said: bytes
) -> Repair:
    """What comes of lines for a part of the findings, where this is said of the others."""
    if not lines:
        return Repair(b"", said)
    found = files.read(name)
    assert isinstance(found, bytes)
    text = start_of(found) + b"".join(lines)
    if len(found) + len(text) > FILE_LIMIT:
        return Repair(b"", said + OTHERS_TOO_LONG)
    try:
        subject, _name = judged(request, Appended(files, name, text))
    except Refused as fault:
        tried = b"".join(b"tried " + line for line in lines)
        return Repair(b"", said + NO_OTHERS + tried + SAYS + fault.line() + b"\n")
    if not subject.findings():
        return Repair(text)
    added = b"".join(b"  add: " + line for line in lines)
    return Repair(b"", said + OTHERS + added + SAYS + told(subject.findings()), text)


def told(findings: list[Finding], limit: bytes = b"") -> bytes:
    """What is said of the findings that there are with the lines that were tried last."""
    again = any(finding[0] == b"commands" for finding in findings)
    return printed(findings) + (AGAIN if again else b"") + limit


def mended(
    request: Request, files: Files, name: bytes, words: list[Word]
) -> tuple[list[bytes], bytes, bytes | None]:
    """The lines that mend the makefile, the text to append, and None; or those that were tried
    last, and what is said of them."""
    found = files.read(name)
    assert isinstance(found, bytes)
    start = start_of(found)
    tried: list[bytes] = []
    findings: list[Finding] = []
    for _ in range(JUDGEMENTS - 1):
        lines = lines_of(words)
        text = start + b"".join(lines)
        if len(found) + len(text) > FILE_LIMIT:
            return tried, b"", told(findings, LONGER)
        try:
            subject, _name = judged(request, Appended(files, name, text))
        except Refused as fault:
            return lines, b"", fault.line() + b"\n"
        findings = subject.findings()
        if not findings:
            return lines, text, None
        tried = lines
        more = words_of(subject, findings)
        if more is None or set(more) <= set(words):
            return tried, b"", told(findings)
        words = list(dict.fromkeys(words + more))
    return tried, b"", told(findings, JUDGED)
