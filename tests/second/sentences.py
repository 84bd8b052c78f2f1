"""`check -w`: findings in sentences, group by group, and faults in words."""

from __future__ import annotations

import re
from pathlib import Path
from typing import NamedTuple, TypeVar

from graph import Graph, cycle_with, goal_names
from judge import Finding, Subject
from lines import Refused
from reading import Files, Makefile
from repair import cut, hides, lines_between, makers, seen_later, word_of, writes_its_own

PAGE = Path(__file__).resolve().parents[2] / "docs" / "FAULTS.md"
FAULT = re.compile(rb"^\| (\d+) \| `([\w:]+)` \| (.*) \|$", re.MULTILINE)

RENAME = b"rename the file: a makefile can't hold its name"
AGAIN = b"record again, with the goals and macros that are checked"
RENAME_ALL = b"rename the files: a makefile can't hold their names"
PSEUDO = (b"operand", b"goal", b"(default)")
SHOWN = 200
CONTROLS = bytes.maketrans(bytes([*range(9), *range(10, 32), 127]), b"?" * 32)
THEN = b"once these are mended, as far as can be seen now:\n"
MORE = b"once these are mended, check again: races and stale reads may show\n"


# A text, or two that belong together.
Text = TypeVar("Text", bytes, tuple[bytes, bytes])


class Alike(NamedTuple):
    """What the findings of a group have in common, but for their files."""

    kind: bytes
    has_lines: bool
    beside: tuple[bytes, bytes]
    cycle: bytes = b""


class Claim(NamedTuple):
    """What a finding has in common with others, the name that it is about, and the file."""

    alike: Alike
    name: bytes
    file: bytes

    def line(self) -> tuple[bytes, bytes] | None:
        """The target and the prerequisite of the line that mends it, if there is such a line."""
        if not self.alike.has_lines or self.alike.kind == b"target":
            return None
        return self.name, self.alike.beside[0] or self.file


class Group:
    """Findings of one kind that differ in their names alone, each of which has the same files.

    The kind is the word of the findings. `beside` has two more names: those of two writers, or what
    is made and from what, or the recipe that writes the files where that is what the names lack, or
    the first two of several targets that may make files of unknown origin; or nothing and `record`
    where such files have recipes without records.
    """

    def __init__(
        self,
        kind: bytes,
        has_lines: bool,
        beside: tuple[bytes, bytes],
        cycle: bytes,
        files: list[bytes],
        names: list[bytes],
    ) -> None:
        self.kind = kind
        self.has_lines = has_lines
        self.first, self.second = beside
        self.cycle = cycle
        self.files = files
        self.names = names

    def one(self, singular: Text, plural: Text) -> Text:
        """The word for one name or for several."""
        return singular if len(self.names) == 1 else plural

    def each(self, singular: Text, plural: Text) -> Text:
        """The word for one file or for several."""
        return singular if len(self.files) == 1 else plural


# Findings in groups.


def told_of(subject: Subject, finding: Finding) -> Claim:
    """What a finding claims."""
    kind, name = finding[:2]
    if kind == b"writers":
        return Claim(Alike(kind, False, (name, finding[2])), finding[3], b"")
    if kind == b"selection":
        return Claim(Alike(kind, False, (name, finding[2])), name, finding[2])
    file = finding[-1] if len(finding) > 2 else b""
    word = word_of(subject, finding)
    needed = None if word is None else word.prerequisite
    writer = b""
    if kind in (b"race", b"stale") and needed is not None and needed != file:
        writer = needed
    if kind == b"unknown" and needed is not None:
        writer = needed
    if kind == b"loose" and writes_its_own(subject, file, name):
        return Claim(Alike(kind, False, (b"own", b"")), name, file)
    if kind == b"unknown" and needed is None and has_no_record(subject, file):
        return Claim(Alike(kind, False, (b"", b"record")), name, file)
    if kind == b"unknown" and len(makers(subject, file)) > 1:
        first, second = makers(subject, file)[:2]
        return Claim(Alike(kind, False, (first, second)), name, file)
    return Claim(Alike(kind, word is not None, (writer, b"")), name, file)


def has_no_record(subject: Subject, file: bytes) -> bool:
    """Whether the goals reach a file that has a recipe without a record."""
    return file in subject.recipes and file not in subject.records


def wider(subject: Subject, claims: list[Claim]) -> Graph:
    """The graph of the goals and of the names in the lines of the claims which rules make, once the
    targets of the lines are there, and which the goals don't reach; that with the targets among
    them where they have rules that make would refuse, and that of the goals alone where the targets
    have such rules."""
    graph = subject.graph
    lines = [line for line in (claim.line() for claim in claims) if line]
    there = graph.there.with_more({line[0] for line in lines})
    far = [name for name in dict.fromkeys(line[1] for line in lines) if name not in graph.nodes]
    targets = [name for name in far if name in graph.rules.targets]
    inferred = [name for name in far if graph.rules.choice(name, there) is not None]
    made = [name for name in far if name in targets or name in inferred]
    if not made:
        return graph
    for names in (made, targets):
        try:
            return Graph(graph.rules, goal_names(graph.rules, [*graph.goals, *names]), there)
        except Refused:
            continue
    return graph


def without_cycles(subject: Subject, claims: list[Claim]) -> list[Claim]:
    """The claims, without the lines that would close cycles."""
    graph = wider(subject, claims)
    while cycle := cycle_with(graph, [line for line in (claim.line() for claim in claims) if line]):
        steps = set(zip(cycle, cycle[1:]))
        told = b" ".join(cycle)
        claims = [
            claim._replace(alike=claim.alike._replace(has_lines=False, cycle=told))
            if claim.line() in steps
            else claim
            for claim in claims
        ]
    return claims


def joined(claims: list[Claim]) -> list[Claim]:
    """The claims, a race and a stale read of the same recipe and file as one."""
    other = {b"race": b"stale", b"stale": b"race"}
    left = []
    for claim in claims:
        kind = claim.alike.kind
        twin = claim._replace(alike=claim.alike._replace(kind=other.get(kind, b"")))
        if twin not in claims:
            left.append(claim)
        elif kind == b"race":
            left.append(claim._replace(alike=claim.alike._replace(kind=b"race, stale")))
    return left


def grouped(claims: list[Claim]) -> list[Group]:
    """The groups, in the order of their first claims."""
    files: dict[tuple[Alike, bytes], list[bytes]] = {}
    for alike, name, file in joined(claims):
        files.setdefault((alike, name), []).append(file)
    names: dict[tuple[Alike, tuple[bytes, ...]], list[bytes]] = {}
    for (alike, name), own in files.items():
        names.setdefault((alike, tuple(own)), []).append(name)
    return [Group(*alike, list(same), own_names) for (alike, same), own_names in names.items()]


# What is printed of a group.


def shown(names: list[bytes]) -> bytes:
    """One name, two, or two and how many more there are."""
    if len(names) <= 2:
        return b" and ".join(names)
    return b"%s, %s and %d more" % (names[0], names[1], len(names) - 2)


def sentence(group: Group) -> bytes:
    """What is wrong, and what follows from it."""
    return SENTENCES[group.kind](group, shown(group.names), shown(group.files))


def of_record(group: Group, names: bytes, _files: bytes) -> bytes:
    its = group.one(b"its recipe reads and writes", b"their recipes read and write")
    has = group.one(b"has", b"have")
    return b"%s %s no record, so nothing is known of what %s" % (names, has, its)


def of_commands(group: Group, names: bytes, _files: bytes) -> bytes:
    has = group.one((b"was", b"it has"), (b"were", b"they have"))
    return (
        b"%s %s recorded with other commands than %s with these goals and macros, which may read "
        b"other files" % (names, *has)
    )


def of_varying(group: Group, names: bytes, _files: bytes) -> bytes:
    holds = group.one(b"it holds", b"they hold")
    return b"the commands of %s use $?, so what %s may depend on what was out of date" % (
        names,
        holds,
    )


def of_target(group: Group, names: bytes, _files: bytes) -> bytes:
    if len(group.names) == 1:
        return (
            b"%s isn't phony, but its recipe doesn't write it: as long as there is no such file, "
            b"each make runs the recipe again" % names
        )
    return (
        b"%s aren't phony, but their recipes don't write them: as long as there are no such files, "
        b"each make runs the recipes again" % names
    )


def of_writers(group: Group, names: bytes, _files: bytes) -> bytes:
    return (
        b"the recipes of %s and %s both write %s: what is left depends on which of them ran last"
        % (group.first, group.second, names)
    )


def recipes(group: Group, names: bytes, singular: bytes, plural: bytes) -> bytes:
    """Recipes, and what they do."""
    if len(group.names) == 1:
        return b"the recipe of %s %s" % (names, singular)
    return b"the recipes of %s %s" % (names, plural)


def of_given(group: Group, names: bytes, files: bytes) -> bytes:
    return (
        b"%s %s, which each make takes as given (a source, a makefile, or a name of -include or .PHONY): "
        b"the next make starts from something else"
        % (recipes(group, names, b"writes", b"write"), files)
    )


def of_own(group: Group, names: bytes, files: bytes) -> bytes:
    return b"%s %s, which %s may depend on what was there before" % (
        recipes(group, names, b"reads", b"read"),
        files,
        group.one(b"it also writes: what it leaves", b"they also write: what they leave"),
    )


def is_unrecorded(group: Group) -> bool:
    """Whether a group is about files that have recipes without records."""
    return group.kind == b"unknown" and (group.first, group.second) == (b"", b"record")


def of_unknown(group: Group, names: bytes, files: bytes) -> bytes:
    if group.has_lines or group.cycle:
        return b"%s %s %s, which the recipe of %s makes, but %s depend on %s, so %s" % (
            names,
            group.one(b"reads", b"read"),
            files,
            group.first,
            group.one(b"doesn't", b"don't"),
            group.first,
            b"these goals don't run that recipe",
        )
    if is_unrecorded(group):
        return b"%s %s, whose %s" % (
            recipes(group, names, b"reads", b"read"),
            files,
            group.each(
                b"recipe has no record, so nothing is known of what it writes",
                b"recipes have no records, so nothing is known of what they write",
            ),
        )
    return b"%s %s, which %s" % (
        recipes(group, names, b"reads", b"read"),
        files,
        group.each(
            b"is neither a source nor written by a recipe: nothing says when it changes",
            b"are neither sources nor written by recipes: nothing says when they change",
        ),
    )


def of_loose(group: Group, names: bytes, files: bytes) -> bytes:
    return b"%s %s depend on %s, whose %s %s being written" % (
        names,
        group.one(b"has no recipe and doesn't", b"have no recipes and don't"),
        files,
        group.each(b"recipe writes", b"recipes write"),
        group.one(
            b"it: make may take it as done while it is",
            b"them: make may take them as done while they are",
        ),
    )


def reading(group: Group, names: bytes, files: bytes, verb: bytes) -> bytes:
    """Who reads what, and what it doesn't do, of the recipe that writes it or of the file."""
    text = b"%s %s %s, " % (names, group.one(b"reads", b"read"), files)
    if group.first:
        text += b"which the recipe of %s writes, " % group.first
    lacking = group.first or group.each(b"it", b"them")
    return text + b"but %s %s %s: " % (group.one(b"doesn't", b"don't"), verb, lacking)


def of_race(group: Group, names: bytes, files: bytes) -> bytes:
    one = group.each(b"it", b"one")
    text = reading(group, names, files, b"wait for")
    return text + b"with several jobs %s may be missing, old or half-written then" % one


def of_stale(group: Group, names: bytes, files: bytes) -> bytes:
    changing = b"when %s, " % group.each(b"it changes", b"one changes")
    stays = b"%s stays old" % names if len(group.names) == 1 else b"they stay old"
    return reading(group, names, files, b"depend on") + changing + stays


def of_both(group: Group, names: bytes, files: bytes) -> bytes:
    one = group.each(b"it", b"one")
    changing = b"and when %s, " % group.each(b"it changes", b"one changes")
    stays = b"%s stays old" % names if len(group.names) == 1 else b"they stay old"
    race = b"with several jobs %s may be missing, old or half-written then, " % one
    return reading(group, names, files, b"depend on") + race + changing + stays


def of_selection(group: Group, _names: bytes, _files: bytes) -> bytes:
    return (
        b"once recipes have run, an inference rule makes %s from %s, but not before: "
        b"the second make differs from the first" % (group.first, group.second)
    )


SENTENCES = {
    b"record": of_record,
    b"commands": of_commands,
    b"varying": of_varying,
    b"target": of_target,
    b"writers": of_writers,
    b"given": of_given,
    b"own": of_own,
    b"unknown": of_unknown,
    b"loose": of_loose,
    b"race": of_race,
    b"stale": of_stale,
    b"race, stale": of_both,
    b"selection": of_selection,
}


def one_recipe(group: Group) -> bytes:
    """What to do where the first of two recipes makes all that the second one makes."""
    return (
        b"; if the recipe of %s makes all that the recipe of %s makes, write `%s: %s ;` in "
        b"place of the rule of %s"
        % (group.first, group.second, group.second, group.first, group.second)
    )


def of_loose_name(group: Group) -> bytes:
    """What to do about names that recipes write which have them as prerequisites."""
    if not group.first:
        return group.each(RENAME, RENAME_ALL)
    return b"give %s %s of the prerequisites of %s: to depend on that would close a cycle" % (
        shown(group.names),
        group.one(b"a rule of its own, or take it out", b"rules of their own, or take them out"),
        shown(group.files),
    )


def of_unknown_origin(group: Group) -> bytes:
    """What to do about files that no recipe which the goals reach is known to write."""
    if is_unrecorded(group):
        return AGAIN
    if group.first:
        return (
            b"the recipes of %s and %s were recorded to write %s, and these goals reach neither: "
            b"write the one that is meant as a prerequisite"
            % (group.first, group.second, group.each(b"it", b"them"))
        )
    told = group.each((b"it", b"it never changes"), (b"them", b"they never change"))
    return b"take %s into the project and record again, or record with --fixed if %s" % told


def advice(group: Group) -> bytes:
    """What to do where no lines mend it."""
    if group.cycle:
        return (
            b"with a line for this each of these names would need the next one: %s; split one of "
            b"these recipes in two, or take a prerequisite away" % group.cycle
        )
    told = {
        b"record": AGAIN,
        b"commands": AGAIN,
        b"varying": b"write $^ in place of $?, and make the whole file anew in each run",
        b"target": group.one(
            b"let the recipe write its target, and record again; if another recipe writes it, "
            b"write that recipe's target as a prerequisite, and `;` in place of the commands; if "
            b"it is a folder, take it out of the prerequisites, and write mkdir -p in the recipes "
            b"that need it",
            b"let the recipes write their targets, and record again; if other recipes write them, "
            b"write those recipes' targets as prerequisites, and `;` in place of the commands; if "
            b"they are folders, take them out of the prerequisites, and write mkdir -p in the "
            b"recipes that need them",
        ),
        b"writers": b"let each recipe write files of its own, and check a target such as clean by "
        b"itself" + (one_recipe(group) if group.second in group.names else b""),
        b"given": b"let the recipe write %s out of the sources, -include and .PHONY; if %s, let "
        b"mkcheck-import read the build"
        % group.each(
            (
                b"another file, or take this one",
                b"it is a dependency file, as cc -MMD writes it",
            ),
            (b"other files, or take these", b"they are dependency files, as cc -MMD writes them"),
        ),
        b"own": b"split the recipe in two, or make each file anew from other files alone",
        b"unknown": of_unknown_origin(group),
        b"loose": of_loose_name(group),
        b"selection": b"write a rule with commands for %s, or make %s a target of the recipe that "
        b"writes it" % (group.first, group.second),
    }
    return told.get(group.kind, group.each(RENAME, RENAME_ALL))


def lines(group: Group) -> list[bytes]:
    """The lines that mend it."""
    if group.kind == b"target":
        return lines_between([b".PHONY"], group.names)
    return lines_between(group.names, [group.first] if group.first else group.files)


def place_of(makefile: Makefile, name: bytes) -> bytes:
    """Where a name is shown: at its first rule line of the makefile that has commands, else at its
    first rule line, else at the makefile without a line."""
    rules = [rule for rule in makefile.rules if not rule.default and name in rule.targets]
    rules = [rule for rule in rules if rule.commands is not None] + rules
    return rules[0].where if rules else makefile.texts[0]


def group_text(makefile: Makefile, group: Group) -> bytes:
    shown_at = group.first if group.kind == b"writers" else group.names[0]
    text = b"%s: %s [%s]\n" % (place_of(makefile, shown_at), sentence(group), group.kind)
    if group.has_lines:
        return text + b"".join(b"  add: " + line for line in lines(group))
    lists = [(b"files" if group.kind == b"writers" else b"targets", group.names)]
    left_out = b"".join(
        b"  %s: %s\n" % (told, b" ".join(piece))
        for told, names in [*lists, (b"files", group.files)]
        if len(names) > 2
        for piece in cut(names)
    )
    return text + b"  do: %s\n" % advice(group) + left_out


def several(count: int, one: bytes, many: bytes) -> bytes:
    """A number, and the word for one or for several."""
    return b"%d %s" % (count, one if count == 1 else many)


def counts(claims: list[Claim], groups: list[Group]) -> bytes:
    """How many findings and groups there are, and how many lines mend how many of them."""
    told = several(len(claims), b"finding", b"findings")
    told += b" in " + several(len(groups), b"group", b"groups")
    added = sum(len(lines(group)) for group in groups if group.has_lines)
    mended = sum(claim.alike.has_lines for claim in claims)
    if not added:
        return told + b"; no line mends %s\n" % (b"it" if len(claims) == 1 else b"them")
    whom = b"%d of them" % mended
    if mended == len(claims):
        whom = b"it" if len(claims) == 1 else b"all of them"
    return told + b"; %s %s\n" % (several(added, b"line mends", b"lines mend"), whom)


def claims_text(subject: Subject, claims: list[Claim]) -> bytes:
    """The groups of the claims, and how many they are."""
    groups = grouped(claims)
    told = b"".join(group_text(subject.rules.makefile, group) for group in groups)
    return told + counts(claims, groups)


def in_sentences(subject: Subject, findings: list[Finding]) -> bytes:
    """The text of the findings, and behind others than races and stale reads that of these."""
    told = [told_of(subject, finding) for finding in findings]
    later = [told_of(subject, finding) for finding in seen_later(subject, findings)]
    claims = without_cycles(subject, told + later)
    text = claims_text(subject, claims[: len(told)])
    if not hides(findings):
        return text
    return text + (THEN + claims_text(subject, claims[len(told) :]) if later else MORE)


# Faults.


def faults() -> dict[int, dict[bytes, bytes]]:
    """The names with the sentences of each number, as the page's tables have them."""
    told: dict[int, dict[bytes, bytes]] = {}
    for number, name, said in FAULT.findall(PAGE.read_bytes()):
        told.setdefault(int(number), {})[name] = said.replace(rb"\|", b"|")
    return told


FAULTS = faults()


def name_of(fault: Refused) -> bytes:
    """The name of a fault: its own, or that of the first one with its number."""
    return next(iter(FAULTS[fault.number])) if fault.name is None else fault.name.encode()


def in_words(fault: Refused) -> bytes:
    """The text of a fault: its place, its name and number, its other words, its sentence."""
    name = name_of(fault)
    head = b"" if fault.shown is None else fault.shown + b": "
    head += b"%s (%d): " % (name, fault.number)
    words = fault.words + ([] if fault.about is None else [fault.about])
    if words:
        head += b" ".join(words) + b": "
    return head + FAULTS[fault.number][name]


def in_words_with_cause(fault: Refused, files: Files) -> bytes:
    """The same, with why the file of a failed read wasn't read."""
    return in_words(fault) + (files.why(fault.words[-1]) if fault.number == 35 else b"")


def line_of(fault: Refused, files: Files) -> bytes:
    """The line of the file that has the fault, as it is printed; nothing where there is none."""
    if fault.shown is None:
        return b""
    name, _, number = fault.shown.rpartition(b":")
    if name in PSEUDO or name.startswith((b"/", b"../")):
        return b""
    found = files.read(name)
    if found is None or found == "failed":
        return b""
    lines = found.split(b"\n")
    if int(number) > len(lines):
        return b""
    line = lines[int(number) - 1]
    return b"  " + line[:SHOWN].translate(CONTROLS) + b" .." * (len(line) > SHOWN) + b"\n"
