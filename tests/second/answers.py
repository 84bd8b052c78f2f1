"""`--json`: the answers as JSON values."""

from __future__ import annotations

import json

from judge import Finding, Subject
from lines import Refused
from reading import Files, Makefile
from repair import Repair, seen_later
from sentences import (
    PSEUDO,
    Claim,
    Group,
    advice,
    grouped,
    in_words,
    in_words_with_cause,
    line_of,
    lines,
    name_of,
    place_of,
    sentence,
    told_of,
    without_cycles,
)
from world import Run

# An object of JSON.
Value = dict[str, object]
# The refusals whose words are names of targets and files.
WITH_NAMES = (27, 31, 32, 35, 37, 38, 41, 42, 54, 56, 74, 75)


def shown(value: Value) -> bytes:
    """The text of a value, without spaces, with its keys in order, and a newline."""
    text = json.dumps(value, ensure_ascii=False, separators=(",", ":"), sort_keys=True)
    return text.encode("utf-8") + b"\n"


def decoded(text: bytes) -> str:
    """A text, with U+FFFD in place of what isn't UTF-8."""
    return text.decode("utf-8", "replace")


def rule_value(makefile: Makefile, name: bytes) -> Value | None:
    """The rule line at which a name is shown, if there is one."""
    file, _, line = place_of(makefile, name).rpartition(b":")
    return {"file": file.decode("utf-8"), "line": int(line)} if file else None


def writers_of(group: Group) -> list[bytes]:
    """The recipes that write the files of a group, where its sentence names them."""
    if group.kind == b"writers":
        return [group.first, group.second]
    if group.kind == b"loose":
        return group.files
    reads = group.kind in (b"race", b"stale", b"race, stale") or group.has_lines or group.cycle
    is_named = reads and group.kind != b"target" and group.first
    return [group.first] if is_named else []


def group_value(makefile: Makefile, group: Group) -> Value:
    """The value of a group of findings."""
    writers = group.kind == b"writers"
    targets = [group.first, group.second] if writers else group.names
    named = writers or group.kind == b"loose"
    files = group.names if named else [name for name in group.files if name]
    added = b"".join(lines(group)) if group.has_lines else None
    done = None if group.has_lines else advice(group)
    kind, *also = group.kind.decode("utf-8").split(", ")
    return {
        "add": added and added.decode("utf-8"),
        "also": also,
        "do": done and done.decode("utf-8"),
        "files": [name.decode("utf-8") for name in files],
        "kind": kind,
        "place": rule_value(makefile, group.first if writers else group.names[0]),
        "sentence": sentence(group).decode("utf-8"),
        "targets": [name.decode("utf-8") for name in targets],
        "writers": [name.decode("utf-8") for name in writers_of(group)],
    }


def groups_value(subject: Subject, claims: list[Claim]) -> list[Value]:
    """The values of the groups of claims."""
    makefile = subject.rules.makefile
    return [group_value(makefile, group) for group in grouped(claims)]


def number_of_group(claim: Claim, groups: list[Group]) -> int:
    """The number of the group that a claim belongs to."""
    for number, group in enumerate(groups, 1):
        kinds = group.kind.split(b", ")
        alike = (group.has_lines, (group.first, group.second), group.cycle)
        if claim.alike.kind in kinds and alike == claim.alike[1:]:
            if claim.name in group.names and claim.file in group.files:
                return number
    return 0


def finding_value(number: int, group: int, words: Finding) -> Value:
    """The value of a finding."""
    kind, *names = [word.decode("utf-8") for word in words]
    text = " ".join(["no", kind, *names])
    return {"group": group, "kind": kind, "names": names, "number": number, "text": text}


def verdict_value(subject: Subject) -> Value:
    """The value of a yes or a no."""
    found = subject.findings()
    if found:
        told = [told_of(subject, finding) for finding in found]
        hidden = [told_of(subject, finding) for finding in seen_later(subject, found)]
        claims = without_cycles(subject, told + hidden)
        now, later = claims[: len(told)], claims[len(told) :]
        groups = grouped(now)
        return {
            "answer": "no",
            "counts": {
                "findings": len(found),
                "groups": len(groups),
                "lines": sum(len(lines(group)) for group in groups if group.has_lines),
                "mended": sum(claim.alike.has_lines for claim in now),
            },
            "findings": [
                finding_value(at, number_of_group(claim, groups), words)
                for at, (claim, words) in enumerate(zip(now, found), 1)
            ],
            "format": 1,
            "groups": groups_value(subject, now),
            "later": groups_value(subject, later),
        }
    recipes, reads = subject.counts().split()[1::2]
    return {
        "answer": "yes",
        "certificate": json.loads(subject.certificate()),
        "format": 1,
        "reads": int(reads),
        "recipes": int(recipes),
    }


def place_of_fault(fault: Refused) -> Value | None:
    """The line of a file that has the fault, if there is one."""
    if fault.shown is None:
        return None
    file, _, line = fault.shown.rpartition(b":")
    if file in PSEUDO:
        return None
    return {"file": file.decode("utf-8"), "line": int(line)}


def printed_value(text: bytes) -> Value:
    """The value of a graph, and of a certificate that is accepted."""
    return {"answer": "yes", "format": 1, "text": decoded(text)}


def run_value(run: Run) -> Value:
    """The value of the run of a plan."""
    if run.refused is None:
        return {"answer": "yes", "format": 1, "printed": decoded(run.printed)}
    return {
        "answer": "refused",
        "format": 1,
        "left": decoded(run.left),
        "line": run.line,
        "printed": decoded(run.printed),
        "sentence": decoded(in_words(run.refused)),
        "text": decoded(run.refused.line()),
    }


def repair_value(repair: Repair) -> Value:
    """The value of the lines that mend a makefile, or of why there are none."""
    if repair.reason:
        part = decoded(repair.part) if repair.part else None
        return {"answer": "no", "format": 1, "part": part, "reason": decoded(repair.reason)}
    return {"answer": "yes", "format": 1, "lines": decoded(repair.text)}


def source_of(fault: Refused, files: Files) -> str | None:
    """The line of the file that is shown, without the blanks before it."""
    line = line_of(fault, files)
    return decoded(line[2:-1]) if line else None


def names_in(fault: Refused) -> list[bytes]:
    """The names of targets and files in the text of a refusal."""
    if fault.number == 76:
        return fault.words[1:]
    return fault.words if fault.number in WITH_NAMES else []


def argument_of(fault: Refused) -> Value | None:
    """The goal or the operand that has the fault, if one has."""
    kind, _, number = (fault.where or b"").rpartition(b":")
    if kind == b"goal" and fault.name in ("BadGoal", "GoalIsMember"):
        return {"kind": "goal", "number": int(number)}
    if kind == b"operand" and fault.number in range(11, 18):
        return {"kind": "operand", "number": int(number)}
    return None


def refusal_value(fault: Refused, files: Files) -> Value:
    """The value of a refusal."""
    return {
        "answer": "refused",
        "argument": argument_of(fault),
        "format": 1,
        "name": name_of(fault).decode("utf-8"),
        "names": [name.decode("utf-8") for name in names_in(fault)],
        "number": fault.number,
        "place": place_of_fault(fault),
        "sentence": decoded(in_words_with_cause(fault, files)),
        "source": source_of(fault, files),
        "text": decoded(fault.line()),
        "word": None if fault.about is None else decoded(fault.about),
    }
