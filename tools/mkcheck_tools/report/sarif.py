"""SARIF 2.1.0: a rule for each kind of finding, and a result for each group.

Races and stale reads that other findings hide are notes.
"""

from __future__ import annotations

import json
import os
import re
from collections.abc import Mapping, Sequence
from typing import Any
from urllib.parse import quote

from mkcheck_tools import HOME
from mkcheck_tools.answers.findings import KINDS, Group
from mkcheck_tools.answers.graphs import goes_on
from mkcheck_tools.answers.refusals import Refusal
from mkcheck_tools.judge.notes import Kind, Note
from mkcheck_tools.report.escaping import as_sentence, clipped, visible
from mkcheck_tools.report.judging import Judged
from mkcheck_tools.report.makefiles import Makefiles

SCHEMA = "https://json.schemastore.org/sarif-2.1.0.json"
NAME = "mkcheck"
# Where each kind of findings is explained, from the top of the repository.
FINDINGS = "docs/FINDINGS.md"
VERSION_NUMBER = re.compile(rf"{NAME} (\d+\.\d+\.\d+)\b")
ROOT = "%SRCROOT%"
RELATED_AT_MOST = 20
# A JSON object.
Value = dict[str, Any]
MESSAGE_AT_MOST = 4000
RESULTS_AT_MOST = 5000
# Kinds by which the build itself isn't wrong, as far as is known.
WARNINGS = frozenset({"record", "commands", "target", "unknown"})


def uri(name: str) -> str:
    """The name of a file as a relative or a `file:` reference."""
    encoded = quote(name.encode("utf-8", "surrogateescape"), safe="/+@,=!~")
    return f"file://{encoded}" if name.startswith("/") else encoded


def artifact(name: str) -> Value:
    """Where a file is."""
    return {"uri": uri(name)} if name.startswith("/") else {"uri": uri(name), "uriBaseId": ROOT}


def location(name: str, line: int | None, message: str = "") -> Value:
    """A line of a file. Services that show results need a line, so it is 1 where none is known."""
    place: Value = {
        "physicalLocation": {
            "artifactLocation": artifact(name),
            "region": {"startLine": line or 1},
        }
    }
    if message:
        place["message"] = text(message)
    return place


def text(said: str) -> Value:
    """A message in which all characters show."""
    return {"text": visible(clipped(said, MESSAGE_AT_MOST))}


def driver(version: str, rules: Sequence[Value]) -> Value:
    """The tool of a log; `version` is what `mkcheck --version` prints."""
    found: Value = {"name": NAME, "fullName": visible(version), "rules": list(rules)}
    number = VERSION_NUMBER.match(version)
    if number is not None:
        found |= {"version": number[1], "semanticVersion": number[1]}
    return found | ({"informationUri": HOME} if HOME else {})


def rule(name: str, short: str, explanation: str, level: str) -> Value:
    """A rule, with what is to be read as its help."""
    return {
        "id": name,
        "shortDescription": text(short),
        "help": text(explanation or short),
        "defaultConfiguration": {"level": level},
        **({"helpUri": f"{HOME}/{FINDINGS}"} if HOME and name in KINDS else {}),
    }


def sarif(judged: Judged) -> str:
    """The log of an answer."""
    kinds = [*KINDS, *(kind for kind in judged.kinds if kind not in KINDS)]
    rules = [rule(kind, *judged.checker.explained(kind), level_of(kind)) for kind in kinds]
    by_kind = sorted(judged.groups, key=lambda group: kinds.index(group.kind))
    ordered = [(group, level_of(group.kind)) for group in by_kind] + [
        (group, "note") for group in judged.hidden
    ]
    makefiles = Makefiles({})
    results = [
        result(judged, group, level, kinds.index(group.kind), makefiles)
        for group, level in ordered[:RESULTS_AT_MOST]
    ]
    if judged.refusal is not None:
        name = judged.refusal.name
        results.append(result_of_refusal(judged.refusal, len(rules), judged.makefile))
        rules.append(rule(name, *judged.checker.explained(name), "error"))
    invocation: Value = {
        "executionSuccessful": judged.refusal is None,
        "exitCode": judged.status,
    }
    if len(ordered) > RESULTS_AT_MOST:
        more = f"{len(ordered) - RESULTS_AT_MOST} more groups: mkcheck check -w prints all"
        invocation["toolExecutionNotifications"] = [{"message": text(more)}]
    for note in judged.noted.notes[:RESULTS_AT_MOST]:
        results.append(
            result_of_note(note, len(rules) + noted_kinds(judged).index(note.kind), judged)
        )
    rules += [rule(kind.word, kind.about, "", "note") for kind in noted_kinds(judged)]
    run = {
        "properties": {"doubts": len(judged.noted.doubts), "notes": len(judged.noted.notes)},
        "tool": {"driver": driver(judged.version, rules)},
        "columnKind": "unicodeCodePoints",
        "originalUriBaseIds": {
            ROOT: {"description": {"text": "The folder in which mkcheck was started."}}
        },
        "invocations": [invocation],
        "results": results,
    }
    log = {"$schema": SCHEMA, "version": "2.1.0", "runs": [run]}
    return json.dumps(log, indent=1) + "\n"


def level_of(kind: str) -> str:
    """How bad a kind of findings is."""
    return "warning" if kind in WARNINGS else "error"


def result(judged: Judged, group: Group, level: str, index: int, makefiles: Makefiles) -> Value:
    """A group as a result, with the lines that mend it."""
    said = group.sentence
    said += f"\n{as_sentence(group.advice)}" if group.advice else ""
    found = {
        "ruleId": group.kind,
        "ruleIndex": index,
        "level": level,
        "message": text(said),
        "locations": [location(group.file or judged.original, group.line)],
        "partialFingerprints": {"mkcheckGroup/v1": fingerprint(group)},
    }
    related = writers(judged, group, makefiles)
    if related:
        found["relatedLocations"] = related
    if group.adds:
        found["fixes"] = [fix(judged.lines_by_makefile(group.adds), makefiles)]
    return found


def fingerprint(group: Group) -> str:
    """What stays the same of a group when lines above it change."""
    first = group.findings[0].text if group.findings else group.sentence
    return visible(clipped(first, 400))


def writers(judged: Judged, group: Group, makefiles: Makefiles) -> list[Value]:
    """Where the rules stand whose recipes write the files of a group, as far as they are found."""
    names: dict[str, str] = {}
    for finding in group.findings:
        if len(names) >= RELATED_AT_MOST:
            break
        if finding.kind in ("race", "writers", "loose"):
            names.setdefault(finding.names[1], finding.file)
        elif finding.kind == "stale":
            for writer in judged.book.writers.get(finding.file, []):
                names.setdefault(writer, finding.file)
    found = []
    for name, file in names.items():
        written = name if file == name or group.kind == "loose" else file
        makefile, line = judged.rule_of(name, makefiles)
        said = (
            f"the recipe of {name} writes {written}"
            if group.kind != "loose"
            else (f"the recipe of {name} writes {group.findings[0].names[0]}")
        )
        found.append(location(makefile, line, said))
    return found


def fix(adds: Mapping[str, Sequence[str]], makefiles: Makefiles) -> Value:
    """Lines at the ends of makefiles."""
    return {
        "description": {"text": "Add the prerequisites at the end of the makefile."},
        "artifactChanges": [
            {
                "artifactLocation": artifact(makefile),
                "replacements": [replacement(lines, makefiles.lines(makefile) or [""])],
            }
            for makefile, lines in adds.items()
        ],
    }


def replacement(adds: Sequence[str], lines: Sequence[str]) -> Value:
    """Lines at the end of a makefile that has these lines."""
    number = len(lines) if lines[-1] or len(lines) == 1 else len(lines) - 1
    last = lines[number - 1]
    # A line behind an escaped newline would be a part of the line before.
    front = "" if last == "" and number == 1 else "\n\n" if goes_on(last) else "\n"
    region = {
        "startLine": number,
        "startColumn": len(last) + 1,
        "endLine": number,
        "endColumn": len(last) + 1,
    }
    inserted = front + "\n".join(adds)
    return {"deletedRegion": region, "insertedContent": {"text": inserted}}


def noted_kinds(judged: Judged) -> list[Kind]:
    """The kinds of the notes that there are."""
    return list(dict.fromkeys(note.kind for note in judged.noted.notes))


def result_of_note(note: Note, index: int, judged: Judged) -> Value:
    """A note of the recording as a result, at the rule of its target."""
    makefile, line = judged.original, None
    if note.target:
        makefile, line = judged.rule_of(note.target, Makefiles({}))
    return {
        "ruleId": note.kind.word,
        "ruleIndex": index,
        "level": "note",
        "message": text(note.text),
        "locations": [location(makefile, line)],
        "properties": {"weight": note.kind.weight, "target": visible(note.target)},
    }


def result_of_refusal(refusal: Refusal, index: int, makefile: str) -> Value:
    """A refusal as a result."""
    is_there = refusal.is_of_file and os.path.isfile(refusal.file or "")
    file = refusal.file if is_there else None
    line = refusal.shown(makefile)
    shown = f"\n{line}" if line else ""
    return {
        "ruleId": refusal.name,
        "ruleIndex": index,
        "level": "error",
        "message": text(f"{refusal.sentence} ({refusal.text}){shown}"),
        "locations": [location(file or makefile, refusal.line if file else None)],
    }
