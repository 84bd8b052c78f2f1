"""SARIF 2.1.0 of an audit: results at the lines of the original makefiles."""

from __future__ import annotations

import json
from collections.abc import Callable

from mkcheck_tools.answers.findings import KINDS
from mkcheck_tools.audit.forms import Value, prefix_of
from mkcheck_tools.audit.judgements import Judgement
from mkcheck_tools.audit.mending import Addition, addition_of, closes
from mkcheck_tools.audit.verdicts import Finding
from mkcheck_tools.report.escaping import as_sentence, clipped, visible
from mkcheck_tools.report.sarif import (
    ROOT,
    SCHEMA,
    artifact,
    driver,
    level_of,
    location,
    rule,
    text,
)

UNJUDGED = "not-judged"
ABOUT_UNJUDGED = "a recipe, or a question on it, couldn't be judged"
ABOUT_ROOT = "The top of the repository, or the project's folder where there is none."


def sarif_text(
    judgement: Judgement, explained: Callable[[str], tuple[str, str]], version: str
) -> str:
    """The log. `explained` gives a sentence and a text on each kind of findings."""
    audited, prefix = judgement.audited, prefix_of(judgement.sources.root)
    rules = [rule(kind, *explained(kind), level_of(kind)) for kind in KINDS]
    rules.append(rule(UNJUDGED, ABOUT_UNJUDGED, "", "warning"))
    results = [result(one, judgement, prefix) for one in audited.findings]
    results += [{**result(one, judgement, prefix), "level": "note"} for one in audited.later]
    results += [
        {
            "ruleId": UNJUDGED,
            "ruleIndex": len(KINDS),
            "level": "warning",
            "message": text(said),
            "locations": [location(prefix + audited.makefile, None)],
        }
        for said in audited.unjudged
    ]
    for note in audited.notes:
        ids = [one["id"] for one in rules]
        if note.kind.word not in ids:
            rules.append(rule(note.kind.word, note.kind.about, "", "note"))
            ids.append(note.kind.word)
        results.append(
            {
                "ruleId": note.kind.word,
                "ruleIndex": ids.index(note.kind.word),
                "level": "note",
                "message": text(note.text),
                "locations": [location(prefix + audited.makefile, None)],
            }
        )
    invocation: Value = {
        "executionSuccessful": not audited.refused,
        "exitCode": judgement.status,
    }
    if audited.refused:
        invocation["toolExecutionNotifications"] = [
            {"level": "error", "message": text(audited.refused)}
        ]
    run = {
        "tool": {"driver": driver(version, rules)},
        "columnKind": "unicodeCodePoints",
        "originalUriBaseIds": {ROOT: {"description": {"text": ABOUT_ROOT}}},
        "invocations": [invocation],
        "results": results,
    }
    return json.dumps({"$schema": SCHEMA, "version": "2.1.0", "runs": [run]}, indent=1) + "\n"


def result(finding: Finding, judgement: Judgement, prefix: str) -> Value:
    """A finding as a result, with the lines that mend it, and why it was accepted."""
    audited = judgement.audited
    why = judgement.mending.why(finding)
    said = finding.sentence + (f"\n{as_sentence(why)}" if why else "")
    found: Value = {
        "ruleId": finding.kind,
        "ruleIndex": KINDS.index(finding.kind),
        "level": level_of(finding.kind),
        "message": text(said),
        "locations": [location(prefix + finding.spot.file, finding.spot.line)],
        "partialFingerprints": {"mkcheckFinding/v1": fingerprint(finding)},
    }
    if finding.is_accepted:
        found["suppressions"] = [
            {"kind": "external", "justification": visible("; ".join(finding.reasons))}
        ]
    elif why is None and finding.mends:
        places = (addition_of(one, audited, judgement.sources) for one in finding.mends)
        found["fixes"] = [fix([one for one in places if one is not None], judgement, prefix)]
    return found


def fingerprint(finding: Finding) -> str:
    """What stays the same of a finding when lines above it change."""
    words = [finding.kind, *finding.targets, *finding.files]
    return visible(clipped(" ".join(words), 400))


def fix(additions: list[Addition], judgement: Judgement, prefix: str) -> Value:
    """Lines at their place in the original files."""
    changes: dict[str, list[Value]] = {}
    for addition in additions:
        lines = judgement.sources.lines(addition.file)
        number, column, front, behind = len(lines), len(lines[-1]) + 1, "", "\n"
        if addition.behind is not None:
            number, column = addition.behind + 1, 1
        elif lines[-1]:
            front, behind = "\n", ""
        if addition.behind is None and not closes(judgement.sources.text(addition.file)):
            front += "\n"
        region = {
            "startLine": number,
            "startColumn": column,
            "endLine": number,
            "endColumn": column,
        }
        inserted = front + "\n".join(addition.lines) + behind
        changes.setdefault(addition.file, []).append(
            {"deletedRegion": region, "insertedContent": {"text": inserted}}
        )
    return {
        "description": {"text": "Add the prerequisites that the rules lack."},
        "artifactChanges": [
            {"artifactLocation": artifact(prefix + name), "replacements": replacements}
            for name, replacements in changes.items()
        ],
    }
