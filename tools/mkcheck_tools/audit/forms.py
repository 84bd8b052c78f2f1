"""The answer for programs: as JSON, and as commands that GitHub's runners read in a log."""

from __future__ import annotations

import json
import os
from typing import Any

from mkcheck_tools.audit.judgements import Judgement
from mkcheck_tools.audit.texts import headline
from mkcheck_tools.audit.verdicts import Finding, Item, Mend, number_accepted, number_of
from mkcheck_tools.report.escaping import visible

FORMAT = 1
# A JSON object.
Value = dict[str, Any]


def json_text(judgement: Judgement) -> str:
    """The answer as a JSON value."""
    audited = judgement.audited
    value = {
        "format": FORMAT,
        "answer": audited.answer,
        "status": judgement.status,
        "headline": headline(audited),
        "refused": audited.refused or None,
        "reader": judgement.reader.kind,
        "makefile": audited.makefile,
        "tool": audited.tool,
        "recipes": audited.recipes,
        "recipes_not_judged": audited.unjudged_recipes,
        "reads": audited.reads,
        "open": number_of(audited.findings),
        "accepted": number_accepted(audited.findings),
        "findings": [finding_value(one, judgement) for one in audited.findings],
        "later": [finding_value(one, judgement) for one in audited.later],
        "not_judged": list(audited.unjudged),
        "doubts": [
            {"kind": note.kind.word, "target": note.target, "sentence": note.text}
            for note in audited.doubts
        ],
        "hints": [
            {"kind": note.kind.word, "target": note.target, "sentence": note.text}
            for note in audited.hints
        ],
        "remarks": list(audited.remarks),
        "unused": [
            {"kind": one.kind, "target": one.target, "file": one.file, "origin": one.origin}
            for one in judgement.unused
        ],
        "lines": [
            {"file": one.file, "behind": one.behind, "lines": list(one.lines)}
            for one in judgement.mending.additions
        ],
    }
    return json.dumps(value, indent=1) + "\n"


def finding_value(finding: Finding, judgement: Judgement) -> Value:
    """A finding."""
    return {
        "kind": finding.kind,
        "also": list(finding.also),
        "file": finding.spot.file,
        "line": finding.spot.line,
        "sentence": finding.sentence,
        "targets": list(finding.targets),
        "files": list(finding.files),
        "add": [mend_value(mend) for mend in finding.mends],
        "do": judgement.mending.why(finding) or None,
        "accepted": [item_value(item) for item in finding.accepted],
        "reasons": list(finding.reasons),
    }


def mend_value(mend: Mend) -> Value:
    """A line to add."""
    return {"file": mend.spot.file, "line": mend.spot.line, "text": mend.text}


def item_value(item: Item) -> Value:
    """A single finding."""
    return {"kind": item.kind, "targets": list(item.targets), "file": item.file or None}


def github_text(judgement: Judgement) -> str:
    """The answer as commands of GitHub's runners: an error for each finding that nobody accepted, a
    warning for what isn't judged, and the answer as a line of the log."""
    audited, prefix = judgement.audited, prefix_of(judgement.sources.root)
    lines = []
    for finding in audited.open:
        why = judgement.mending.why(finding)
        lines_to_add = [f"add: {mend.text}" for mend in finding.mends]
        said = [finding.sentence, *(lines_to_add if why is None else filter(None, [why]))]
        place = {"file": prefix + finding.spot.file, "line": str(finding.spot.line or 1)}
        lines.append(command("error", "\n".join(said), {**place, "title": finding.word}))
    lines += [command("warning", f"not judged: {text}", {}) for text in audited.unjudged]
    if audited.refused:
        lines.append(command("error", audited.refused, {"file": prefix + audited.makefile}))
    return "".join(f"{line}\n" for line in [*lines, visible(headline(audited))])


def command(word: str, text: str, properties: dict[str, str]) -> str:
    """A command: its text and its properties are escaped, each in its way."""
    values = ",".join(f"{name}={escaped(value, ':,')}" for name, value in properties.items())
    return f"::{word}{f' {values}' if values else ''}::{escaped(visible(text), '')}"


def escaped(text: str, more: str) -> str:
    """A text without the characters that end a command or a property."""
    return "".join(f"%{ord(one):02X}" if one in f"%\r\n{more}" else one for one in text)


def prefix_of(root: str) -> str:
    """The path of a project from the top of its repository, with a slash behind it; nothing where
    it is the top, or in none."""
    above = os.path.realpath(root)
    while not os.path.lexists(os.path.join(above, ".git")):
        if above == os.path.dirname(above):
            return ""
        above = os.path.dirname(above)
    path = os.path.relpath(os.path.realpath(root), above)
    return "" if path == "." else f"{path}/"
