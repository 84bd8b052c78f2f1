"""The answer in other forms, which name the files of the project."""

from __future__ import annotations

import json
from pathlib import Path

import pytest

from audit.project import GNU, SOURCES, Project, can_import
from mkcheck_tools.audit.accepting import Accepted, fitted
from mkcheck_tools.audit.asking import GITHUB, HTML, JSON, SARIF, TEXT, Output, outputs_of
from mkcheck_tools.audit.forms import command, github_text, json_text, prefix_of
from mkcheck_tools.audit.judgements import Judgement
from mkcheck_tools.audit.logs import sarif_text
from mkcheck_tools.audit.makefile_lines import Sources
from mkcheck_tools.audit.mending import mending_of
from mkcheck_tools.audit.readers import MAKE, Reader
from mkcheck_tools.audit.verdicts import Audited, Finding, Item, Mend, Spot
from mkcheck_tools.faults import Fault
from mkcheck_tools.judge.notes import Kind, Note
from report.schema import wrong_parts

MAKEFILE = "all: a b\na: s\n\tcp s a\nb: s\n\tcat s h > b\n"
ENTRY = Accepted("stale", "a", "h", "it is old", "mkcheck.toml")


def judgement_in(folder: Path, *entries: Accepted) -> Judgement:
    """A judgement on a makefile in a folder, of which some findings are accepted."""
    (folder / "Makefile").write_text(MAKEFILE)
    findings = [
        Finding(
            "stale",
            Spot("Makefile", line),
            f"{name} isn't made again when h changes",
            (name,),
            ("h",),
            (Mend(Spot("Makefile", line), (name,), ("h",)),),
        )
        for name, line in (("a", 2), ("b", 4))
    ]
    found = fitted(findings, entries)
    audited = Audited(
        "Makefile",
        "GNU Make 4.3",
        found.findings,
        notes=(Note("a", Kind.DATE, "the recipe of a writes today's date"),),
        unjudged=("Makefile:9: what,ever: 100%",),
        recipes=3,
        unjudged_recipes=1,
    )
    sources = Sources(str(folder))
    reader = Reader(MAKE, ".", "Makefile", "GNU make reads it")
    return Judgement(reader, audited, found.unused, sources, mending_of(audited, sources))


def test_json(tmp_path: Path) -> None:
    value = json.loads(json_text(judgement_in(tmp_path, ENTRY)))
    assert value["answer"] == "no"
    assert value["headline"] == (
        "no: 1 finding, 1 accepted, 1 recipe not judged, with 1 doubt (2 of 3 recipes judged)"
    )
    assert (value["status"], value["open"], value["accepted"]) == (1, 1, 1)
    accepted, other = value["findings"]
    assert accepted["accepted"] == [{"kind": "stale", "targets": ["a"], "file": "h"}]
    assert accepted["also"] == []
    assert accepted["reasons"] == ["it is old"] and accepted["add"] == []
    assert other["add"] == [{"file": "Makefile", "line": 4, "text": "b: h"}]
    assert value["lines"] == [{"file": "Makefile", "behind": 5, "lines": ["b: h"]}]
    assert value["doubts"][0]["kind"] == "date"


def test_a_race_and_a_stale_read_are_accepted_each(tmp_path: Path) -> None:
    """They are two findings in one sentence, and the line to add mends both."""
    spot = Spot("Makefile", 4)
    mends = (Mend(spot, ("b",), ("h",)),)
    both = Finding("race", spot, "b reads h", ("b",), ("h",), mends, also=("stale",))
    race, stale = Item("race", ("b",), "h"), Item("stale", ("b",), "h")
    assert both.items == [race, stale]
    half = both.with_accepted([stale], ["it is old"])
    assert not half.is_accepted and half.mends == mends
    whole = both.with_accepted([race, stale], ["it is old"])
    assert whole.is_accepted and whole.mends == ()


def test_commands_for_github_name_files_from_the_top_of_the_repository(tmp_path: Path) -> None:
    (tmp_path / ".git").mkdir()
    folder = tmp_path / "sub" / "project"
    folder.mkdir(parents=True)
    assert github_text(judgement_in(folder, ENTRY)) == (
        "::error file=sub/project/Makefile,line=4,title=stale::"
        "b isn't made again when h changes%0Aadd: b: h\n"
        "::warning::not judged: Makefile:9: what,ever: 100%25\n"
        "no: 1 finding, 1 accepted, 1 recipe not judged, with 1 doubt (2 of 3 recipes judged)\n"
    )


def test_a_command_is_one_line_whatever_a_name_holds() -> None:
    assert command("error", "a\nb%\r::", {"file": "x,y:z%"}) == (
        "::error file=x%2Cy%3Az%25::a%0Ab%25<U+000D>::"
    )


def test_no_repository_has_no_prefix(tmp_path: Path) -> None:
    assert prefix_of(str(tmp_path)) == ""


def test_sarif(tmp_path: Path) -> None:
    judgement = judgement_in(tmp_path, ENTRY)
    log = json.loads(sarif_text(judgement, lambda kind: (kind, f"about {kind}"), "mkcheck 1"))
    assert wrong_parts(log) == []
    (run,) = log["runs"]
    ids = [rule["id"] for rule in run["tool"]["driver"]["rules"]]
    assert all(ids[one["ruleIndex"]] == one["ruleId"] for one in run["results"])
    accepted, other, unjudged, noted = run["results"]
    assert accepted["suppressions"] == [{"kind": "external", "justification": "it is old"}]
    assert "suppressions" not in other and "fixes" not in accepted
    place = other["locations"][0]["physicalLocation"]
    assert place["artifactLocation"]["uri"] == "Makefile" and place["region"] == {"startLine": 4}
    (change,) = other["fixes"][0]["artifactChanges"]
    assert inserted(MAKEFILE, change["replacements"]) == MAKEFILE + "b: h\n"
    assert (unjudged["ruleId"], noted["ruleId"]) == ("not-judged", "date")
    fixes = json.loads(
        sarif_text(judgement_in(tmp_path), lambda kind: (kind, kind), "mkcheck 1")
    )["runs"][0]["results"][0]["fixes"]
    assert inserted(MAKEFILE, fixes[0]["artifactChanges"][0]["replacements"]) == (
        "all: a b\na: s\n\tcp s a\na: h\nb: s\n\tcat s h > b\n"
    )


def inserted(text: str, replacements: list[dict[str, dict[str, int | str]]]) -> str:
    """A text in which a replacement of SARIF is made, which deletes nothing."""
    (one,) = replacements
    region = one["deletedRegion"]
    assert region["startLine"] == region["endLine"]
    assert region["startColumn"] == region["endColumn"]
    lines = text.split("\n")
    at, column = int(region["startLine"]) - 1, int(region["startColumn"]) - 1
    new = str(one["insertedContent"]["text"])
    lines[at] = lines[at][:column] + new + lines[at][column:]
    return "\n".join(lines)


def test_outputs_are_options_in_their_order() -> None:
    assert outputs_of([]) == (Output(TEXT),)
    assert outputs_of([("format", JSON)]) == (Output(JSON),)
    assert outputs_of([("format", SARIF), ("o", "/x/log"), ("o", "/x/page.html")]) == (
        Output(TEXT),
        Output(SARIF, "/x/log"),
        Output(HTML, "/x/page.html"),
    )
    for_a_job = [("format", GITHUB), ("o", "/x/log.sarif"), ("o", "/x/page.html")]
    assert outputs_of(for_a_job) == (
        Output(SARIF, "/x/log.sarif"),
        Output(HTML, "/x/page.html"),
        Output(GITHUB),
    )
    assert outputs_of([("format", SARIF), ("o", "/x/log.json")])[1] == Output(SARIF, "/x/log.json")
    with pytest.raises(Fault, match="say its form in front of it"):
        outputs_of([("o", "answer")])
    with pytest.raises(Fault, match="json and sarif would"):
        outputs_of([("format", JSON), ("format", SARIF)])


@can_import
def test_all_forms_of_an_import_name_the_original_makefile(project: Project) -> None:
    project.write({"sub/Makefile": GNU, **{f"sub/{name}": text for name, text in SOURCES.items()}})
    (project.folder / ".git").mkdir()
    outcome = project.audit(
        *("-C", "sub", "--format", "json", "-o", "answer.json", "-o", "log.sarif"),
        *("--format", "html", "-o", "page.html", "--format", "github"),
    )
    assert outcome.status == 1, outcome.errors
    assert outcome.output.startswith("::error file=sub/Makefile,line=4,title=stale::")
    assert json.loads(project.text("answer.json"))["headline"].startswith("no: 2 findings")
    assert '"uri": "sub/Makefile"' in project.text("log.sarif")
    page = project.text("page.html")
    assert "Makefile:4: main.o and part.o aren&#x27;t made again when part.h changes" in page
    assert '<span class="rule"><i>4</i>%.o: %.c' in page
    assert "<ins>" not in page and ".mkcheck/makefile:" not in page
    assert '<span class="answer no">no</span> 2 findings' in page
    assert "The audit above says what to write, and where." in page
    assert "the answer is yes" not in page
