"""What an audit says beside its answer: hints, and targets that its goals don't need."""

from __future__ import annotations

from audit.project import GNU, POSIX, SOURCES, Project, can_import, can_record

MORE = ".PHONY: check\ncheck: prog\n\t./prog\nextra: ; cp main.c extra\nempty: main.c\n"
TOLD = "    not looked at: check, extra (name goals to look at them)\n"


@can_record
def test_targets_that_no_goal_needs(project: Project) -> None:
    project.write({"makefile": POSIX + MORE, **SOURCES})
    outcome = project.audit()
    assert f"To know:\n{TOLD}\n" in outcome.output
    assert "not looked at" not in project.audit("prog", "check", "extra").output


@can_import
def test_targets_of_gnu_make_that_no_goal_needs(project: Project) -> None:
    hidden = "ifdef NO\nhidden: ; touch hidden\nendif\ndefine text\nin: ; touch in\nendef\n"
    project.write({"Makefile": GNU + MORE + hidden, **SOURCES})
    outcome = project.audit()
    assert f"To know:\n{TOLD}\n" in outcome.output
    assert outcome.status == 1
    assert project.audit("--format", "json", "--no-record").value["remarks"] == [TOLD.strip()]


@can_import
def test_a_recipe_without_commands_is_none_to_look_at(project: Project) -> None:
    empty = "Makefile: ;\nFORCE: ; # nothing\n"
    project.write({"Makefile": GNU + MORE + empty, **SOURCES})
    assert f"To know:\n{TOLD}\n" in project.audit().output


@can_record
def test_hints_have_a_line_for_each_kind(project: Project) -> None:
    rules = "a: s\n\tcat s > a\nb: s\n\tsort s > b\n"
    project.write({"makefile": f".PHONY: all\nall: a b\n{rules}", "s": "1\n"})
    outcome = project.audit(replay=True)
    assert outcome.output.splitlines()[:3] == [
        "To know:",
        "    where a write fails, 2 recipes leave a part of a target (a, b), which the next make"
        " takes for done: add .DELETE_ON_ERROR: for GNU make, or write to another name and end with"
        " mv",
        "",
    ]
    assert "yes (2 of 2 recipes judged)" in outcome.output
    assert outcome.status == 0
    value = project.audit("--no-record", "--format", "json", replay=True).value
    assert [hint["kind"] for hint in value["hints"]] == ["half-written", "half-written"]
