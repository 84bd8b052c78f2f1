"""The settings of a project, and findings that are accepted."""

from __future__ import annotations

import os
from pathlib import Path

import pytest

from audit.project import POSIX, SOURCES, Project, can_import, can_record
from mkcheck_tools.audit.accepting import Accepted, fitted
from mkcheck_tools.audit.asking import words_over
from mkcheck_tools.audit.baselines import read_baseline, write_baseline
from mkcheck_tools.audit.environments import environments_in
from mkcheck_tools.audit.settings import Settings, settings_in
from mkcheck_tools.audit.verdicts import Finding, Mend, Spot, number_accepted, number_of
from mkcheck_tools.faults import Fault

ACCEPT = """\
[[accept]]
kind = "stale"
target = "*.o"
file = "part.h"
reason = "it never changes"
"""
EXAMPLE = 'as in accept = [{kind = "stale", target = "a.o", file = "a.h", reason = "why"}]'


def stale(targets: tuple[str, ...], files: tuple[str, ...]) -> Finding:
    """Stale reads that one sentence tells of."""
    return Finding("stale", Spot("Makefile", 1), "they stay old", targets, files)


def entry(target: str, file: str, reason: str = "so") -> Accepted:
    """An entry on an accepted stale read."""
    return Accepted("stale", target, file, reason, "mkcheck.toml")


def test_settings_are_read(tmp_path: Path) -> None:
    (tmp_path / "mkcheck.toml").write_text(
        'goals = ["all"]\nmacros = {CC = "gcc -O2"}\nfixed = ["/srv/"]\ntrust = ["x"]\njobs = 2\n'
        'baseline = "old.toml"\n' + ACCEPT
    )
    assert settings_in(str(tmp_path)) == Settings(
        ("all",),
        ("CC=gcc -O2",),
        ("/srv/",),
        ("x",),
        2,
        (Accepted("stale", "*.o", "part.h", "it never changes", "mkcheck.toml"),),
        "old.toml",
    )


def test_words_of_the_command_line_come_before_settings() -> None:
    settings = Settings(goals=("all",), macros=("CC=gcc", "A=1"))
    assert words_over([], settings) == ("CC=gcc", "A=1", "all")
    assert words_over(["CC=clang", "test"], settings) == ("CC=clang", "A=1", "test")


@pytest.mark.parametrize(
    "text, said",
    [
        ("goal = 1", "there is no setting goal; there are goals, macros, fixed, trust, jobs,"),
        ("goals = 1", 'goals is a list of texts, as in goals = ["one", "two"]'),
        ('macros = ["CC"]', 'macros: CC has no =, as in macros = ["CC=gcc"]'),
        ("jobs = 0", "jobs is a number from 1 on"),
        ("jobs = true", "jobs is a number from 1 on"),
        ("goals = [", "is no TOML file: "),
        ("accept = [1]", f"accept 1: an entry is a table of texts, {EXAMPLE}"),
        ('accept = [{kind = "stale", target = "a"}]', f"accept 1: reason is missing, {EXAMPLE}"),
        (
            'accept = [{kind = "stale", target = "a", reason = " "}]',
            f"accept 1: reason is missing, {EXAMPLE}",
        ),
        ('accept = [{kind = "old", target = "a", reason = "b"}]', "accept 1: there is no kind old"),
        ('accept = [{what = "a"}]', "accept 1: there is no what in an entry; there are kind,"),
        ('baseline = ""', "baseline is the name of a file"),
    ],
)
def test_a_setting_that_is_wrong_is_told(text: str, said: str, tmp_path: Path) -> None:
    (tmp_path / "mkcheck.toml").write_text(text)
    with pytest.raises(Fault) as fault:
        settings_in(str(tmp_path))
    assert str(fault.value).startswith("mkcheck.toml")
    assert said in str(fault.value)


def test_a_group_is_accepted_where_all_of_it_is() -> None:
    group = stale(("a.o", "b.o"), ("x.h", "y.h"))
    partly = fitted([group], [entry("a.o", "*"), entry("b.o", "x.h")])
    assert not partly.findings[0].is_accepted
    assert number_of(partly.findings) == 1 and number_accepted(partly.findings) == 3
    assert partly.unused == ()
    wholly = fitted([group], [entry("a.o", "*", "one"), entry("b.o", "?.h", "two")])
    assert wholly.findings[0].reasons == ("one", "two")


def test_no_line_is_added_for_what_is_accepted() -> None:
    spot = Spot("Makefile", 1)
    mend = Mend(spot, ("a.o", "b.o"), ("x.h", "y.h"))
    group = Finding("stale", spot, "", ("a.o", "b.o"), ("x.h", "y.h"), (mend,))
    (found,) = fitted([group], [entry("*", "x.h"), entry("a.o", "y.h")]).findings
    assert [one.text for one in found.mends] == ["a.o b.o: y.h"]


def test_an_entry_that_fits_nothing_is_known() -> None:
    found = fitted([stale(("a.o",), ("x.h",))], [entry("a.o", "x.h"), entry("b.o", "x.h")])
    assert found.unused == (entry("b.o", "x.h"),)
    hidden = fitted([], [entry("b.o", "x.h")], [stale(("b.o",), ("x.h",))])
    assert hidden.unused == ()


def test_files_with_two_writers_are_a_finding_each() -> None:
    group = Finding("writers", Spot("Makefile", 1), "both write", ("a", "b"), ("x", "y"))
    assert len(group.items) == 2
    entries = [Accepted("writers", "b", "*", "so", "mkcheck.toml")]
    assert fitted([group], entries).findings[0].is_accepted


def test_a_baseline_accepts_what_it_was_written_of(tmp_path: Path) -> None:
    findings = [stale(("a[1].o", 'b".o'), ("x.h",)), stale(("c",), ())]
    write_baseline("old.toml", str(tmp_path), findings)
    entries = read_baseline("old.toml", str(tmp_path), True)
    assert entries is not None and len(entries) == 3
    found = fitted(findings, entries)
    assert all(one.is_accepted for one in found.findings) and not found.unused
    assert not fitted([stale(("a1.o",), ("x.h",))], entries).findings[0].is_accepted


def test_a_baseline_has_accepted_findings_alone(tmp_path: Path) -> None:
    (tmp_path / "old.toml").write_text("goals = []")
    with pytest.raises(Fault, match="accept alone, and no goals, which belongs into mkcheck.toml"):
        read_baseline("old.toml", str(tmp_path), True)


@can_record
def test_accepted_findings_are_no_plain_yes(project: Project) -> None:
    project.write({"makefile": POSIX, **SOURCES, "mkcheck.toml": ACCEPT + ACCEPT.replace("*", "x")})
    outcome = project.audit()
    assert outcome.status == 0
    lines = outcome.output.splitlines()
    assert lines[lines.index("Accepted:") + 1] == (
        "    makefile:3: main.o and part.o read part.h, but don't depend on it: when it changes,"
        " they stay old [stale] (it never changes)"
    )
    at = lines.index("Accepted, and found no more, so remove these entries:")
    assert lines[at + 1] == "    mkcheck.toml: stale x.o part.h (it never changes)"
    assert lines[-2] == (
        "yes, but for 2 findings that you accepted, with 1 doubt (3 of 3 recipes judged)"
    )


# Two recipes that write one file, and, beside them, a race and a stale read.
TWO_WRITERS = """\
all: a b c d
a: s
\tcp s a; cp s log
b: s
\tcp s b; cp s log
c: s
\tcat s h > c
d: s
\tcat s a > d
"""
ACCEPT_WRITERS = """\
[[accept]]
kind = "writers"
target = "*"
file = "log"
reason = "both write the same"
"""


@pytest.mark.parametrize(
    "reader", [pytest.param("posix", marks=can_record), pytest.param("make", marks=can_import)]
)
def test_two_writers_that_are_accepted_hide_nothing(project: Project, reader: str) -> None:
    project.write({"makefile": TWO_WRITERS, "s": "1\n", "h": "2\n"})
    hiding = project.audit("--from", reader, "--format", "json").value
    assert [one["kind"] for one in hiding["findings"]] == ["writers"]
    hidden = {(one["kind"], *one["targets"], *one["files"]) for one in hiding["later"]}
    assert {("race", "d", "a"), ("stale", "c", "h")} <= hidden
    project.write({"mkcheck.toml": ACCEPT_WRITERS})
    outcome = project.audit("--from", reader)
    assert "    add: c: h\n" in outcome.output
    assert "    add: d: a\n" in outcome.output
    assert "\nno: 3 findings, 1 accepted" in outcome.output
    assert outcome.status == 1
    assert project.audit("--from", reader, "--fix").status == 0


@pytest.mark.parametrize(
    "reader", [pytest.param("posix", marks=can_record), pytest.param("make", marks=can_import)]
)
def test_two_writers_that_are_accepted_hide_no_reader_of_their_file(
    project: Project, reader: str
) -> None:
    """Who reads the file may begin before either of them."""
    makefile = TWO_WRITERS.replace("cat s h > c", "cat log s > c").replace("cat s a", "cat s")
    project.write({"makefile": makefile, "s": "1\n", "mkcheck.toml": ACCEPT_WRITERS})
    outcome = project.audit("--from", reader)
    assert "\nno: " in outcome.output and ", 1 accepted" in outcome.output
    assert "[race" in outcome.output
    assert "    add: c: a\n" in outcome.output
    assert "    add: c: b\n" in outcome.output
    assert outcome.status == 1
    mended = makefile.replace("c: s\n", "c: s a b\n")
    project.write({"makefile": mended})
    outcome = project.audit("--from", reader)
    assert "\nyes, but for 1 finding that you accepted" in outcome.output
    assert outcome.status == 0


@can_record
def test_a_baseline_has_what_other_findings_hide(project: Project) -> None:
    project.write({"makefile": TWO_WRITERS, "s": "1\n", "h": "2\n"})
    written = project.audit("--baseline", "old.toml")
    assert "old.toml is written: 4 findings, accepted\n" in written.errors
    assert written.status == 0
    assert project.audit("--baseline", "old.toml").status == 0


@can_record
def test_a_baseline_is_written_once_and_never_in_a_job(project: Project) -> None:
    project.write({"makefile": POSIX, **SOURCES})
    refused = project.audit("--baseline", "old.toml", CI="true")
    assert refused.status == 2
    assert "old.toml isn't there: mkcheck-audit --baseline" in refused.errors
    assert not os.path.exists(project.folder / ".mkcheck")
    written = project.audit("--baseline", "old.toml")
    assert "old.toml is written: 2 findings, accepted\n" in written.errors
    assert written.status == 0
    assert "yes, but for 2 findings that you accepted" in written.output
    project.write({"part.c": '#include "other.h"\n' + SOURCES["part.c"], "other.h": "\n"})
    outcome = project.audit("--baseline", "old.toml", CI="true")
    assert outcome.status == 1
    assert "    accepted: part.o part.h\n" in outcome.output
    assert "    add: part.o: other.h\n" in outcome.output
    assert "no: 1 finding, 2 accepted, with 1 doubt" in outcome.output


@can_record
def test_options_add_to_the_settings(
    project: Project, tmp_path_factory: pytest.TempPathFactory
) -> None:
    other = tmp_path_factory.mktemp("other")
    (other / "part.h").write_text("int part(void);\n")
    main = f'#include "{other}/part.h"\nint main(void) {{ return part(); }}\n'
    project.write({"makefile": "main.o: main.c\n\tcc -c main.c\n", "main.c": main})
    refused = project.audit()
    assert refused.status != 0
    assert "give --fixed" in refused.output + refused.errors
    outcome = project.audit("--fixed", f"{other}/")
    assert outcome.status == 0
    assert outcome.output.splitlines()[-2].startswith("yes")


MARKED = {".venv/pyvenv.cfg": "home = /usr/bin\n", ".venv/lib/table": "1\n", "a": "a\n"}
PRESUMED = "    .venv/ is an environment of Python: it counts as files that never change"


@can_record
def test_an_environment_of_python_is_fixed(project: Project) -> None:
    project.write({"makefile": "out: a\n\tcat a .venv/lib/table > out\n", **MARKED})
    outcome = project.audit()
    assert outcome.status == 0
    lines = outcome.output.splitlines()
    assert lines[lines.index("To know:") + 1] == PRESUMED
    assert lines[-2].startswith("yes") and lines[-2].endswith("(1 of 1 recipe judged)")


@can_record
def test_an_environment_that_the_makefile_makes_is_not(project: Project) -> None:
    makefile = "out: a\n\tcat a .venv/lib/table > out\nsetup:\n\tpython3 -m venv .venv\n"
    project.write({"makefile": makefile, **MARKED})
    outcome = project.audit()
    assert outcome.status == 1
    assert PRESUMED not in outcome.output
    assert "    add: out: .venv/lib/table\n" in outcome.output


def test_folders_of_package_managers_are_found(tmp_path: Path) -> None:
    for name in (
        "node_modules/.package-lock.json",
        "web/node_modules/.yarn-integrity",
        "tools/env/pyvenv.cfg",
        "tools/env/inner/pyvenv.cfg",
        "one/two/three/pyvenv.cfg",
        "a b/pyvenv.cfg",
        "conda/conda-meta/history",
    ):
        (tmp_path / name).parent.mkdir(parents=True, exist_ok=True)
        (tmp_path / name).write_text("")
    found = ["conda/", "node_modules/", "tools/env/", "web/node_modules/"]
    assert [one.prefix for one in environments_in(str(tmp_path))] == found
    (tmp_path / "Makefile").write_text("node_modules: package.json\n\tnpm ci\n")
    assert [one.prefix for one in environments_in(str(tmp_path))] == [found[0], *found[2:]]
    (tmp_path / "web" / "rules.mk").write_text("all:\n\tyarn install\n")
    assert [one.prefix for one in environments_in(str(tmp_path))] == [found[0], found[2]]
