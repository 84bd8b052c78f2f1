"""What is installed and packed: the lists of files, programs that run from there, completions that
know all options, and what editors and hooks are told.
"""

from __future__ import annotations

import json
import os
import re
import runpy
import shutil
import subprocess
import sys
import tarfile
from collections.abc import Callable
from pathlib import Path

import package
import pytest
from audit.project import GNU, SOURCES, Project, can_import

ROOT = Path(__file__).resolve().parents[2]
SHARE = ROOT / "share"
MKCHECK = os.path.abspath(os.environ.get("MKCHECK", ROOT / "bin" / "mkcheck"))
BASH = SHARE / "bash-completion" / "completions" / "mkcheck"
ZSH = SHARE / "zsh" / "site-functions" / "_mkcheck"
FISH = SHARE / "fish" / "vendor_completions.d" / "mkcheck.fish"
FORMS = SHARE / "mkcheck"
OPTION = re.compile(r"(?<![\w-])--?[A-Za-z][\w-]*")
SUBCOMMANDS = ("graph", "check", "repair", "verify", "simulate", "explain")
# What each package has, each path below its top.
FILES = """\
bin/mkcheck
bin/mkcheck-audit
bin/mkcheck-import
bin/mkcheck-record
bin/mkcheck-report
share/bash-completion/completions/mkcheck
share/bash-completion/completions/mkcheck-audit
share/doc/mkcheck/README.md
share/doc/mkcheck/docs/WHY.md
share/doc/mkcheck/docs/report.png
share/fish/vendor_completions.d/mkcheck.fish
share/fish/vendor_completions.d/mkcheck-record.fish
share/mkcheck/github-problem-matcher.json
share/mkcheck/pre-commit
share/mkcheck/vim/compiler/mkcheck.vim
share/mkcheck/vscode/tasks.json
""".splitlines()


def pack(form: str, folder: Path) -> str:
    """Packs the program that is tested, proved or not, and returns what is said."""
    words = [sys.executable, str(ROOT / "tools" / "package.py"), "--program", MKCHECK, "--unproved"]
    done = subprocess.run([*words, form, str(folder)], capture_output=True, text=True, check=False)
    assert (done.returncode, done.stderr) == (0, "")
    return done.stdout


def said_by(*words: str | Path) -> str:
    """What a command prints, which has to end well."""
    return subprocess.run(words, capture_output=True, text=True, check=True).stdout


def test_what_is_installed_runs(tmp_path: Path) -> None:
    said = pack("install", tmp_path / "a b")
    assert said.startswith(f"{tmp_path}/a b/bin/mkcheck: mkcheck {package.version()} (")
    for name in [*FILES, "share/man/man1/mkcheck-audit.1", "share/zsh/site-functions/_mkcheck"]:
        path = tmp_path / "a b" / name
        is_program = name.startswith("bin/") or name.endswith("/pre-commit")
        assert path.stat().st_mode & 0o777 == (0o755 if is_program else 0o644), name
    assert said_by(tmp_path / "a b" / "bin" / "mkcheck-audit", "--version") == (
        f"mkcheck-audit {package.version()}\n"
    )


@pytest.mark.skipif(not shutil.which("dpkg-deb"), reason="no dpkg-deb")
def test_a_debian_package(tmp_path: Path) -> None:
    pack("deb", tmp_path)
    (file,) = tmp_path.glob(f"mkcheck_{package.version()}_*.deb")
    listed = said_by("dpkg-deb", "--contents", file)
    lines = [line.split() for line in listed.splitlines()]
    assert {line[1] for line in lines} == {"root/root"}
    modes = {line[5].removeprefix("./usr/"): line[0] for line in lines}
    for name in [*FILES, "share/man/man1/mkcheck.1.gz", "share/zsh/vendor-completions/_mkcheck"]:
        assert name in modes, name
    assert modes["bin/mkcheck-audit"] == "-rwxr-xr-x"
    assert modes["share/doc/mkcheck/copyright"] == "-rw-r--r--"
    field: Callable[[str], str] = lambda name: said_by("dpkg-deb", "--field", file, name).strip()
    assert (field("Package"), field("Version")) == ("mkcheck", package.version())
    assert re.fullmatch(
        r"libc6 \(>= 2\.\d+\), python3 \(>= 3\.11\), strace, util-linux", field("Depends")
    )


def test_an_archive_runs_by_its_own_library(tmp_path: Path) -> None:
    """Also over a link to the program, and by a name without a folder."""
    pack("dist", tmp_path)
    (file,) = tmp_path.glob(f"mkcheck-{package.version()}-*-linux.tar.gz")
    top = file.name.removesuffix(".tar.gz")
    with tarfile.open(file) as archive:
        assert {entry.uid for entry in archive} == {0}
        archive.extractall(tmp_path)
    for name in FILES:
        assert (tmp_path / top / name).is_file(), name
    version = said_by(MKCHECK, "--version")
    link = tmp_path / "links" / "mkcheck"
    link.parent.mkdir()
    link.symlink_to(Path("..", top, "bin", "mkcheck"))
    for program in (tmp_path / top / "bin" / "mkcheck", link):
        assert said_by(program, "--version") == version
    named = subprocess.run(
        ["sh", "-c", "cd bin && sh mkcheck --version && PATH=. && mkcheck --version"],
        cwd=tmp_path / top,
        env={**os.environ, "PATH": os.environ["PATH"]},
        capture_output=True,
        text=True,
        check=False,
    )
    assert named.stdout == version * 2, named.stderr
    used = (tmp_path / top / "lib" / "mkcheck").iterdir()
    assert {"libc.so.6", "mkcheck", "README"} < {path.name for path in used}


def test_only_a_proved_program_is_packed(
    tmp_path: Path, capsys: pytest.CaptureFixture[str]
) -> None:
    said = {
        f"mkcheck {package.version()} (not proved: a quick build)": "isn't proved: make proved",
        "mkcheck 0.0.1 (proved by X)": "and the tools are",
        "": "says ''",
    }
    for printed, fault in said.items():
        program = tmp_path / "program"
        program.write_text(f"#!/bin/sh\necho '{printed}'\n")
        program.chmod(0o755)
        assert package.main(["--program", str(program), "dist", str(tmp_path / "to")]) == 2
        assert fault in capsys.readouterr().err
    assert package.main(["--program", str(tmp_path / "none"), "deb", str(tmp_path / "to")]) == 2
    assert "none isn't there: make proved" in capsys.readouterr().err
    assert not (tmp_path / "to").exists()


@pytest.mark.parametrize("version", [(3, 6, 15), (3, 10, 13)])
def test_an_old_python_is_told(version: tuple[int, ...], monkeypatch: pytest.MonkeyPatch) -> None:
    monkeypatch.setattr(sys, "version_info", version)
    with pytest.raises(SystemExit, match=r"^The tools of mkcheck need Python 3\.11 or later; "):
        runpy.run_path(str(ROOT / "tools" / "mkcheck_tools" / "__init__.py"))


def options_of(program: str, *words: str) -> set[str]:
    """The options that a program's help names, but for short forms of the common ones."""
    tool = [MKCHECK] if program == "mkcheck" else [sys.executable, str(ROOT / "bin" / program)]
    text = said_by(*tool, *words, "--help")
    columns = (line.strip().split("  ")[0] for line in text.splitlines())
    named = " ".join(one for one in columns if one.startswith("-"))
    return set(OPTION.findall(named)) - {"-h", "-V"}


def asked() -> list[tuple[str, tuple[str, ...]]]:
    """The programs, and the commands of mkcheck."""
    return [*((name, ()) for name in package.TOOLS), *(("mkcheck", (one,)) for one in SUBCOMMANDS)]


@pytest.mark.skipif(not shutil.which("bash"), reason="no bash")
@pytest.mark.parametrize("program, words", asked())
def test_bash_completes_each_option(program: str, words: tuple[str, ...]) -> None:
    script = (
        f'. "$1"; COMP_WORDS=({program} {" ".join(words)} -); COMP_CWORD={len(words) + 1};'
        f' _mkcheck {program} - {(words or (program,))[-1]}; printf "%s\\n" "${{COMPREPLY[@]}}"'
    )
    found = said_by("bash", "-c", script, "bash", BASH).split()
    assert set(found) >= options_of(program, *words)


@pytest.mark.parametrize("file", [ZSH, FISH], ids=["zsh", "fish"])
def test_completions_name_each_option(file: Path) -> None:
    """And the shell can parse them, where it is there."""
    text = file.read_text(encoding="utf-8")
    for program, words in asked():
        for option in options_of(program, *words):
            in_fish = f" -l {option[2:]}" if option.startswith("--") else f" -s {option[1:]}"
            assert (in_fish if file == FISH else f"{option}[") in text, (program, option)
    shell = "fish" if file == FISH else "zsh"
    if shutil.which(shell):
        assert said_by(shell, "-n", file) == ""


@pytest.mark.skipif(not shutil.which("bash"), reason="no bash")
def test_bash_completes_what_can_be_explained() -> None:
    script = (
        '. "$1"; COMP_WORDS=(mkcheck explain Two); COMP_CWORD=2; _mkcheck "$2" Two explain;'
        ' printf "%s\\n" "${COMPREPLY[@]}"'
    )
    assert said_by("bash", "-c", script, "bash", BASH, MKCHECK) == "TwoRecipes\nTwoRecords\n"


def matched(pattern: str, printed: str) -> list[tuple[str, str, str]]:
    """File, line and kind of the lines that a pattern of findings matches."""
    found = re.finditer(pattern, printed, re.MULTILINE)
    return [(one[1], one[2] or "", one[4]) for one in found]


@can_import
def test_findings_are_matched_where_editors_show_them(project: Project) -> None:
    """By the patterns for GitHub and for VS Code, which match no other line."""
    project.write({"Makefile": GNU, **SOURCES})
    printed = project.audit().output
    (of_github,) = json.loads((FORMS / "github-problem-matcher.json").read_text())["problemMatcher"]
    (task,) = json.loads((FORMS / "vscode" / "tasks.json").read_text())["tasks"]
    for pattern in (of_github["pattern"][0], task["problemMatcher"]["pattern"]):
        assert matched(pattern["regexp"], printed) == [("Makefile", "4", "stale")]
        assert [pattern[key] for key in ("file", "line", "message", "code")] == [1, 2, 3, 4]
        without_line = matched(pattern["regexp"], "Makefile: a.o lacks a record [record]")
        assert without_line == [("Makefile", "", "record")]


@can_import
@pytest.mark.skipif(not shutil.which("vim"), reason="no Vim")
def test_vim_lists_findings(project: Project) -> None:
    project.write({"Makefile": GNU, **SOURCES})
    (project.folder / "printed").write_text(project.audit().output)
    commands = [
        f"set rtp^={FORMS / 'vim'}",
        "compiler mkcheck",
        "cgetfile printed",
        'call writefile(map(getqflist(), \'bufname(v:val.bufnr).":".v:val.lnum.":".v:val.text\'),'
        " 'listed')",
        "qa!",
    ]
    words = [word for command in commands for word in ("-c", command)]
    subprocess.run(
        ["vim", "-u", "NONE", "-es", *words],
        cwd=project.folder,
        stdin=subprocess.DEVNULL,
        timeout=600,
        check=False,
    )
    (line,) = project.text("listed").splitlines()
    assert re.fullmatch(r"Makefile:4:.* part\.h changes", line), line


def test_hooks_have_words_that_the_audit_takes() -> None:
    """Those of the framework pre-commit, and git's own."""
    text = (ROOT / ".pre-commit-hooks.yaml").read_text(encoding="utf-8")
    entries = re.findall(r"^  entry: mkcheck-audit(.*)$", text, re.MULTILINE)
    assert len(entries) == text.count("- id: ") == text.count("language: system\n") == 2
    options = options_of("mkcheck-audit")
    assert all(set(entry.split()) <= options for entry in entries)
    assert (FORMS / "pre-commit").read_text().endswith("\nexec mkcheck-audit\n")
