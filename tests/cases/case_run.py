"""Runs cases: writes their files into a folder, asks the program, and compares its answers."""

from __future__ import annotations

import difflib
import json
import os
import shlex
import subprocess
import tempfile
from collections.abc import Iterator, Sequence
from pathlib import Path

from case_file import Answer, Case, CaseError, Section
from json_answers import OTHERS, misprinted, misspoken

SECONDS = 600
FOOTPRINTS = "footprint.json"
CERTIFICATE = "certificate.json"
# The options of commands that have a value.
VALUED = {"-f", "-b", "-k", "-p", "-e"}


def memory_folder() -> str | None:
    """The folder in memory, where files are made soonest, or none."""
    return "/dev/shm" if os.access("/dev/shm", os.W_OK) else None


def ask(program: Path, words: Sequence[str], folder: Path) -> Answer:
    """The answer of the program to these words in a folder."""
    done = subprocess.run(
        [str(program), *words],
        cwd=folder,
        env={"PATH": os.defpath, "LC_ALL": "C"},
        stdin=subprocess.DEVNULL,
        capture_output=True,
        timeout=SECONDS,
        check=False,
    )
    return Answer(done.stdout, done.stderr, done.returncode)


def footprints(lines: Sequence[str]) -> dict[str, object]:
    """The footprint file of a section `footprints`. A record without commands has None for them."""
    lists: dict[str, list[str]] = {"fixed": [], "sources": []}
    records: list[dict[str, object]] = []
    for line in lines:
        name, _, rest = line.partition(" ")
        if line.startswith("\t") and records:
            commands = records[-1]["commands"] or []
            assert isinstance(commands, list)
            records[-1]["commands"] = [*commands, line[1:]]
        elif name in lists:
            lists[name] += rest.split()
        elif name.endswith(":") and ">" in rest.split():
            reads, _, writes = f" {rest} ".partition(" > ")
            files = {"reads": reads.split(), "writes": writes.split()}
            records.append({"target": name[:-1], "commands": None, **files})
        else:
            raise CaseError(f"footprints: neither a list nor a record nor a command: {line}")
    return {"format": 1, **lists, "records": records}


def graph_words(words: Sequence[str]) -> list[str]:
    """The words of `graph -c` with the makefile, the operands and the goals of a command."""
    kept = ["graph", "-c", "-b", FOOTPRINTS]
    rest = iter(words[1:])
    for word in rest:
        if word in VALUED:
            value = next(rest, "")
            kept += [word, value] if word == "-f" else []
        elif word == "-r" or not word.startswith("-"):
            kept.append(word)
    return kept


def commands_of(graph: str) -> dict[str, list[str]]:
    """The commands of each target in a graph that is printed with commands."""
    commands: dict[str, list[str]] = {}
    target = ""
    for line in graph.splitlines():
        if line.startswith("\t"):
            commands[target].append(line[1:])
        else:
            target = line.partition(":")[0].removesuffix(" phony").removesuffix(" recipe")
            commands[target] = []
    return commands


def write_footprints(program: Path, folder: Path, section: Section, words: Sequence[str]) -> None:
    """Writes the footprint file of a section. Records without commands get those of the graph."""
    book = footprints(section.text().decode().splitlines())
    records = book["records"]
    assert isinstance(records, list)
    path = folder / FOOTPRINTS
    if any(record["commands"] is None for record in records):
        path.write_text(json.dumps({**book, "records": []}))
        graph = ask(program, graph_words(words), folder).output.decode()
        known = commands_of(graph) if graph.startswith("goals ") else {}
        for record in records:
            if record["commands"] is None:
                record["commands"] = known.get(record["target"], [])
    path.write_text(json.dumps(book))


def certificate(lines: Sequence[str]) -> dict[str, object]:
    """The certificate of a section `certificate`."""
    goals: list[str] = []
    ways: list[dict[str, object]] = []
    for line in lines:
        kind, *words = line.split()
        if kind == "goals":
            goals += words
        elif kind == "way" and len(words) >= 3:
            recipe, file, end, *path = words
            ways.append({"end": end, "file": file, "path": path, "recipe": recipe})
        else:
            raise CaseError(f"certificate: neither goals nor a way: {line}")
    return {"format": 1, "goals": goals, "ways": ways}


def cleared(path: Path) -> Path:
    """The path, where nothing stands any more; the folders above it are made."""
    path.parent.mkdir(parents=True, exist_ok=True)
    if path.is_dir():
        path.rmdir()
    path.unlink(missing_ok=True)
    return path


def place_of(folder: Path, section: Section) -> Path:
    """The path of the file or folder that a section is about."""
    kind, _, name = section.name.rpartition(" ")
    path = Path(name)
    if kind not in ("", "folder", "no") or path.is_absolute() or ".." in path.parts:
        raise CaseError(f"line {section.line}: `{section.name}` is no name of a file")
    return cleared(folder / path)


def write_file(program: Path, folder: Path, section: Section, words: Sequence[str]) -> None:
    """Writes the file that a section says. The words are those of the command behind it."""
    if section.name == "footprints":
        cleared(folder / FOOTPRINTS)
        write_footprints(program, folder, section, words)
    elif section.name == "certificate":
        lines = section.text().decode().splitlines()
        cleared(folder / CERTIFICATE).write_text(json.dumps(certificate(lines)))
    elif section.name.startswith("folder "):
        place_of(folder, section).mkdir()
    elif section.name.startswith("no "):
        place_of(folder, section)
    else:
        place_of(folder, section).write_bytes(section.text())


def answers_of(program: Path, case: Case) -> list[list[Answer]]:
    """The answers to the commands of each run."""
    answers: list[list[Answer]] = []
    with tempfile.TemporaryDirectory(prefix="mkcheck-case-", dir=memory_folder()) as room:
        folder = Path(room)
        for run in case.runs:
            commands = [shlex.split(command) for command in run.commands()]
            # Footprints come last, since what they leave out depends on the makefile.
            for section in sorted(run.files, key=lambda one: one.name == "footprints"):
                write_file(program, folder, section, commands[0])
            answers.append([ask(program, words, folder) for words in commands])
            for words, answer in zip(commands, answers[-1]):
                for said in broken_promises(program, folder, words, answer):
                    raise CaseError(f"`mkcheck {shlex.join(words)}`: {said}")
    return answers


def broken_promises(
    program: Path, folder: Path, words: Sequence[str], answer: Answer
) -> Iterator[str]:
    """What is wrong about an answer that must lead to another one: with the lines of `repair` the
    answer is yes, with those of `repair --part` it is no, `verify` accepts the certificate of a
    yes, but not for other goals, and each command says with `--json` what it says without it."""
    if words[0] == "repair" and answer.status == 0 and answer.output and "--json" not in words:
        yield from repaired(program, folder, words, answer.output, 0)
    if words[0] == "repair" and answer.status == 1:
        part = ask(program, ["repair", "--part", *without(words[1:], "--json")], folder)
        yield from repaired(program, folder, words, part.output, 1)
    if words[0] == "check" and answer.output.startswith(b"yes "):
        yield from certified(program, folder, words, answer.output.splitlines()[0])
    if words[0] == "check":
        yield from misspoken(lambda words: ask(program, words, folder), words)
    elif words[0] in OTHERS:
        yield from misprinted(lambda words: ask(program, words, folder), words)


def without(words: Sequence[str], *others: str) -> list[str]:
    """The words but these others."""
    return [word for word in words if word not in others]


def repaired(
    program: Path, folder: Path, words: Sequence[str], lines: bytes, status: int
) -> Iterator[str]:
    """What is wrong about the lines that `repair` printed, by the status of `check` with them."""
    named = words[words.index("-f") + 1] if "-f" in words else "makefile"
    makefile = folder / named if (folder / named).exists() else folder / "Makefile"
    text = makefile.read_bytes()
    makefile.write_bytes(text + lines)
    checked = ask(program, ["check", *without(words[1:], "--part", "--json", "-w")], folder)
    makefile.write_bytes(text)
    if not checked.output.startswith((b"yes ", b"no ")[status]) or checked.status != status:
        yield f"with these lines `check` answers {checked.output.decode()}"


def certified(program: Path, folder: Path, words: Sequence[str], first: bytes) -> Iterator[str]:
    """What is wrong about the certificate of a yes with this first line."""
    rest = [word for word in words[1:] if word not in ("-c", "-w")]
    if "-e" in rest:
        del rest[rest.index("-e") : rest.index("-e") + 2]
    written = ask(program, ["check", "-c", *rest], folder)
    path = folder / "own.json"
    verify = ["verify", "-k", path.name, *rest]
    for text in (written.output, written.output.removesuffix(b"\n")):
        path.write_bytes(text)
        accepted = ask(program, verify, folder)
        if accepted.output != first + b"\n" or accepted.status != 0:
            yield f"`verify` answers {accepted.output.decode()} of its certificate"
    path.write_bytes(
        written.output.replace(b'"goals":[', b'"goals":["other",').replace(b",]", b"]")
    )
    refused = ask(program, verify, folder)
    if refused.output != b"refused 73\n" or refused.status != 2:
        yield f"`verify` answers {refused.output.decode()} of its certificate with other goals"
    path.unlink()


def difference(name: str, wanted: str, given: str) -> str:
    """The lines in which what is given differs from what is wanted."""
    lines = difflib.unified_diff(
        wanted.splitlines(keepends=True),
        given.splitlines(keepends=True),
        f"{name} as it stands",
        f"{name} as the program answers",
    )
    return "".join(lines)
