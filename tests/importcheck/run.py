"""Imports real projects, and tries what is found under their own build tools.

Fetches source packages of Debian, configures them, lets `mkcheck-import` judge each, tries a sample
of the findings and ways by touching files, and compares with the counts in `counts.json`. Prints a
table. The words are names of projects; without one all are done.
"""

from __future__ import annotations

import argparse
import json
import os
import re
import resource
import shutil
import subprocess
import sys
import time
from collections import Counter
from dataclasses import dataclass, field
from pathlib import Path

from fetching import Archive, FetchFault
from trials import Tally, Trial

HERE = Path(__file__).resolve().parent
ROOT = HERE.parents[1]
sys.path.insert(0, str(ROOT / "tools"))

from orders import Orders  # noqa: E402  It needs the modules of the importer.

PROJECTS = HERE / "projects.json"
COUNTS = HERE / "counts.json"
STEP = re.compile(r"mkcheck-import: (\w+) +([0-9.]+) s")
# The statuses of answers: yes, no, and yes as far as judged.
ANSWERED = (0, 1, 4)
STEPS = ("read", "build", "translate", "graph", "record", "check")


@dataclass
class Outcome:
    """What came of one project."""

    name: str
    kind: str = ""
    recipes: int = 0
    status: int = 2
    findings: Counter[str] = field(default_factory=Counter)
    seconds: dict[str, float] = field(default_factory=dict)
    processor: float = 0.0
    """The processor time of the import."""

    built: float = 0.0
    """The processor time of a build from nothing by the tool itself."""

    load: float = 0.0
    """The load of the machine when the import ended."""

    stale: Tally = field(default_factory=Tally)
    ways: Tally = field(default_factory=Tally)
    races: Tally = field(default_factory=Tally)
    writers: Tally = field(default_factory=Tally)
    trouble: str = ""
    """What couldn't be done, in a sentence."""

    @property
    def answer(self) -> str:
        """The answer in a word."""
        return {0: "yes", 1: "no", 4: "yes as far"}.get(self.status, "none")

    def counts(self) -> dict[str, object]:
        """What is compared with the stored counts."""
        return {"recipes": self.recipes, "answer": self.answer, "findings": dict(self.findings)}


@dataclass
class Imported:
    """A project that was imported: its folder, that of the output, what came of it, and the lines
    of both checks."""

    project: dict[str, object]
    folder: Path
    output: Path
    outcome: Outcome
    lines: list[str]

    @property
    def build(self) -> list[str]:
        """The words that build it."""
        return [str(word) for word in self.project["build"]]

    def found(self, front: str) -> list[str]:
        """The lines that begin so."""
        return [line for line in self.lines if line.startswith(front)]


def environment() -> dict[str, str]:
    """The environment of the programs: mkcheck is the one that MKCHECK names, else bin/mkcheck."""
    kept = {name: text for name, text in os.environ.items() if not name.startswith("MAKE")}
    checker = os.path.abspath(os.environ.get("MKCHECK", ROOT / "bin" / "mkcheck"))
    return {**kept, "MKCHECK": checker, "LC_ALL": "C"}


def processor_time() -> float:
    """The processor time of all programs that have ended."""
    used = resource.getrusage(resource.RUSAGE_CHILDREN)
    return used.ru_utime + used.ru_stime


def configure(project: dict[str, object], folder: Path) -> None:
    """Runs the commands that configure a project."""
    for command in project.get("configure", []):
        done = subprocess.run(
            command, shell=True, cwd=folder, env=environment(), capture_output=True, check=False
        )
        if done.returncode:
            said = (done.stdout + done.stderr).decode("utf-8", "replace").strip()
            raise FetchFault(f"`{command}` fails with status {done.returncode}: {said[-300:]}")


def check(output: Path, folder: Path, name: str) -> list[str]:
    """The lines of `mkcheck check` over one of the makefiles that the importer wrote."""
    makefile = output / name
    if not makefile.exists():
        return []
    words = ["check", "-f", str(makefile), "-b", str(output / "footprint.json")]
    done = subprocess.run(
        [environment()["MKCHECK"], *words], cwd=folder, capture_output=True, text=True, check=False
    )
    return done.stdout.splitlines()


def import_project(
    project: dict[str, object], folder: Path, output: Path, options: list[str]
) -> Imported:
    """Runs the importer, and reads what it left."""
    outcome = Outcome(str(project["name"]), str(project["kind"]))
    shutil.rmtree(output, ignore_errors=True)
    words = [*project.get("options", []), *options, *project.get("words", [])]
    program = [sys.executable, str(ROOT / "bin" / "mkcheck-import")]
    begun = processor_time()
    done = subprocess.run(
        [*program, "-C", str(folder), "-o", str(output), *words],
        env=environment(),
        capture_output=True,
        text=True,
        check=False,
    )
    outcome.processor, outcome.load = processor_time() - begun, os.getloadavg()[0]
    outcome.status = done.returncode
    outcome.seconds = {step: float(seconds) for step, seconds in STEP.findall(done.stderr)}
    (output.parent / f"{output.name}.txt").write_text(done.stderr + done.stdout)
    if done.returncode not in ANSWERED:
        lines = (done.stdout + done.stderr).strip().splitlines()
        outcome.trouble = " ".join(lines[-2:])[-300:]
    later = check(output, folder, "makefile")
    first = [line for line in check(output, folder, "makefile.first") if " stale " not in line]
    first = [line for line in first if line.startswith("no ") and line not in later]
    found = [line for line in later if line.startswith("no ")]
    outcome.findings = Counter(line.split(" ")[1] for line in [*first, *found])
    if (output / "footprint.json").exists():
        outcome.recipes = len(json.loads((output / "footprint.json").read_text())["records"])
    return Imported(project, folder, output, outcome, [*first, *later])


def try_project(imported: Imported, samples: int) -> None:
    """Builds the project by its own tool, and tries a sample of what was found."""
    outcome = imported.outcome
    book = json.loads((imported.output / "footprint.json").read_text())
    writes = {record["target"]: record["writes"] for record in book["records"]}
    trial = Trial(imported.folder, imported.build, writes)
    begun = processor_time()
    trial.run()
    outcome.built = processor_time() - begun
    trial.begin()
    stale = imported.found("no stale ")
    outcome.stale = trial.try_stale(stale, samples, outcome.name)
    ways = imported.found("way ")
    if not ways and set(outcome.findings) <= {"stale", "race"}:
        ways = other_reads(book, stale)
    outcome.ways = trial.try_ways(ways, samples, outcome.name)


def try_orders(imported: Imported, samples: int, archive: Archive) -> None:
    """Tries a sample of the races and of the files with two writers, where make builds."""
    outcome, races = imported.outcome, imported.found("no race ")
    writers = imported.found("no writers ")
    if not (races or writers) or imported.build[0] != "make":
        return

    def renew() -> None:
        lay_configured(archive, imported.folder)

    scratch = archive.cache / "orders"
    scratch.mkdir(exist_ok=True)
    orders = Orders(imported.folder, imported.build, imported.output, scratch)
    renew()
    outcome.writers = orders.try_writers(writers, samples, outcome.name)
    outcome.races = orders.try_races(races, samples, outcome.name, renew)


def other_reads(book: dict[str, object], stale: list[str]) -> list[str]:
    """A no prints no ways: so the reads of sources that aren't stale stand for them."""
    sources = set(book["sources"])
    found = [
        f"{record['target']} {name}"
        for record in book["records"]
        for name in record["reads"]
        if name in sources
    ]
    known = {line.removeprefix("no stale ") for line in stale}
    return [f"way {pair} source" for pair in found if pair not in known]


def prepare(project: dict[str, object], archive: Archive, folder: Path, again: bool) -> None:
    """Unpacks and configures a project; `again` takes what an earlier run left configured."""
    kept = archive.cache / "configured" / folder.name
    if not (again and kept.exists()):
        shutil.rmtree(folder, ignore_errors=True)
        description = archive.fetch(str(project["package"]), str(project["version"]))
        archive.unpack(description, folder, bool(project.get("patched", True)))
        configure(project, folder)
        shutil.rmtree(kept, ignore_errors=True)
        kept.parent.mkdir(exist_ok=True)
        folder.rename(kept)
    lay_configured(archive, folder)


def lay_configured(archive: Archive, folder: Path) -> None:
    """Lays down a project as it was configured, in place of what is there."""
    shutil.rmtree(folder, ignore_errors=True)
    shutil.copytree(archive.cache / "configured" / folder.name, folder, symlinks=True)


def do_project(project: dict[str, object], archive: Archive, asked: argparse.Namespace) -> Outcome:
    """All steps of one project."""
    name = str(project["name"])
    folder, output = archive.cache / "work" / name, archive.cache / "output" / name
    begun = time.monotonic()
    outcome = Outcome(name, str(project["kind"]))
    try:
        prepare(project, archive, folder, asked.again)
        imported = import_project(project, folder, output, asked.option)
        outcome = imported.outcome
        if outcome.status in ANSWERED and asked.samples:
            try_project(imported, asked.samples)
            try_orders(imported, asked.samples, archive)
    except (FetchFault, RuntimeError, OSError, ValueError) as fault:
        outcome.trouble = str(fault)
    if not asked.keep:
        shutil.rmtree(folder, ignore_errors=True)
    seconds = f"{time.monotonic() - begun:.0f} s"
    print(f"importcheck: {'  '.join(row(outcome))}  in {seconds}", file=sys.stderr, flush=True)
    return outcome


def row(outcome: Outcome) -> list[str]:
    """The words of a project's line in the table."""
    found = ", ".join(f"{count} {kind}" for kind, count in sorted(outcome.findings.items())) or "-"
    seconds = [f"{outcome.seconds[step]:.1f}" if step in outcome.seconds else "-" for step in STEPS]
    tried = [str(one) for one in (outcome.stale, outcome.ways, outcome.races, outcome.writers)]
    cells = [outcome.name, outcome.kind, str(outcome.recipes), outcome.answer, found]
    costs = [f"{cost:.1f}" for cost in (outcome.processor, outcome.built, outcome.load)]
    return [*cells, *tried, *seconds, *costs]


def print_table(outcomes: list[Outcome]) -> None:
    """Prints a line for each project."""
    trues = [f"{kind} true" for kind in ("stale", "ways", "races", "writers")]
    costs = ["processor", "of a build", "load"]
    heads = ["project", "kind", "recipes", "answer", "findings", *trues, *STEPS, *costs]
    rows = [heads, *map(row, outcomes)]
    widths = [max(len(cells[at]) for cells in rows) for at in range(len(heads))]
    for cells in rows:
        print("  ".join(cell.ljust(width) for cell, width in zip(cells, widths)).rstrip())


def differences(outcome: Outcome, expected: object) -> list[str]:
    """What is wrong with an outcome, in sentences."""
    found = [f"{outcome.name}: {outcome.trouble}"] if outcome.trouble else []
    findings = [("finding", one) for one in (outcome.stale, outcome.races, outcome.writers)]
    for kind, tally in (*findings, ("way", outcome.ways)):
        found += [f"{outcome.name}: a {kind} is false: {line}" for line in tally.false]
    if expected is None:
        found.append(f"{outcome.name}: {outcome.counts()}, and no counts are stored")
    elif expected != outcome.counts():
        found.append(f"{outcome.name}: {outcome.counts()}, and stored are {expected}")
    return found


def text_of_counts(counts: dict[str, object]) -> str:
    """The stored counts, a project on each line."""
    lines = [f" {json.dumps(name)}: {json.dumps(counts[name])}" for name in sorted(counts)]
    return "{\n" + ",\n".join(lines) + "\n}\n"


def words_of(arguments: list[str]) -> argparse.Namespace:
    """What is asked for."""
    parser = argparse.ArgumentParser(prog="importcheck", description=__doc__)
    cache = os.environ.get("IMPORTCHECK_CACHE", "~/.cache/mkcheck-importcheck")
    parser.add_argument("--cache", default=cache, help="where packages are fetched and unpacked")
    parser.add_argument("--samples", type=int, default=12, help="how many of each kind are tried")
    parser.add_argument("--keep", action="store_true", help="keep what was unpacked and built")
    parser.add_argument("--again", action="store_true", help="don't unpack and configure anew")
    parser.add_argument("--store", action="store_true", help="store the counts that were found")
    parser.add_argument("--option", action="append", default=[], help="a word for mkcheck-import")
    parser.add_argument("names", metavar="PROJECT", nargs="*")
    return parser.parse_args(arguments)


def main(arguments: list[str]) -> int:
    """Does the projects, and gives the status: 0 where all is as expected."""
    asked = words_of(arguments)
    projects = json.loads(PROJECTS.read_text())
    unknown = set(asked.names) - {project["name"] for project in projects}
    if unknown:
        print(f"importcheck: no project {', '.join(sorted(unknown))}", file=sys.stderr)
        return 2
    cache = Path(asked.cache).expanduser().resolve()
    cache.mkdir(parents=True, exist_ok=True)
    archive = Archive(cache)
    if lacking := archive.missing():
        print(f"importcheck: these are missing on this machine: {lacking}", file=sys.stderr)
        return 2
    counts = json.loads(COUNTS.read_text())
    outcomes, found = [], []
    for project in projects:
        if asked.names and project["name"] not in asked.names:
            continue
        outcome = do_project(project, archive, asked)
        outcomes.append(outcome)
        if asked.store:
            counts[outcome.name] = outcome.counts()
        found += differences(outcome, counts.get(outcome.name))
    if asked.store:
        COUNTS.write_text(text_of_counts(counts))
    print_table(outcomes)
    for text in found:
        print(f"importcheck: {text}")
    return 1 if found else 0


if __name__ == "__main__":
    sys.exit(main(sys.argv[1:]))
