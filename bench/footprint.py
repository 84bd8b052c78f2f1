"""Measures the reading of footprints beside serde_json alone and Python's json, on the same file,
and prints a table."""

import json
import statistics
import subprocess
import sys
import time
from dataclasses import dataclass
from pathlib import Path

from building import built
from run import DATA

RUNS = 11
RATIO_BOUND = 2.0
GROWTH_BOUND = 2.5

SIZE = 16_000_000
RECORDS = 4_000
READS = 100
PREFIXES = 20_000


def read_name(record: int, read: int) -> str:
    """A file that a record reads, 36 bytes long. No record reads it twice."""
    return f"src/module_{record:04d}/part_{read:02d}/file_{record + read:05d}.h"


def footprints(size: int, records: int) -> str:
    """A file of format 1 with exactly `size` bytes, by blanks at its end."""
    entries = (
        {
            "target": f"o/{n:04d}.o",
            "commands": [],
            "reads": [read_name(n, k) for k in range(READS)],
            "writes": [f"o/{n:04d}.o"],
        }
        for n in range(records)
    )
    lines = ",\n".join(json.dumps(entry, separators=(",", ":")) for entry in entries)
    text = '{"format":1,"fixed":[],"sources":[],"records":[\n' + lines + "]}"
    if len(text) > size:
        sys.exit(f"bench: {records} records take {len(text)} bytes")
    return text.ljust(size)


def prefixes(count: int) -> str:
    """A footprint file of format 1 with `count` fixed prefixes of 200 lengths, and with as many
    sources, none of which is under a prefix."""
    fixed = [f"fixed/{'d' * (n % 200)}{n:05d}/" for n in range(count)]
    sources = [f"fixed/{'d' * 200}{n:05d}/x" for n in range(count)]
    return json.dumps({"format": 1, "fixed": fixed, "sources": sources, "records": []})


@dataclass(frozen=True)
class Times:
    """Medians in milliseconds: of serde_json's value, of the setting, and of Python's json."""

    value: float
    setting: float
    python: float


def python_time(file: Path) -> float:
    """How long Python takes to read the file as JSON, in milliseconds."""
    start = time.perf_counter()
    with file.open(encoding="utf-8") as text:
        json.load(text)
    return (time.perf_counter() - start) * 1_000


def own_time(program: Path, task: str, file: Path) -> float:
    """What the program says that a task took, in milliseconds."""
    done = subprocess.run([program, task, file], capture_output=True, text=True, check=True)
    return int(done.stdout) / 1_000


def measure(program: Path, text: str) -> Times:
    """The tasks take turns, each in a process of its own, so that none finds the memory that
    another one left."""
    file = DATA / "footprint.json"
    file.write_text(text)
    rows = [
        (own_time(program, "value", file), own_time(program, "setting", file), python_time(file))
        for _ in range(RUNS)
    ]
    return Times(*(statistics.median(column) for column in zip(*rows, strict=True)))


def cases(program: Path) -> list[tuple[str, Times, Times]]:
    """What is measured, with the same of half the size."""
    halves = measure(program, footprints(SIZE // 2, RECORDS // 2)), measure(
        program, prefixes(PREFIXES // 2)
    )
    wholes = measure(program, footprints(SIZE, RECORDS)), measure(program, prefixes(PREFIXES))
    return [("16 MB", wholes[0], halves[0]), (f"{PREFIXES:,} prefixes", wholes[1], halves[1])]


def main() -> None:
    DATA.mkdir(exist_ok=True)
    empty = '{"format":1,"fixed":[],"sources":[],"records":[]}'
    program = built("footprint", "mk_foot serde_json anyhow", empty, ["setting"])
    print(f"elapsed time in milliseconds, median of {RUNS} runs")
    print(
        f"{'footprints':<18}{'setting':>9}{'serde_json':>12}{'ratio':>8}{'python':>9}{'ratio':>8}{'growth':>8}"
    )
    for label, times, half in cases(program):
        print(
            f"{label:<18}{times.setting:>9.1f}{times.value:>12.1f}{times.setting / times.value:>8.2f}"
            f"{times.python:>9.1f}{times.setting / times.python:>8.2f}{times.setting / half.setting:>8.1f}"
        )
    print(f"{'at most':<18}{RATIO_BOUND:>29.2f} (of 16 MB){GROWTH_BOUND:>14.1f}")


if __name__ == "__main__":
    main()
