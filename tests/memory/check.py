#!/usr/bin/env python3
"""Sees where out of memory is answered.

No contract can refuse a false out of memory, since each allows it in place of any answer. So the
sources are read: an error of an allocator, and each `Memory` of a fault type, may be made only
where one is handed on. That is in `from` of a fault type, or in the arm of a match whose pattern
is such an error, or at one of the places below, each for its reason.
"""

import re
import sys
from pathlib import Path

ROOT = Path(__file__).resolve().parents[2]

# File, the line without blanks around it, and why it may stand there.
PLACES = {
    (
        "mk_infer_select/src/goals.rt",
        "Err(_) => Err(InferFault::Memory),",
    ): "a name has no third fault",
    (
        "mk_infer_select/src/needed.rt",
        "Err(_) => InferFault::Memory,",
    ): "the call has no other error",
    ("mk_infer/src/expanding.rt", "Err(_) => InferFault::Memory,"): "the call has no other error",
    (
        "mk_read_parse/src/including.rt",
        "Err(_) => ReadFault::Memory,",
    ): "the call has no other error",
    ("mk_read_parse/src/rules.rt", "Err(_) => ReadFault::Memory,"): "the call has no other error",
    ("mk_infer/src/fault.rt", "InferFault::Memory"): "the pattern of the test for out of memory",
    ("mk_read/src/fault.rt", "ReadFault::Memory"): "the pattern of the test for out of memory",
    (
        "mk_read_parse/src/reading.rt",
        "return ReadFault::Memory;",
    ): "behind the test that the fault is out of memory",
    ("mk_foot/src/reading.rt", "return Err(FootFault::Memory);"): "the call has no other error",
    (
        "mk_cert_text/src/reading.rt",
        "return Err(CertTextFault::Memory);",
    ): "the call has no other error",
    (
        "mk_world/src/running.rt",
        "return Err(AllocError);",
    ): "behind the test that the fault is out of memory",
    (
        "mk_world/src/world.rt",
        "return Err(AllocError);",
    ): "behind the test that the fault is out of memory",
    (
        "mk_core_repair/src/rounds.rt",
        "return Err(Fault::Memory);",
    ): "behind the test that the fault is out of memory",
    (
        "mk_core_repair/src/trial.rt",
        "return Err(Fault::Memory);",
    ): "behind the test that the fault is out of memory",
    ("mkcheck_run/src/starting.rt", "Err(_) => Err(Stop::Memory),"): "the call has no other error",
    ("mk_core_since/src/words.rt", "Err(_) => Fault::Memory,"): "the call has no other error",
    (
        "mk_core_sentences/src/refused_line.rt",
        "return Err(AllocError);",
    ): "behind the test that the fault is out of memory",
    (
        "mk_claims/src/wider.rt",
        "return Err(AllocError);",
    ): "behind the test that the fault is out of memory",
    (
        "mkcheck_run/src/running.rt",
        "return Err(AllocError);",
    ): "behind the test that the fault is out of memory",
}

MADE = re.compile(r"\b\w+::Memory\b|\(AllocError\)")
FROM = re.compile(r"\bfn from\(")
PATTERN = re.compile(r"(Memory|OutOfMemory|AllocError|is_memory\(\w+\))\)*( \| .*)? (if .*)?=>")


def code(text: str) -> list[str]:
    """The lines without comments, contracts and imports of ghosts."""
    return [re.sub(r"//.*", "", line) for line in text.splitlines()]


def inside_from(lines: list[str], at: int) -> bool:
    """Whether the line stands in the body of a function `from`."""
    for line in reversed(lines[:at]):
        if re.search(r"\bfn \w+", line):
            return bool(FROM.search(line))
    return False


def is_ghost(line: str) -> bool:
    """Whether the line speaks of out of memory in a contract, a type or a pattern alone."""
    return "ghost" in line or "ensures" in line or "requires" in line or "≡" in line or "→" in line


def is_handed_on(line: str) -> bool:
    """Whether out of memory stands on both sides of an arm, or in its pattern alone."""
    if "=>" not in line:
        return line.lstrip().startswith("|") or line.rstrip().endswith("|")
    pattern, _, answer = line.partition("=>")
    return not MADE.search(answer) or bool(PATTERN.search(pattern + "=>"))


def matched_before(lines: list[str], at: int) -> bool:
    """Whether the arm that the line answers begins above it, with out of memory in its pattern."""
    above = [line for line in lines[max(0, at - 3) : at] if "=>" in line]
    return bool(above) and bool(PATTERN.search(above[-1]))


def found(file: Path) -> list[tuple[int, str]]:
    """The lines of a file at which out of memory is made for no such reason."""
    name = str(file.relative_to(ROOT / "crates"))
    lines = code(file.read_text(encoding="utf-8"))
    wrong = []
    for at, line in enumerate(lines):
        if not MADE.search(line) or is_ghost(line) or "Result<" in line or "impl " in line:
            continue
        if inside_from(lines, at) or (name, line.strip()) in PLACES:
            continue
        if is_handed_on(line) or matched_before(lines, at) or "matches!" in line:
            continue
        wrong.append((at + 1, line.strip()))
    return wrong


def main() -> None:
    files = [
        file
        for file in sorted(ROOT.glob("crates/*/src/*.rt"))
        if "test" not in str(file.relative_to(ROOT))
    ]
    wrong = [(file, *place) for file in files for place in found(file)]
    for file, number, line in wrong:
        print(f"{file.relative_to(ROOT)}:{number}: out of memory is made here: {line}")
    sys.exit(1 if wrong else 0)


main()
