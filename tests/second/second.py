#!/usr/bin/env python3
"""A second reading of mkcheck's rules: it answers what mkcheck answers."""

from __future__ import annotations

import sys
from collections.abc import Sequence

from answers import (
    printed_value,
    refusal_value,
    repair_value,
    run_value,
    shown,
    verdict_value,
)
from evidence import plan_of_finding
from judge import Subject
from lines import Refused
from reading import Files
from repair import Repair, printed, repaired
from request import Disk, Request, Usage, file_of, prepared
from sentences import in_sentences, in_words, in_words_with_cause, line_of
from since import compared
from world import Run, World, read_plan, run_plan

sys.setrecursionlimit(20000)

NOTHING_JUDGED = b"the goals reach no recipe, so nothing was judged; name other goals"


def answer(request: Request, files: Files) -> tuple[bytes, int]:
    """What is printed, and the status."""
    if request.command == "repair":
        return repair_text(request, repaired(request, files))
    if request.command == "since":
        return compared(request, files)
    graph, book, passed_over = prepared(request, files)
    if request.command == "graph":
        return printed_text(request, graph.text("c" in request.flags)), 0
    if request.command == "simulate":
        run = run_plan(World(graph, book), read_plan(file_of(files, request.values["p"])))
        return run_text(request, run), 2 if run.refused else 0
    subject = Subject(graph, book, passed_over)
    if request.command == "verify":
        subject.verify(file_of(files, request.values["k"]))
        return printed_text(request, subject.counts() + b"\n"), 0
    if request.in_json:
        value = verdict_value(subject)
        return shown(value), 0 if value["answer"] == "yes" else 1
    if "e" in request.values and subject.findings():
        return plan_of_finding(subject, book, request.finding), 1
    return verdict(subject, request)


def repair_text(request: Request, repair: Repair) -> tuple[bytes, int]:
    """What comes of mending, as it is printed, standard error behind the output; and the status."""
    status = 1 if repair.reason else 0
    if request.in_json:
        return shown(repair_value(repair)), status
    part = repair.part if request.part else b""
    return repair.text + part + repair.reason, status


def printed_text(request: Request, text: bytes) -> bytes:
    """A text, as it is printed."""
    return shown(printed_value(text)) if request.in_json else text


def run_text(request: Request, run: Run) -> bytes:
    """The run of a plan, as it is printed."""
    if request.in_json:
        return shown(run_value(run))
    if run.refused is None:
        return run.printed + b"plan ok\n"
    fault = in_words(run.refused) if request.in_words else run.refused.line()
    return run.printed + fault + b"\n" + run.left


def verdict(subject: Subject, request: Request) -> tuple[bytes, int]:
    found = subject.findings()
    if found:
        return in_sentences(subject, found) if request.in_words else printed(found), 1
    if "c" in request.flags:
        return subject.certificate() + b"\n", 0
    lines = [subject.counts()]
    for way in subject.ways():
        lines.append(b" ".join([b"way", way.recipe, way.file, way.end] + way.path))
    if request.in_words and lines[0].startswith(b"yes 0 "):
        lines.append(NOTHING_JUDGED)
    return b"".join(line + b"\n" for line in lines), 0


def answered(arguments: Sequence[str], files: Files) -> tuple[bytes, int]:
    """Standard output and status; of a fault of the command line nothing and 2."""
    try:
        request = Request(list(arguments))
    except Usage:
        return b"", 2
    try:
        return answer(request, files)
    except Refused as fault:
        if request.in_json:
            return shown(refusal_value(fault, files)), 2
        if request.in_words:
            return in_words_with_cause(fault, files) + b"\n" + line_of(fault, files), 2
        return fault.line() + b"\n", 2


if __name__ == "__main__":
    said, status = answered(sys.argv[1:], Disk())
    sys.stdout.buffer.write(said)
    sys.exit(status)
