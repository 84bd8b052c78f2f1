"""The command line of mkcheck-report."""

from __future__ import annotations

import argparse
import os
import sys
from functools import partial
from pathlib import Path

from mkcheck_tools import VERSION
from mkcheck_tools.answers.checkers import Checker, find_checker
from mkcheck_tools.answers.findings import answer_of as answer_of_check
from mkcheck_tools.book.note_files import with_doubts
from mkcheck_tools.faults import Fault
from mkcheck_tools.report.escaping import clipped, visible
from mkcheck_tools.report.judging import Judged, graph_and_book, judge
from mkcheck_tools.report.page import page
from mkcheck_tools.report.pictures import reads_found, whole
from mkcheck_tools.report.reduced import fitting
from mkcheck_tools.report.sarif import sarif
from mkcheck_tools.run.ending import ended, write_text
from mkcheck_tools.run.paths import RealPath
from mkcheck_tools.run.places import Place

ABOUT = "Has mkcheck judge a build, and shows the answer: a page, SARIF, or the graph for Graphviz."
STATUS = (
    "Status: 0 yes, 1 no, 2 refused (the report says why), or something is missing, or the words"
    " were wrong."
)


def words_of(arguments: list[str]) -> argparse.Namespace:
    """What is asked for."""
    parser = argparse.ArgumentParser(prog="mkcheck-report", description=ABOUT, epilog=STATUS)
    parser.add_argument("--version", action="version", version=f"%(prog)s {VERSION}")
    add = parser.add_argument
    add("-f", metavar="F", help="the makefile; else makefile or Makefile")
    add("-r", action="store_true", help="leave out the default text, as mkcheck does")
    add("-b", metavar="BOOK", required=True, help="the file of recorded footprints")
    add(
        "-o",
        metavar="FILE",
        help="where the report goes, - for standard output; without it report.html, and standard"
        " output for --sarif and --dot",
    )
    form = parser.add_mutually_exclusive_group()
    form.add_argument("--sarif", action="store_true", help="write SARIF 2.1.0 in place of a page")
    form.add_argument("--dot", action="store_true", help="write the whole graph for Graphviz")
    add("--whole", action="store_true", help="with --dot: also a graph of over 300 names whole")
    add("words", metavar="WORD", nargs="*", help="a macro operand, where it has an =, else a goal")
    asked = parser.parse_intermixed_args(arguments)
    if asked.whole and not asked.dot:
        parser.error("--whole is for --dot")
    return asked


def checker_of(asked: argparse.Namespace) -> Checker:
    """The program, and what it is asked about."""
    names: list[str | None] = [asked.f, asked.b]
    for name in filter(None, names):
        if os.path.exists(name) and not os.path.isfile(name):
            raise Fault(f"{name} is no file that can be read several times; give a file")
    options = (*(["-f", asked.f] if asked.f is not None else []), *(["-r"] if asked.r else []))
    program = find_checker(Path(sys.argv[0]).resolve().parent)
    place = Place.of(RealPath(os.getcwd()))
    return Checker(program, place, options, tuple(asked.words), asked.b)


def report(asked: argparse.Namespace) -> int:
    """Writes what is asked for, and gives the status of the answer."""
    checker = checker_of(asked)
    path = output_of(asked, checker)
    if asked.dot:
        graph, book = graph_and_book(checker)
        answer = answer_of_check(checker.check())
        found = None if answer.refusal else reads_found(answer)
        drawing, said = whole(graph, book, short=False, found=found), ""
        if not asked.whole:
            drawing, said = fitting(drawing)
        if said:
            print(f"mkcheck-report: {said} --whole writes the whole one.", file=sys.stderr)
        write_text(drawing.dot(said), path)
        return 0
    judged = judge(checker)
    write_text(sarif(judged) if asked.sarif else page(judged), path)
    if path is not None:
        print(f"mkcheck-report: {path}: {answer_of(judged)}", file=sys.stderr)
    return judged.status


def answer_of(judged: Judged) -> str:
    """The answer in one line: a no with its counts, a refusal with its reason."""
    one = judged.refusal
    if one is None:
        if judged.findings:
            return f"no, {judged.counts}"
        return with_doubts(judged.yes or judged.answer, judged.noted)
    return f"{judged.answer}, {visible(clipped(one.sentence.replace(chr(10), ' ')))}"


def output_of(asked: argparse.Namespace, checker: Checker) -> str | None:
    """Where the report goes; nothing for standard output."""
    path = asked.o or ("-" if asked.sarif or asked.dot else "report.html")
    if path == "-":
        return None
    judged = [os.path.realpath(name) for name in (checker.makefile, str(asked.b))]
    if os.path.realpath(path) in judged:
        raise Fault(f"-o {path} is a file that is judged; name another one")
    return path


def main(arguments: list[str]) -> int:
    """Reports, and gives the status."""
    return ended("mkcheck-report", "report", partial(report, words_of(arguments)))


def run() -> None:
    """The entry point: ends with the status of the program."""
    sys.exit(main(sys.argv[1:]))
