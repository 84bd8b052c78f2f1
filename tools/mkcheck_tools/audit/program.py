"""The command line of mkcheck-audit."""

from __future__ import annotations

import argparse
import os
import sys
import time
from collections.abc import Sequence
from dataclasses import replace
from functools import partial
from pathlib import Path
from typing import Any

from mkcheck_tools import VERSION
from mkcheck_tools.audit.accepting import Accepted, accepting, fitted
from mkcheck_tools.audit.asking import (
    FORMATS,
    GITHUB,
    TEXT,
    Asked,
    outputs_of,
    use_processors,
    words_over,
)
from mkcheck_tools.audit.baselines import read_baseline, write_baseline
from mkcheck_tools.audit.environments import environments_in
from mkcheck_tools.audit.freshness import Unknown, changes_since
from mkcheck_tools.audit.importing import answer_before, audit_of_build, refuse_other_words
from mkcheck_tools.audit.makefile_lines import Sources
from mkcheck_tools.audit.judgements import Judgement
from mkcheck_tools.audit.mending import mending_of, texts_of
from mkcheck_tools.audit.outputs import write_output
from mkcheck_tools.audit.readers import POSIX, READERS, Reader, checker_of, picked
from mkcheck_tools.audit.recording import audit_of_makefile
from mkcheck_tools.audit.recording import judged as judged_makefile
from mkcheck_tools.audit.settings import NAME, Settings, settings_in
from mkcheck_tools.audit.texts import Paint, headline, is_in_ci
from mkcheck_tools.audit.unreached import unreached
from mkcheck_tools.audit.verdicts import Audited, number_of
from mkcheck_tools.audit.writing import patch, write_all
from mkcheck_tools.faults import Fault
from mkcheck_tools.judge.notes import Kind, Note
from mkcheck_tools.report.escaping import counted, visible
from mkcheck_tools.run.ending import ended, write_out
from mkcheck_tools.run.paths import resolved

TOOL = "mkcheck-audit"
ABOUT = (
    "Finds out whether parallel and incremental makes build a project right: has its build recorded"
    " and judged, and says at the lines of its makefile what is wrong, and what to add."
)
STATUS = (
    "Status: 0 yes, 1 there is a finding that isn't accepted, or something that couldn't be judged,"
    f" 2 no answer. Settings stand in {NAME} in the project's folder."
)
STORE = ".mkcheck"


def words_of(arguments: list[str]) -> argparse.Namespace:
    """What is asked for."""
    parser = argparse.ArgumentParser(prog=TOOL, description=ABOUT, epilog=STATUS)
    parser.add_argument("--version", action="version", version=f"%(prog)s {VERSION}")
    add = parser.add_argument
    add("-C", metavar="DIR", default=".", help="the folder of the project; without it this one")
    add("-S", metavar="SUB", default=".", help="the folder below DIR in which the tool is started")
    add("-f", metavar="FILE", help="the makefile; else the one that make would read")
    add("--from", dest="reader", choices=READERS, help="who reads it; else this is found out")
    mend = parser.add_mutually_exclusive_group()
    mend.add_argument("--diff", action="store_true", help="show the lines to add, as a patch")
    mend.add_argument("--fix", action="store_true", help="write the lines, and audit again")
    add(
        "--baseline",
        metavar="FILE",
        help="take the findings in FILE as accepted; where it isn't there, write those of today",
    )
    add(
        "--fixed",
        metavar="PREFIX",
        action="append",
        default=[],
        help="what lies under PREFIX never changes, as a compiler's files",
    )
    add(
        "--trust",
        metavar="TARGET",
        action="append",
        default=[],
        help="take the recipe of TARGET as it is, whatever running it again shows",
    )
    add("--allow-unjudged", action="store_true", help="status 0 also where not all was judged")
    add(
        "--format",
        choices=FORMATS,
        dest="outputs",
        action=Collected,
        help="the form of the answer, text without it; may be given several times, each with -o",
    )
    add("-o", metavar="FILE", dest="outputs", action=Collected, help="where that form goes")
    add("--no-replay", action="store_true", help="don't run each recipe again, and say so")
    add("--no-record", action="store_true", help="judge what was recorded before, without a build")
    add(
        "--fresh-only",
        action=argparse.BooleanOptionalAction,
        help="with --no-record: no answer where a source changed since; the default in CI",
    )
    add("words", metavar="WORD", nargs="*", help="a goal, or a macro where it has an =")
    asked = parser.parse_intermixed_args(arguments)
    if asked.no_record and asked.fix:
        parser.error("--fix records again, so it can't stand beside --no-record")
    return asked


def asked_by(words: argparse.Namespace) -> Asked:
    """The audit that the words of the command line and the settings ask for."""
    root = resolved(words.C)
    if not os.path.isdir(root) or root == "/":
        raise Fault(f"-C {words.C}: there is no such folder of a project")
    if not os.path.isdir(os.path.join(root, words.S)):
        raise Fault(f"-S {words.S}: there is no such folder in {root}")
    settings = settings_in(root)
    accepted, new_baseline = accepted_by(words, settings, root)
    return Asked(
        root,
        os.path.normpath(words.S),
        words.f,
        words.reader,
        words_over(words.words, settings),
        (*settings.fixed, *words.fixed, *(one.prefix for one in environments_in(root))),
        (*settings.trust, *words.trust),
        settings.jobs,
        not words.no_replay,
        not words.no_record,
        is_in_ci() if words.fresh_only is None else words.fresh_only,
        words.allow_unjudged,
        accepted,
        new_baseline,
        outputs_of(words.outputs or []),
    )


def accepted_by(
    words: argparse.Namespace, settings: Settings, root: str
) -> tuple[tuple[Accepted, ...], str | None]:
    """The entries on accepted findings, and the file into which today's are to be written."""
    given = os.path.abspath(words.baseline) if words.baseline else None
    name = given or settings.baseline
    if name is None:
        return settings.accept, None
    entries = read_baseline(name, root, given is not None and not is_in_ci())
    if entries is None:
        return settings.accept, name
    return (*settings.accept, *entries), None


class Collected(argparse.Action):
    """Keeps options in their order, each with its value."""

    def __call__(
        self,
        parser: argparse.ArgumentParser,
        namespace: argparse.Namespace,
        values: str | Sequence[Any] | None,
        option_string: str | None = None,
    ) -> None:
        """Takes one."""
        option = (option_string or "").lstrip("-")
        namespace.outputs = [*(namespace.outputs or []), (option, values)]


def audit(words: argparse.Namespace) -> int:
    """Audits, tells the answer, and gives the status."""
    begun = time.time_ns()
    asked = asked_by(words)
    use_processors(asked.jobs)
    reader = picked(asked.wanted)
    tell(reader.line)
    make_store(asked)
    judgement = judged(asked, reader)
    if words.diff:
        show_patch(judgement)
        return judgement.status
    if words.fix and judgement.mending.additions:
        fix(asked, judgement, begun)
        judgement = judged(asked, reader)
    write_answer(asked, judgement)
    return judgement.status


def tell(text: str) -> None:
    """Tells something on standard error."""
    print(f"{TOOL}: {visible(text)}", file=sys.stderr, flush=True)


def judged(asked: Asked, reader: Reader) -> Judgement:
    """Audits once."""
    audited = audited_by(asked, reader)
    entries = asked.accepted
    if asked.new_baseline is not None and not audited.refused:
        found = fitted((*audited.findings, *audited.later), entries)
        new = [one for one in found.findings if not one.is_accepted]
        write_baseline(asked.new_baseline, asked.root, new)
        tell(f"{asked.new_baseline} is written: {counted(number_of(new), 'finding')}, accepted")
        entries = (*entries, *(read_baseline(asked.new_baseline, asked.root, False) or ()))
    audited, unused = accepting(audited, entries)
    sources = Sources(asked.root)
    mending = mending_of(audited, sources)
    return Judgement(reader, audited, unused, sources, mending, asked.allow_unjudged)


def show_patch(judgement: Judgement) -> None:
    """Prints the lines to add as a patch, and tells the rest."""
    texts = texts_of(judgement.mending.additions, judgement.sources)
    lines = patch(texts, Paint.of(sys.stdout, os.environ))
    write_out("".join(f"{line}\n" for line in lines).encode("utf-8", "surrogateescape"))
    for left in judgement.mending.left:
        advice = f"; {left.why}" if left.why else ""
        tell(f"left to you: {left.finding.spot}: {left.finding.sentence}{advice}")
    tell(headline(judgement.audited))


def fix(asked: Asked, judgement: Judgement, begun: int) -> None:
    """Writes the lines to add."""
    additions = judgement.mending.additions
    write_all(asked.root, texts_of(additions, judgement.sources), begun)
    for addition in additions:
        where = f"{addition.file}:{addition.behind}" if addition.behind else addition.file
        at = "behind" if addition.behind else "at the end of"
        for line in addition.lines:
            tell(f"added {at} {where}: {line}")


def audited_by(asked: Asked, reader: Reader) -> Audited:
    """The audit by the reader that was picked."""
    if not asked.record:
        audited = audited_before(asked, reader)
    elif reader.kind == POSIX:
        audited = audit_of_makefile(asked, reader)
    else:
        audited = audit_of_build(asked, reader)
    presumed = [one.sentence for one in environments_in(asked.root)]
    left_out = "" if audited.refused else unreached(asked.wanted_by(reader), reader)
    more = [*presumed, left_out] if left_out else presumed
    return replace(audited, remarks=(*audited.remarks, *more))


def audited_before(asked: Asked, reader: Reader) -> Audited:
    """The audit of what was recorded before."""
    old = ""
    try:
        old = changes_since(asked.root, reader, asked.words).sentence
    except Unknown as unknown:
        if asked.fresh_only:
            raise
        old = str(unknown)
    if old and asked.fresh_only:
        refused = f"the build was {old}, so that is no evidence: audit it without --no-record"
        return Audited(reader.path, "", refused=refused)
    if reader.kind == POSIX:
        audited = judged_makefile(asked.wanted_by(reader), ())
    else:
        refuse_other_words(asked, reader)
        audited = answer_before(asked, reader)
    if not old:
        return audited
    return replace(audited, notes=(*audited.notes, Note("", Kind.OUTDATED, old)))


def make_store(asked: Asked) -> None:
    """Makes the folder for what is kept, which git passes over."""
    store = Path(asked.root, STORE)
    try:
        store.mkdir(exist_ok=True)
        ignoring = store / ".gitignore"
        if not ignoring.exists():
            ignoring.write_text("*\n", encoding="utf-8")
    except OSError as error:
        raise Fault(f"{store} can't be written: {error.strerror}") from None


def write_answer(asked: Asked, judgement: Judgement) -> None:
    """Writes the answer in all forms that are asked for."""
    checker = checker_of(asked.wanted_by(judgement.reader))
    for output in asked.outputs:
        write_output(output, judgement, checker)
    printed = next(one.form for one in asked.outputs if one.path is None)
    if printed not in (TEXT, GITHUB):
        tell(headline(judgement.audited))


def main(arguments: list[str]) -> int:
    """Audits, and gives the status."""
    words = words_of(arguments)
    return ended(TOOL, "audit", partial(audit, words))


def run() -> None:
    """The entry point: ends with the status of the program."""
    sys.exit(main(sys.argv[1:]))
