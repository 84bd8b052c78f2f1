"""The page of an audit: its answer, and what mkcheck-report shows of the build, where places are
those of the original makefiles."""

from __future__ import annotations

import os
from dataclasses import replace

from mkcheck_tools.answers.checkers import Checker
from mkcheck_tools.audit.judgements import Judgement
from mkcheck_tools.audit.readers import POSIX
from mkcheck_tools.audit.texts import Writer, headline
from mkcheck_tools.audit.verdicts import Audited
from mkcheck_tools.report.escaping import markup
from mkcheck_tools.report.judging import Above, judge
from mkcheck_tools.report.page import page

BOOK = os.path.join(".mkcheck", "footprint.json")
TRANSLATED = os.path.join(".mkcheck", "makefile")
ABOUT = (
    "Below stands what mkcheck says of the build as it was translated; lines are those of the"
    " original makefiles."
)


def page_text(judgement: Judgement, checker: Checker) -> str:
    """The page. The project's folder has to be the one in which this program is."""
    told = f"<h2>The audit</h2>\n<pre>{markup(Writer(judgement).whole())}</pre>\n"
    if judgement.reader.kind == POSIX:
        judged = judge(replace(checker, book=BOOK))
    else:
        judged = judge(replace(checker, options=("-f", TRANSLATED), words=(), book=BOOK))
        told += f"<p>{markup(ABOUT)}</p>\n"
    judged.above = above(judgement.audited)
    return page(judged, told)


def above(audited: Audited) -> Above:
    """The answer of an audit, at the top of its page."""
    word, _, text = headline(audited).partition(": ")
    if audited.refused:
        return Above("refused", text, False)
    if audited.open:
        return Above("no", text, False)
    is_plain = not audited.unjudged and not audited.accepted
    return Above("yes", word.removeprefix("yes, "), is_plain)
