"""Writes the answer of an audit in the forms that are asked for."""

from __future__ import annotations

import contextlib
import os
import sys

from mkcheck_tools.audit.asking import GITHUB, HTML, JSON, SARIF, TEXT, Output
from mkcheck_tools.audit.forms import github_text, json_text
from mkcheck_tools.audit.judgements import Judgement
from mkcheck_tools.audit.logs import sarif_text
from mkcheck_tools.audit.pages import page_text
from mkcheck_tools.audit.texts import Paint, Writer
from mkcheck_tools.answers.checkers import Checker
from mkcheck_tools.run.ending import write_out, write_text


def write_output(output: Output, judgement: Judgement, checker: Checker) -> None:
    """Writes one form of the answer. `checker` is asked what kinds of findings mean, and for what
    a page shows besides."""
    text = text_of(output, judgement, checker)
    if output.path is None:
        write_out(text.encode("utf-8", "surrogateescape"))
        return
    write_text(text.encode("utf-8", "replace").decode("utf-8"), output.path)


def text_of(output: Output, judgement: Judgement, checker: Checker) -> str:
    """The text of one form."""
    if output.form == JSON:
        return json_text(judgement)
    if output.form == GITHUB:
        return github_text(judgement)
    if output.form == SARIF:
        return sarif_text(judgement, checker.explained, checker.version())
    if output.form == HTML:
        with contextlib.chdir(judgement.sources.root):
            return page_text(judgement, checker)
    assert output.form == TEXT
    paint = Paint() if output.path is not None else Paint.of(sys.stdout, os.environ)
    return Writer(judgement, paint).whole()
