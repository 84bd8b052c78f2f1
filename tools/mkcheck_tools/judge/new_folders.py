"""Folders that several recipes make by `mkdir` without `-p`.

With several jobs two of them may find that the folder isn't there, and the second `mkdir` fails,
also behind `test -d`. No footprint shows it: a clean build with one job makes the folder once.
"""

from __future__ import annotations

import itertools
import os
import re
import shlex
from collections.abc import Iterator, Sequence

from mkcheck_tools.answers.graphs import Ancestors, Command
from mkcheck_tools.judge.footprints import Footprint
from mkcheck_tools.judge.notes import Kind, Note, Warn
from mkcheck_tools.judge.refusals import listed

PROGRAMS = ("mkdir", "/bin/mkdir", "/usr/bin/mkdir")
# What stands before a command of the shell.
BEFORE = {"then", "do", "else", "{", "!"}
# What ends lists of commands, and hands on the status of the last one.
ENDS = {"fi", "done", "}", ")", ";"}
# The folder in which the translation of a build runs a command.
ENTERING = re.compile(r"\s*cd ([\w./+-]+)\s*(?:;|&&)")
REDIRECTED = re.compile(r"\d*[<>]+&?\s*[^\s;&|()]+")
PLAIN = re.compile(r"[\w./+@%:,=~-]+")
# Of at most this many recipes that make one folder pairs are compared.
COMPARED_AT_MOST = 64


def warn_of_folders(footprints: Sequence[Footprint], ancestors: Ancestors, warn: Warn) -> None:
    """Warns of each folder that two recipes make which may run side by side, where one fails if the
    other one was first."""
    makers: dict[str, list[str]] = {}
    for footprint in footprints:
        recipe = footprint.recipe
        found = (folder for command in recipe.commands for folder in folders_in(command))
        for folder in dict.fromkeys(found):
            makers.setdefault(folder, []).append(recipe.target)
    for folder, targets in makers.items():
        pairs = itertools.combinations(targets[:COMPARED_AT_MOST], 2)
        pair = next((pair for pair in pairs if not ancestors.in_order(*pair)), None)
        if pair is not None:
            text = (
                f"the recipes of {listed(pair)} make the folder {folder} by mkdir without -p: with"
                " several jobs both may find that it isn't there, and then the second one fails;"
                f" write `mkdir -p {folder}`"
            )
            warn(Note(pair[0], Kind.NEW_FOLDER, text))


def folders_in(command: Command) -> Iterator[str]:
    """The folders that a command makes by `mkdir`, where it fails if one is there by then."""
    entered = ENTERING.match(command.text)
    text = REDIRECTED.sub(" ", command.text)
    lexer = shlex.shlex(text, posix=True, punctuation_chars=True)
    lexer.commenters, lexer.whitespace_split = "", True
    try:
        tokens = [] if command.ignored or "mkdir" not in command.text else list(lexer)
    except ValueError:
        return
    is_begun = True
    for at, token in enumerate(tokens):
        if is_begun and token in PROGRAMS:
            words = list(itertools.takewhile(lambda word: not is_operator(word), tokens[at + 1 :]))
            if fails(tokens[at + 1 + len(words) :], command.strict):
                for name in made_by(words):
                    yield os.path.normpath(os.path.join(entered[1] if entered else "", name))
        is_begun = is_operator(token) or token in BEFORE


def is_operator(token: str) -> bool:
    """Whether a token of a command is an operator of the shell."""
    return bool(token) and all(one in "();<>|&" for one in token)


def fails(rest: Sequence[str], is_strict: bool) -> bool:
    """Whether a command fails if one in it fails, behind which the rest stands."""
    if "||" in rest or "|" in rest:
        return False
    words = list(itertools.dropwhile(ENDS.__contains__, rest))
    return is_strict or not words or words[0] == "&&"


def made_by(words: Sequence[str]) -> list[str]:
    """The folders among the words of a `mkdir` that fails if one is there."""
    options = [word for word in words if word.startswith("-")]
    names = [word for word in words if not word.startswith("-")]
    if any(not re.fullmatch(r"-v|--verbose", word) for word in options):
        return []
    return [name for name in names if PLAIN.fullmatch(name)]
