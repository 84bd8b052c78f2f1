"""Options that a makefile gives to make by the macro MAKEFLAGS, and those of the environment: GNU
make takes them from there."""

from __future__ import annotations

import re
from collections.abc import Callable, Iterator, Mapping

from mkcheck_tools.faults import Fault
from mkcheck_tools.judge.notes import Kind, Note, Warn

# What these make of a build is none that mkcheck judges, nor one that is recorded here.
REFUSED = {
    "n": "prints commands and doesn't run them",
    "o": "takes files for old ones that aren't",
    "q": "runs no command",
    "t": "touches targets and doesn't run their commands",
    "W": "takes files for new ones that aren't",
}
WARNED = {
    "B": "makes all anew each time",
    "e": "takes variables of the environment before the macros of the makefile",
    "i": "goes on where a command fails, and takes its target for made",
    "k": "goes on with other targets where a command fails",
    "L": "takes the stamp of a link for that of the file where it is the newer one",
    "R": "leaves out its default macros and rules; give -r to mkcheck too",
    "r": "leaves out its default rules; give -r to mkcheck too",
}
# These change neither what is made nor from what: jobs, load, what is printed.
PLAIN = "bjlmOpSswdv"
WITH_VALUE = "jlOoWCfIE"
LONG = {
    "always-make": "B",
    "assume-new": "W",
    "assume-old": "o",
    "check-symlink-times": "L",
    "dry-run": "n",
    "environment-overrides": "e",
    "ignore-errors": "i",
    "jobs": "j",
    "just-print": "n",
    "keep-going": "k",
    "load-average": "l",
    "max-load": "l",
    "new-file": "W",
    "no-builtin-rules": "r",
    "no-builtin-variables": "R",
    "no-keep-going": "S",
    "no-print-directory": "w",
    "no-silent": "w",
    "old-file": "o",
    "output-sync": "O",
    "print-directory": "w",
    "question": "q",
    "quiet": "s",
    "recon": "n",
    "silent": "s",
    "stop": "S",
    "touch": "t",
    "trace": "d",
    "debug": "d",
    "warn-undefined-variables": "d",
    "what-if": "W",
}


def options_of(value: str) -> Iterator[tuple[str, str]]:
    """The options in a value of MAKEFLAGS: each as it stands there, and its letter, if it has one.

    Letters in the first word need no hyphen.
    """
    words = value.split()
    if words and not words[0].startswith("-") and "=" not in words[0]:
        words[0] = f"-{words[0]}"
    waits = False
    for word in words:
        if word.startswith("--"):
            if word != "--":
                yield word, LONG.get(word[2:].partition("=")[0], "")
        elif word.startswith("-"):
            waits = False
            for at, letter in enumerate(word[1:], 2):
                yield f"-{letter}", letter
                if letter in WITH_VALUE:
                    waits = not word[at:]
                    break
            continue
        elif not waits:
            yield word, ""
        waits = False


def check_options(value: str, without_rules: bool, warn: Warn) -> None:
    """Refuses options by which make makes nothing, or something else, and warns of the others that
    change a build. `without_rules` tells that mkcheck leaves out its default text too.
    """
    for shown, letter in options_of(value):
        front = f"the makefile sets {shown} in MAKEFLAGS"
        if letter in REFUSED:
            raise Fault(f"{front}, by which GNU make {REFUSED[letter]}: take it out")
        if letter in WARNED:
            if not (letter in "rR" and without_rules):
                warn(Note("", Kind.FLAGS, f"{front}, by which GNU make {WARNED[letter]}"))
        elif not letter or letter not in PLAIN:
            warn(Note("", Kind.FLAGS, f"{front}: what make does by that isn't judged here"))


def warn_of_other_reading(value_of: Callable[[str], str], warn: Warn) -> None:
    """Warns of macros by which GNU make reads a makefile otherwise, or starts another shell.

    `value_of` gives the value of a macro, empty where the makefile sets none.
    """
    flags, prefix, extra = map(value_of, (".SHELLFLAGS", ".RECIPEPREFIX", ".EXTRA_PREREQS"))
    if flags not in ("", "-c", "-ec", "-e -c", "-ce"):
        here = "-ec" if ends_early(flags) else "-c"
        text = (
            f"the makefile sets .SHELLFLAGS to {flags}, by which GNU make starts the shell; here"
            f" commands are run by {here}: let the commands set these options"
        )
        warn(Note("", Kind.FLAGS, text))
    if prefix:
        text = (
            "the makefile sets .RECIPEPREFIX: for GNU make a line that begins with a tab is no"
            " command then; take it out"
        )
        warn(Note("", Kind.FLAGS, text))
    if extra:
        text = (
            f"the makefile sets .EXTRA_PREREQS, by which GNU make lets all targets need {extra};"
            " write them down as prerequisites"
        )
        warn(Note("", Kind.FLAGS, text))


def ends_early(flags: str) -> bool:
    """Whether a shell with these options ends at the first part of a command that fails."""
    return any(re.fullmatch(r"-[A-Za-z]*e[A-Za-z]*", word) for word in flags.split())


def warn_of_given_options(environment: Mapping[str, str], warn: Warn) -> None:
    """Warns of variables by which GNU make reads other makefiles, and by which makes take options
    that change a build. What a make hands down to a recipe that records says nothing of others.
    """
    if environment.get("MAKEFILES", "").strip():
        text = (
            "the environment sets MAKEFILES: GNU make reads the files that it names first, which"
            " aren't judged here; unset it when make is started"
        )
        warn(Note("", Kind.ENVIRONMENT, text))
    if "MAKELEVEL" in environment:
        return
    for variable in ("MAKEFLAGS", "GNUMAKEFLAGS"):
        for shown, letter in options_of(environment.get(variable, "")):
            does = {**REFUSED, **WARNED}.get(letter)
            if does is None and (not letter or letter not in PLAIN):
                does = "does what isn't judged here"
            if does is not None:
                text = (
                    f"the environment sets {shown} in {variable}, by which make {does}; unset that"
                    " when make is started"
                )
                warn(Note("", Kind.ENVIRONMENT, text))
