"""Macros that GNU make defines by itself and mkcheck doesn't: there they are empty, so that a
command such as `rm -rf $(CURDIR)/tmp` would be another one."""

from __future__ import annotations

import shlex
from collections.abc import Mapping

from mkcheck_tools.answers.graphs import Graph
from mkcheck_tools.faults import Fault
from mkcheck_tools.gnu.macros import PROBE, Prober
from mkcheck_tools.judge.notes import Kind, Note, Warn

# Those that have another value in each folder, or for each make. mkcheck is asked with a word that
# stands in no makefile.
VARYING = (
    *("CURDIR", "MAKEFILE_LIST", "MAKE_VERSION", "MAKE_HOST", "MAKECMDGOALS", "MAKE_RESTARTS"),
    *("MAKELEVEL", "MAKE_TERMOUT", "MAKE_TERMERR", ".FEATURES", ".VARIABLES", ".INCLUDE_DIRS"),
    ".DEFAULT_GOAL",
)
# The others, by what GNU make 4 gives them. Those that are empty there are as in mkcheck.
VALUES = {
    "AR": "ar",
    "ARFLAGS": "rv",
    "AS": "as",
    "CO": "co",
    "CPP": "$(CC) -E",
    "CTANGLE": "ctangle",
    "CWEAVE": "cweave",
    "CXX": "g++",
    "F77": "$(FC)",
    "F77FLAGS": "$(FFLAGS)",
    "FC": "f77",
    "GET": "get",
    "LD": "ld",
    "LEX": "lex",
    "LINT": "lint",
    "M2C": "m2c",
    "MAKEINFO": "makeinfo",
    "MAKE_COMMAND": "make",
    "OBJC": "cc",
    "PC": "pc",
    "RM": "rm -f",
    "SHELL": "/bin/sh",
    "TANGLE": "tangle",
    "TEX": "tex",
    "TEXI2DVI": "texi2dvi",
    "WEAVE": "weave",
    "YACC": "yacc",
    "COMPILE.C": "$(COMPILE.cc)",
    "COMPILE.F": "$(FC) $(FFLAGS) $(CPPFLAGS) $(TARGET_ARCH) -c",
    "COMPILE.S": "$(CC) $(ASFLAGS) $(CPPFLAGS) $(TARGET_MACH) -c",
    "COMPILE.c": "$(CC) $(CFLAGS) $(CPPFLAGS) $(TARGET_ARCH) -c",
    "COMPILE.cc": "$(CXX) $(CXXFLAGS) $(CPPFLAGS) $(TARGET_ARCH) -c",
    "COMPILE.cpp": "$(COMPILE.cc)",
    "COMPILE.def": "$(M2C) $(M2FLAGS) $(DEFFLAGS) $(TARGET_ARCH)",
    "COMPILE.f": "$(FC) $(FFLAGS) $(TARGET_ARCH) -c",
    "COMPILE.m": "$(OBJC) $(OBJCFLAGS) $(CPPFLAGS) $(TARGET_ARCH) -c",
    "COMPILE.mod": "$(M2C) $(M2FLAGS) $(MODFLAGS) $(TARGET_ARCH)",
    "COMPILE.p": "$(PC) $(PFLAGS) $(CPPFLAGS) $(TARGET_ARCH) -c",
    "COMPILE.r": "$(FC) $(FFLAGS) $(RFLAGS) $(TARGET_ARCH) -c",
    "COMPILE.s": "$(AS) $(ASFLAGS) $(TARGET_MACH)",
    "LEX.l": "$(LEX) $(LFLAGS) -t",
    "LEX.m": "$(LEX) $(LFLAGS) -t",
    "LINK.C": "$(LINK.cc)",
    "LINK.F": "$(FC) $(FFLAGS) $(CPPFLAGS) $(LDFLAGS) $(TARGET_ARCH)",
    "LINK.S": "$(CC) $(ASFLAGS) $(CPPFLAGS) $(LDFLAGS) $(TARGET_MACH)",
    "LINK.c": "$(CC) $(CFLAGS) $(CPPFLAGS) $(LDFLAGS) $(TARGET_ARCH)",
    "LINK.cc": "$(CXX) $(CXXFLAGS) $(CPPFLAGS) $(LDFLAGS) $(TARGET_ARCH)",
    "LINK.cpp": "$(LINK.cc)",
    "LINK.f": "$(FC) $(FFLAGS) $(LDFLAGS) $(TARGET_ARCH)",
    "LINK.m": "$(OBJC) $(OBJCFLAGS) $(CPPFLAGS) $(LDFLAGS) $(TARGET_ARCH)",
    "LINK.o": "$(CC) $(LDFLAGS) $(TARGET_ARCH)",
    "LINK.p": "$(PC) $(PFLAGS) $(CPPFLAGS) $(LDFLAGS) $(TARGET_ARCH)",
    "LINK.r": "$(FC) $(FFLAGS) $(RFLAGS) $(LDFLAGS) $(TARGET_ARCH)",
    "LINK.s": "$(CC) $(ASFLAGS) $(LDFLAGS) $(TARGET_MACH)",
    "LINT.c": "$(LINT) $(LINTFLAGS) $(CPPFLAGS) $(TARGET_ARCH)",
    "OUTPUT_OPTION": "-o $@",
    "PREPROCESS.F": "$(FC) $(FFLAGS) $(CPPFLAGS) $(TARGET_ARCH) -F",
    "PREPROCESS.S": "$(CC) -E $(CPPFLAGS)",
    "PREPROCESS.r": "$(FC) $(FFLAGS) $(RFLAGS) $(TARGET_ARCH) -F",
    "YACC.m": "$(YACC) $(YFLAGS)",
    "YACC.y": "$(YACC) $(YFLAGS)",
    ".LIBPATTERNS": "lib%.so lib%.a",
    ".SHELLFLAGS": "-c",
    "SUFFIXES": (
        ".out .a .ln .o .c .cc .C .cpp .p .f .F .m .r .y .l .ym .yl .s .S .mod .sym .def .h .info"
        " .dvi .tex .texinfo .texi .txinfo .w .ch .web .sh .elc .el"
    ),
}
# Those of mkcheck's default text, which -r leaves out.
DEFAULTS = {"CC": "cc", "MAKE": "make"}


def refuse_predefined(graph: Graph, prober: Prober, warn: Warn) -> None:
    """Refuses a makefile whose graph, with its commands, refers to a macro that GNU make alone
    defines, since other commands would be run than the ones that are meant.

    mkcheck is asked with such macros in front of the makefile, and the graph compared. Where the
    makefile gives one a value by `?=`, mkcheck takes that, and GNU make its own: that is a warning.
    """
    without_text = "-r" in prober.checker.options
    known = {**VALUES, **(DEFAULTS if without_text else {})}
    values = {**dict.fromkeys(VARYING, PROBE), **known}
    names = prober.changing(graph, list(values), values)
    if not names:
        return
    fronts = {name: PROBE for name in names}
    own, given = prober.values(*names), prober.values(*names, front=fronts)
    refused = []
    for name, value, behind in zip(names, own, given):
        if value and behind == PROBE:
            text = (
                f"the makefile gives {name} a value by ?=, which GNU make passes over, since it has"
                f" {shown(name, known)} by itself: write `{name} = {value}`"
            )
            warn(Note("", Kind.PREDEFINED, text))
        else:
            refused.append(sentence_of_macro(name, known))
    if refused:
        raise Fault("\nmkcheck-record: ".join(refused))


def sentence_of_macro(name: str, known: Mapping[str, str]) -> str:
    """What is said of a macro that only GNU make defines."""
    word = f"{name}={shlex.quote(known[name]) if name in known else '...'}"
    return (
        f"the makefile uses {name}, which GNU make defines and mkcheck doesn't: write"
        f" {shown(name, known)} into the makefile, or give {word} as a word to mkcheck-record and"
        " mkcheck"
    )


def shown(name: str, known: Mapping[str, str]) -> str:
    """An assignment of what GNU make gives to a macro, if it is always the same."""
    return f"`{name} = {known.get(name, '...')}`"
