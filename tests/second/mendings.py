"""Small builds for `repair`, each for one sentence of its rule that random ones seldom meet."""

from __future__ import annotations

import json
from collections.abc import Iterator, Mapping, Sequence

from cases import Asked, Case

# The target, commands, reads and writes of a record.
RecordRow = tuple[str, list[str], list[str], list[str]]

LACKING = b"p: a.o\n\tld\na.o: a.c\n\tcc\n"
LINKED = ("p", ["ld"], ["a.o"], ["p"])
HEADED = ("a.o", ["cc"], ["a.c", "h.h"], ["a.o"])
ENDS = [b"", b"\n", b"#", b"# \\", b"# \\\n", b"\\", b"\\\n", b"\\\\", b"V = \\", b"\t", b"\tx \\"]
ENDS += [b"q:", b"q: \\", b"q: ;", b"q:; x \\", b"q:\n\tx \\\n", b"include e \\", b" ", b"\\\n\\"]


def mended(
    text: bytes,
    sources: str,
    *records: RecordRow,
    words: Sequence[str] = (),
    files: Mapping[bytes, bytes] | None = None,
    **more: object,
) -> Asked:
    """A case, by the makefile, the sources, and the target, commands, reads and writes of each
    record."""
    keys = ("target", "commands", "reads", "writes")
    value = {
        "format": 1,
        "fixed": [],
        "sources": sources.split(),
        "records": [dict(zip(keys, record)) for record in records],
        **more,
    }
    given = {b"makefile": text, b"B": json.dumps(value, ensure_ascii=False).encode()}
    return "repair", Case({**given, **(files or {})}, ["repair", "-b", "B", *words])


def rounds() -> Iterator[Asked]:
    """Each round finds one read more, as the source of the round before leads to a recipe."""
    for count in (2, 63, 64):
        numbers = range(1, count + 1)
        text = b"".join(b"s%d: r%d\nr%d:\n\tdo\n" % (n, n, n) for n in numbers)
        records = [(f"r{n}", ["do"], [f"s{n + 1}"], [f"r{n}"]) for n in range(count)]
        sources = " ".join(f"s{n}" for n in numbers)
        records.append((f"r{count}", ["do"], [], [f"r{count}"]))
        yield mended(b"r0:\n\tdo\n" + text, sources, *records)


def sizes() -> Iterator[Asked]:
    """Targets, prerequisites and phony names of 1,999 to 2,001 bytes together, and longer ones."""
    for lengths in ((1998,), (999, 999), (999, 1000), (999, 1001), (2000, 1), (2001, 1), (1, 2001)):
        names = ["%s%d" % ("n" * (size - 1), place) for place, size in enumerate(lengths)]
        reads = ("t", ["do"], names, ["t"])
        yield mended(b"t:\n\tdo\n", " ".join(names), reads)
        for read, sources in (("h", "h"), (None, "")):
            lines = ["all: " + " ".join(names)] + [f"{name}:\n\tdo" for name in names]
            records = [
                (name, ["do"], [read] if read else [], [name] if read else []) for name in names
            ]
            yield mended("\n".join(lines + [""]).encode(), sources, *records)


def ends() -> Iterator[Asked]:
    for end in ENDS:
        for text in (LACKING + end, LACKING + b"V = v" + end):
            yield mended(text, "a.c h.h", LINKED, HEADED)


def read_twice() -> Iterator[Asked]:
    """A makefile that includes itself once, so that what is appended is read twice."""
    text = (
        b"L ::= $(L)x\nFx = makefile\nFxx = none\n-include $(F$(L))\n"
        b"N ::= $(N)x\nRx = rules.mk\nRxx = none\n-include $(R$(N))\n"
    )
    for more, told in ((b"", ""), (b" $<", " a.c"), (b" $^", " a.c"), (b" $+", " a.c")):
        rules = LACKING.replace(b"\tcc", b"\tcc" + more)
        record = ("a.o", ["cc" + told], *HEADED[2:])
        yield mended(text, "a.c h.h", LINKED, record, files={b"rules.mk": rules})


def named() -> Iterator[Asked]:
    """Names that no makefile holds, and names that it reads in a way of their own."""
    odd = 'h:h h%h h(h h=h h#h h\\h h"h h;h h*h é.h .WAIT .PHONY .SUFFIXES .c.o .c - .. ../h /h'
    for name in odd.split() + ["h$h", "h'h", "h&h", "~h"]:
        yield mended(LACKING, f"a.c {name}", LINKED, ("a.o", ["cc"], ["a.c", name], ["a.o"]))
        beside = ("g", ["mk"], ["a.c"], ["g", name])
        reading = ("a.o", ["cc"], ["a.c", name], ["a.o"])
        yield mended(LACKING + b"g:\n\tmk\n", "a.c", LINKED, reading, beside, words=["p", "g"])
        rules = name.encode() + b": \n" + LACKING + b"g: a.c\n\tmk\n"
        yield mended(rules, "a.c", LINKED, reading, beside, words=["p", "g"])
        yield mended(name.encode() + b":\n\tmk\n", "a.c", (name, ["mk"], ["a.c"], []), words=[name])


PHONY = b".PHONY: q\n"
TRIED: RecordRow = ("t", ["try"], [], [])
# A target that isn't made, and what needs it.
NEEDING = [
    b"t: a.c\n\ttry\n",
    b"all: t\nt:\n\ttry\n",
    b"all: t\n\tdo\nt:\n\ttry\n",
    PHONY + b"all: q\nq: t\n\tdo\nt:\n\ttry\n",
    PHONY + b"all: q r\nq: t\n\tdo\nr: t\n\tdo\nt:\n\ttry\n",
    b"all: t\n-include t\nt:\n\ttry\n",
    b".SUFFIXES: .x .y\n.x.y:\n\ttry\nall: t.y\nt.x:\n",
    b".SUFFIXES: .x .y\n.x.y:\n\ttry\nt.y: t.x\nt.x:\n",
]


def needing() -> Iterator[Asked]:
    for text in NEEDING:
        records: list[RecordRow] = [(name, ["do"], [], [name]) for name in ("all", "r")]
        yield mended(text, "a.c", TRIED, ("t.y", ["try"], [], []), ("q", ["do"], [], []), *records)


# What a rule of a source brings into the build once it is named.
BROUGHT = [
    b"h.h: a.o\n",
    b"h.h: g\ng:\n\tmk\n",
    b"h.h:\n\tmk\n",
    b"h.h: none\n",
    b"h.h: q\n.PHONY: q\nq:\n\tdo\n",
    b"h.h: .WAIT a.c p\n",
    b".SUFFIXES: .h .i\n.i.h:\n\tmk\nh.i:\n",
    b".PHONY: h.h\n",
    b".c.o:\n\tcc\n",
    b".o:\n\tld\n",
    b".NOTPARALLEL:\nh.h: g\ng:\n\tmk\n",
    b"h.h: side\nside:\ng:\n\tmk\nall: p g\n",
]


# Records besides those of the program and its object.
BESIDE: list[list[RecordRow]] = [
    [],
    [("g", ["mk"], [], ["g", "side"])],
    [("g", ["mk"], ["k.h"], [])],
]


def brought() -> Iterator[Asked]:
    for text in BROUGHT:
        goals: list[list[str]] = [[], ["a.o"], ["all"] if b"all:" in text else ["a.o", "p"]]
        for more in BESIDE:
            for words in goals:
                yield mended(LACKING + text, "a.c h.h k.h", LINKED, HEADED, *more, words=words)


CYCLES = [
    ("all: a b\na:\n\tx\nb:\n\tx\n", {"a": "b", "b": "a"}),
    ("all: b a\na:\n\tx\nb:\n\tx\n", {"a": "b", "b": "a"}),
    ("all: b a\na: b\n\tx\nb:\n\tx\n", {"a": "", "b": "a"}),
    ("all: a b c\na:\n\tx\nb:\n\tx\nc:\n\tx\n", {"a": "c", "b": "a", "c": "b"}),
    ("all: a b c\na:\n\tx\nb:\n\tx\nc:\n\tx\n", {"a": "b c", "b": "", "c": "a b"}),
    ("all: a c\na: b\n\tx\nb:\n\tx\nc:\n\tx\n", {"a": "c", "b": "c", "c": "a"}),
    ("all: a c\na: b\n\tx\nb:\n\tx\nc:\n\tx\n", {"a": "", "b": "c", "c": "a"}),
    ("all: s b\ns:\na: b\n\tx\nb: s\n\tx\nall: a\n", {"a": "", "b": ""}),
    ("all: c .WAIT a b\na:\n\tx\nb:\n\tx\nc:\n\tx\n", {"a": "b", "b": "a", "c": ""}),
]


def cycles() -> Iterator[Asked]:
    for text, reads in CYCLES:
        records = [
            (name, ["x"], read.split(), [name] + (["s"] if name == "a" else []))
            for name, read in reads.items()
        ]
        goals: list[list[str]] = [[], ["a"], ["b", "a"], ["c", "all"]]
        for words in goals:
            yield mended(text.encode(), "", *records, words=words)


def mendings() -> Iterator[Asked]:
    for makes in (rounds, sizes, ends, read_twice, named, needing, brought, cycles):
        yield from makes()
