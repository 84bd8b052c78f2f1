"""Each fault but 59, under each command and option that can meet it.

A fault of the reading, of the goals, of the footprints or of the graph is the same line under all
commands; one in a command is met by those that expand commands alone. The lines stand here as the
rules have them.
"""

from __future__ import annotations

import json
from collections.abc import Iterator
from dataclasses import dataclass, field
from itertools import chain as all_of
from pathlib import Path

import pytest
from program.runs import MOST, Run, assert_answers, told

RULES = "p: a.o\n\tcc -o p a.o\na.o: a.c\n\tcc -c a.c\n"
Value = dict[str, object]
RECORD: Value = {"target": "a.o", "commands": ["cc -c a.c"], "reads": ["a.c"], "writes": ["a.o"]}
LINK: Value = {"target": "p", "commands": ["cc -o p a.o"], "reads": ["a.o"], "writes": ["p"]}
BOOK: Value = {"format": 1, "fixed": [], "sources": ["a.c"], "records": [LINK, RECORD]}
WAYS: list[Value] = [
    {"end": "source", "file": "a.c", "path": ["a.o"], "recipe": "a.o"},
    {"end": "written", "file": "a.o", "path": ["p", "a.o"], "recipe": "p"},
]
BARE = ["graph"]
GRAPH = ["graph", "-b", "B"]
VERIFY = ["verify", "-b", "B", "-k", "C"]
SIMULATE = ["simulate", "-b", "B", "-p", "P"]
# Each with the default text, and without it.
VERIFIES = [VERIFY, [*VERIFY, "-r"]]
SIMULATES = [SIMULATE, [*SIMULATE, "-r"]]
# What expands commands under footprints, what reads footprints, and all.
CHECKS = [
    ["check", "-b", "B"],
    ["check", "-c", "-b", "B"],
    ["check", "-b", "B", "-e", "1"],
    ["check", "-r", "-b", "B"],
    ["repair", "-b", "B"],
    ["repair", "-r", "-b", "B"],
]
JUDGING = [*CHECKS, *VERIFIES]
EXPANDING = [["graph", "-c", "-b", "B"], ["graph", "-r", "-c", "-b", "B"], *JUDGING]
BOOKED = [GRAPH, ["graph", "-r", "-b", "B"], *EXPANDING, *SIMULATES]
ALL = [BARE, ["graph", "-r"], ["graph", "-c"], *BOOKED]
LONG = "n" * 256


@dataclass(frozen=True)
class Row:
    """What is printed, and the status, of these commands with these words behind them, over these
    files."""

    out: str
    commands: list[list[str]]
    files: dict[str, str] = field(default_factory=dict)
    words: list[str] = field(default_factory=list)
    status: int = 2


def with_default(commands: list[list[str]]) -> list[list[str]]:
    """The commands that read the default text."""
    return [command for command in commands if "-r" not in command]


def refused(words: str, commands: list[list[str]], **files: str) -> Row:
    """A refusal; what isn't named is the build of RULES, which is right."""
    return Row(f"refused {words}\n", commands, files)


def other(value: Value, **changed: object) -> Value:
    """The value with other members."""
    members = dict(value)
    members.update(changed)
    return members


def book(**changed: object) -> str:
    """The footprints with other values, or more of them."""
    return json.dumps(other(BOOK, **changed))


def recorded(**changed: object) -> str:
    """The footprints with a record that is another one."""
    return book(records=[other(RECORD, **changed)])


def grouped(lists: dict[str, list[str]], shared: list[str], goals: list[str]) -> str:
    """Footprints of format 2, whose first record shares these lists."""
    records = [other(LINK, shared=shared), other(RECORD, shared=[])]
    return json.dumps(
        {
            "format": 2,
            "fixed": ["u/"],
            "sources": ["a.c"],
            "lists": lists,
            "groups": [{"goals": goals, "records": records}],
        }
    )


def certificate(ways: object = WAYS, **changed: object) -> str:
    """A certificate with these ways, and other values."""
    return json.dumps({"format": 1, "goals": ["p"], "ways": ways, **changed})


def lines() -> Iterator[Row]:
    """1 to 17 where lines are read."""
    doubled = "A0 =\n" + "".join(
        f"A{number} = $(A{number - 1})$(A{number - 1})\n" for number in range(1, 16)
    )
    chain = "".join(f"B{number} = $(B{number + 1})\n" for number in range(256))
    for words, text in [
        ("1 makefile:2", "a:\nb: \0\n"),
        ("2 makefile:2", "a:\n#" + "x" * 65_536 + "\n"),
        ("3 makefile:65537", "#\n" * 65_536 + "a:\n"),
        ("11 makefile:2", "a:\nb: $(X:c)\n"),
        ("11 makefile:1", "X Y = 1\na:\n"),
        ("12 makefile:3 X", "X = $(Y)\nY = $(X)\nall: $(X)\n"),
        ("13 makefile:1", "all: $(X\n"),
        ("14 makefile:17", doubled + "all: $(A15)$(A0)$(A0)\n"),
        ("14 makefile:257", chain + "all: $(B0)\n"),
        ("15 makefile:2", "V = " + "x" * 65_000 + "\nW ::= " + "$(V)" * 17 + "\na:\n"),
        ("16 makefile:1", "a: $\n"),
        ("17 makefile:1", "a: $%\n"),
        ("17 makefile:1", "a: $(%D)\n"),
    ]:
        yield refused(words, ALL, makefile=text)


def kinds() -> Iterator[Row]:
    """21 to 31, 44 and 45."""
    for words, text in [
        ("21 makefile:2", "a:\nV != date\n"),
        ("22 makefile:1", "V := x\na:\n"),
        ("23 makefile:1", "a:: b\n"),
        ("24 makefile:1", "a: b = c\n"),
        ("25 makefile:1", "a b\n"),
        ("26 makefile:1", "\tcc\na:\n"),
        ("27 makefile:1", "a: ./b\n"),
        ("27 makefile:1", "a: " + "n" * 4097 + "\n"),
        ("28 makefile:1", "a: lib(x.o)\n"),
        ("29 makefile:2", "a:\n.DEFAULT:\n"),
        ("30 makefile:2", ".PHONY: a\n\tcc\na:\n"),
        ("30 makefile:1", ".POSIX: a\na:\n"),
        ("31 makefile:3 a", "a: b\n\tx\na: c\n\ty\n"),
        ("44", ""),
    ]:
        yield refused(words, ALL, makefile=text)
    # Where no suffix is known, `.c.o` is a target like others.
    for words, text in [
        ("45 makefile:2", "a:\n.c.o: x\n\tcc\n"),
        ("45 makefile:2", "a:\n.c.o b: x\n\tcc\n"),
        ("45 makefile:2", "a:\n.c.o .c: x\n\tcc\n.sh: y\n"),
        ("44", ".c.o:\n\tcc\n.PHONY: a\n"),
    ]:
        yield refused(words, with_default(ALL), makefile=text)


def joined() -> Iterator[Row]:
    """1,000 lines that are one: it is named by its first, and the next one by its own."""
    names = "".join(f" \\\n  n{number}" for number in range(999))
    yield refused("27 makefile:2", ALL, makefile=f"\na:{names} ./b\n")
    yield refused("25 makefile:1002", ALL, makefile=f"\na:{names}\nb\n")
    commands = "".join("x \\\n" for _ in range(999))
    yield refused("16 makefile:2", [["graph", "-c"], *EXPANDING], makefile=f"p:\n\t{commands}$\n")


def included() -> Iterator[Row]:
    """32 to 37, and what an included text has."""
    chain = {f"f{level}": f"include f{level + 1}\n" for level in range(1, 16)}
    none: dict[str, str] = {}
    for words, text, more in [
        ("32 makefile:1 gone", "include gone\na:\n", none),
        ("33 f16:1", "include f1\na:\n", {**chain, "f16": "include f17\n"}),
        ("34 makefile:2", "a:\ninclude $(NONE)\n", none),
        ("35 makefile:1 /etc", "include /etc\na:\n", none),
        ("35 makefile:1 /etc", "-include /etc\na:\n", none),
        ("35 makefile:1 makefile/x", "-include makefile/x\na:\n", none),
        (f"35 makefile:1 {LONG}", f"-include {LONG}\na:\n", none),
        ("36 makefile:2", "a:\ninclude " + "e " * 1024 + "\n", {"e": ""}),
        ("21 e:2", "include e\na:\n", {"e": "b:\nV != date\n"}),
        ("1 e:1", "a:\ninclude e\nV != date\n", {"e": "\0"}),
    ]:
        yield refused(words, ALL, makefile=text, **more)
    line = "#" + "x" * 65_534 + "\n"
    whole = (line * 256)[: MOST - 1] + "\n"
    yield refused(
        "35 makefile:1 e",
        [BARE, ["check", "-b", "B"]],
        makefile="include e\n" + RULES,
        e="\n" + whole,
    )
    yield refused("35 makefile:1 e", [BARE], makefile="-include e\n" + RULES, e="\n" + whole)
    yield Row(
        "goals p\na.c:\na.o recipe: a.c\np recipe: a.o\n",
        [BARE],
        {"makefile": "include e\n" + RULES, "e": whole},
        status=0,
    )


def named() -> Iterator[Row]:
    """Words of the command line that are refused: goals, operands, and names of makefiles."""
    for line, words in [
        ("27 goal:2", ["p", "./p"]),
        ("27 goal:1", [".WAIT"]),
        ("27 goal:1", ["n" * 4097]),
        ("28 goal:1", ["lib(x.o)"]),
        ("11 operand:2", ["X=1", "Y+=2"]),
        ("12 operand:2 X", ["X=$(X)", "Y::=$(X)"]),
        ("13 operand:1", ["X::=$(Y"]),
        ("16 operand:1", ["X::=$"]),
        ("17 operand:1", ["X::=$%"]),
        ("27 .//m", ["-f", ".//m"]),
        ("37 gone", ["-f", "gone"]),
        ("35 /etc", ["-f", "/etc"]),
        (f"35 {LONG}", ["-f", LONG]),
    ]:
        yield Row(f"refused {line}\n", ALL, words=words)


def graphs() -> Iterator[Row]:
    """41 to 43, without footprints where nothing has to be known."""
    yield refused("41 a.c", BOOKED, B=book(sources=[]))
    yield refused("41 q", BOOKED, makefile=RULES + "a.o: q\n")
    yield Row("refused 41 q\n", BOOKED, words=["p", "q"])
    yield refused("42 c d c", ALL, makefile="a: c\nc: d\nd: c a\n")
    yield refused("42 a a", ALL, makefile="a: a\n")
    many = " ".join(f"n{number}" for number in range(4096))
    yield refused("43", ALL, makefile=f"a: {many}\n{many}:\n")


def footprints() -> Iterator[Row]:
    """51 to 58, and footprints that can't be read."""
    for line, text in [
        ("51", ""),
        ("51", "{"),
        ("51", '{"x":' + "[" * 127 + "]" * 127 + "}"),
        ("52 top", "[]"),
        ("52 format", "{}"),
        ("52 format", book(format=1.5)),
        ("52 fixed", book(fixed=1)),
        ("52 sources", book(sources={})),
        ("52 records", book(records=1)),
        ("52 unknown", book(more=1)),
        ("52 target", recorded(target=1)),
        ("52 commands", recorded(commands=[1])),
        ("52 reads", recorded(reads="a.c")),
        ("52 writes", recorded(writes=None)),
        ("52 unknown", recorded(shared=[])),
        ("53", book(format=3)),
        ("54 a.o", book(records=[RECORD, RECORD])),
        ("55 fixed", book(fixed=["u"])),
        ("55 sources", book(sources=["a.c", "./a.c"])),
        ("55 sources", book(sources=["n" * 4097])),
        ("55 target", recorded(target="a.o/")),
        ("55 reads", recorded(reads=["a c"])),
        ("55 writes", recorded(writes=["a//o"])),
        ("56 u/a.c", book(fixed=["u/"], sources=["u/a.c"])),
        ("52 lists", json.dumps({"format": 2, "fixed": [], "sources": []})),
        (
            "52 groups",
            json.dumps({"format": 2, "fixed": [], "sources": [], "lists": {}, "groups": [1]}),
        ),
        ("55 lists", grouped({"l": ["./h"]}, [], ["p"])),
        ("57", grouped({}, [], ["a.o"])),
        ("58", grouped({}, ["l"], ["p"])),
    ]:
        yield refused(line, BOOKED, B=text)


def lists() -> Iterator[Row]:
    """64 lists that a record shares, and the 65th that isn't there."""
    shared = {f"l{number}": [f"u/h{number}"] for number in range(64)}
    yes = "yes 2 recipes 66 reads\n"
    ways = "way a.o a.c source a.o\nway p a.o written p a.o\n"
    files = {"B": grouped(shared, list(shared), ["p"])}
    yield Row(yes + ways, JUDGING[:1], files, status=0)
    yield Row(yes, VERIFIES, files, status=0)
    yield refused("58", BOOKED, B=grouped(shared, [*shared, "l64"], ["p"]))


def unread() -> Iterator[Row]:
    """35 and 38 of footprints, certificates and plans."""
    for line, name in [
        ("38 gone", "gone"),
        ("35 /etc", "/etc"),
        ("35 makefile/x", "makefile/x"),
        (f"35 {LONG}", LONG),
    ]:
        for command in BOOKED:
            yield Row(f"refused {line}\n", [[name if word in ("B",) else word for word in command]])
        yield Row(
            f"refused {line}\n",
            [["verify", "-b", "B", "-k", name], ["simulate", "-b", "B", "-p", name]],
        )


def commands() -> Iterator[Row]:
    """11 to 17 in a command: only what expands commands meets them."""
    doubled = "A0 =\n" + "".join(
        f"A{number} = $(A{number - 1})$(A{number - 1})\n" for number in range(1, 16)
    )
    for line, text in [
        ("11 makefile:2", "p:\n\t$(X:b)\n"),
        ("12 makefile:3 X", "X = $(X)\np:\n\t$(X)\n"),
        ("13 makefile:3", "p:\n\tx\n\t$(X\n"),
        ("14 makefile:18", doubled + "p:\n\t$(A15)$(A0)$(A0)\n"),
        ("14 makefile:2", "p:\n\t" + "$(" * 257 + "A" + ")" * 257 + "\n"),
        ("15 makefile:3", "V = " + "x" * 65_000 + "\np:\n\t" + "$(V)" * 17 + "\n"),
        ("16 makefile:1", "p: ; $\n"),
        ("17 makefile:2", "p:\n\tar $%\n"),
    ]:
        yield refused(line, [["graph", "-c"], *EXPANDING], makefile=text)
        yield Row("goals p\np recipe:\n", [BARE, GRAPH], {"makefile": text}, status=0)
        yield Row(
            "plan ok\n",
            SIMULATES,
            {"makefile": text, "P": "make 1\nrun p\nend\n", "B": book(sources=[], records=[])},
            status=0,
        )
    inferred = {"makefile": "p.o:\n", "B": book(sources=["p.c"])}
    yield Row("refused 12 (default):12 CC\n", with_default(EXPANDING), inferred, ["CC=$(CC)"])


def certificates() -> Iterator[Row]:
    """71 to 76."""
    long, longer = "n" * 4096, "n" * 4097
    first, second = WAYS
    for line, text in [
        ("71", ""),
        ("71", "{"),
        ("72 top", "[]"),
        ("72 format", certificate(format=2)),
        ("72 goals", certificate(goals="p")),
        ("72 goals", certificate(goals=[longer])),
        ("72 ways", certificate({})),
        ("72 ways", certificate([1])),
        ("72 unknown", certificate(more=1)),
        ("72 end", certificate([other(first, end="no")])),
        ("72 file", certificate([other(first, file=longer)])),
        ("72 path", certificate([other(first, path=["a.o", longer])])),
        ("72 recipe", certificate([other(first, recipe=longer)])),
        ("72 unknown", certificate([other(first, more=1)])),
        ("73", certificate(goals=[long])),
        ("73", certificate(goals=["p", "a.o"])),
        (f"75 a.o {long}", certificate([other(first, file=long)])),
        ("75 a.o a.c", certificate([other(first, path=["a.o", long])])),
        (f"75 {long} a.c", certificate([other(first, recipe=long)])),
        ("75 a.o a.c", certificate([other(first, path=[]), second])),
        ("75 p a.o", certificate([first, second, second])),
        ("74 p a.o", certificate([first])),
    ]:
        yield refused(line, VERIFIES, C=text)


def found() -> Iterator[Row]:
    """76 is each finding but a stale read, which is a way that is missing; the first one where
    there are several."""
    for line, files in [
        ("record a.o", {"B": book(records=[])}),
        ("commands a.o", {"makefile": "a.o: a.c\n\tcc -c a.c\n", "B": recorded(commands=["cc"])}),
        ("varying a.o", {"makefile": "a.o: a.c\n\tcc -c $?\n", "B": recorded()}),
        ("target a.o", {"makefile": "a.o: a.c\n\tcc -c a.c\n", "B": recorded(writes=[])}),
        (
            "given a.o a.c",
            {"makefile": "a.o: a.c\n\tcc -c a.c\n", "B": recorded(writes=["a.o", "a.c"], reads=[])},
        ),
        ("own a.o a.o", {"makefile": "a.o: a.c\n\tcc -c a.c\n", "B": recorded(reads=["a.o"])}),
        ("unknown a.o h.h", {"makefile": "a.o: a.c\n\tcc -c a.c\n", "B": recorded(reads=["h.h"])}),
    ]:
        goals = ["p"] if "makefile" not in files else ["a.o"]
        yield Row(f"refused 76 {line}\n", VERIFIES, {**files, "C": certificate(goals=goals)})
    for line, text in [
        ("race b a a", "all: b .WAIT a\nx:\nb: a.c\n\tb\na: a.c\n\ta\n| a: > a = a; b: a > b = b"),
        (
            "race b a a",
            ".PHONY: b\nall: x y\nx: a .WAIT b\ny: b\na:\n\ta\nb:\n\tb\n| a: > a = a; b: a > = b",
        ),
        ("writers a b log", "all: b\nb: a\n\tb\na:\n\ta\n| a: > a log = a; b: a > b log = b"),
        (
            "loose y.h y.c",
            "all: y.c .WAIT m\nm: a.c y.h\n\tm\ny.h:\ny.c: a.c\n\ty\n"
            "| m: a.c y.h > m = m; y.c: a.c > y.c y.h = y",
        ),
    ]:
        makefile, records = text.split("| ")
        yield refused(
            f"76 {line}",
            VERIFIES,
            makefile=makefile,
            B=book(records=told(records)),
            C=certificate([], goals=["all"]),
        )
    rules = (
        ".SUFFIXES:\n.SUFFIXES: .o .c .s\n.c.o:\n\tcc $<\n.s.o:\n\tas $<\n"
        "all: gen .WAIT x.o\ngen:\n\tmk\n"
    )
    generated = told("gen: > gen x.c = mk; x.o: x.s > x.o = as x.s")
    yield refused(
        "76 selection x.o x.c",
        VERIFIES,
        makefile=rules,
        B=book(sources=["x.s"], records=generated),
        C=certificate([], goals=["all"]),
    )
    yield refused(
        "74 a.o h.h",
        VERIFIES,
        B=book(
            sources=["a.c", "h.h"],
            records=[LINK, other(RECORD, reads=["a.c", "h.h"])],
        ),
    )


def plans() -> Iterator[Row]:
    """60 to 70, 77 and 78; behind the refusal of a line come the files that are there."""
    copy = {
        "makefile": "b: a\n\tcp a b\n",
        "B": book(
            sources=["a"],
            records=[{"target": "b", "commands": [], "reads": ["a"], "writes": ["b"]}],
        ),
    }
    start = "a 1 1\n"
    for number, line, text in [
        (61, 1, "begin b\n"),
        (61, 1, "look b a\n"),
        (61, 1, "put b b\n"),
        (61, 1, "done b\n"),
        (61, 1, "break b\n"),
        (61, 1, "pass b\n"),
        (61, 1, "stop\n"),
        (61, 1, "end\n"),
        (62, 2, "make 1\nmake 1\n"),
        (62, 2, "make 1\nedit a\n"),
        (63, 2, "make 1\nbegin a\n"),
        (63, 2, "make 1\npass a\n"),
        (63, 3, "make 2\nbegin b\nbegin b\n"),
        (65, 2, "make 1\npass b\n"),
        (66, 2, "make 1\nlook b a\n"),
        (66, 2, "make 1\nput b b\n"),
        (66, 2, "make 1\ndone b\n"),
        (66, 2, "make 1\nbreak b removed\n"),
        (63, 4, "make 1\nbegin b\nbreak b\nbegin b\n"),
        (67, 3, "make 1\nbegin b\nlook b b\n"),
        (67, 3, "make 1\nbegin b\nput b a\n"),
        (68, 3, "make 1\nbegin b\ndone b\n"),
        (68, 2, "make 1\nend\n"),
        (68, 3, "make 1\nbegin b\nstop\n"),
        (69, 2, "make 1\nbegin q\n"),
        (69, 2, "# q\nedit q\n"),
        (69, 1, "make 1 q\n"),
        (70, 1, "edit b\n"),
        (77, 1, "make 1 a\n"),
    ]:
        yield Row(f"refused {number} line {line}\n{start}", SIMULATES, {**copy, "P": text})
    for line, text in [
        (2, "make 1\njump\n"),
        (1, "make 0\n"),
        (1, "make 4097\n"),
        (65_537, "\n" * 65_536 + "end\n"),
        (3, "\n#\nedit a 18446744073709551616\n"),
        (1, "break b removes\n"),
    ]:
        yield Row(f"refused 69 line {line}\n", SIMULATES, {**copy, "P": text})
    steps = "make 1\nbegin b\nlook b a\nput b b {}\ndone b\n"
    wrong = steps.format(7) + "end\n" + steps.format(8)
    yield Row("a 1 1\nb 7 2\nrefused 60 line 11\na 1 1\nb 8 3\n", SIMULATES, {**copy, "P": wrong})
    written = "make 1\nbegin b\nput b b 7\nbreak b{}\n"
    yield Row("refused 78 line 4\na 1 1\nb 7 2\n", SIMULATES, {**copy, "P": written.format("")})
    removed = written.format(" removed") + "stop\nmake 1\nrun b\nend\n"
    yield Row("a 1 1\nb 3 3\nplan ok\n", [SIMULATE], {**copy, "P": removed}, status=0)
    phony = {"makefile": ".PHONY: x\nx:\n\tx\n", "B": book(sources=[], records=[])}
    broken = "make 1\nbegin x\nbreak x{}\n"
    yield Row("refused 78 line 3\n", SIMULATES, {**phony, "P": broken.format(" removed")})
    yield Row("plan ok\n", [SIMULATE], {**phony, "P": broken.format("")}, status=0)
    two = {"makefile": "all: x y\nx:\n\tx\ny:\n\ty\n", "B": book(sources=[], records=[])}
    yield Row("refused 64 line 3\n", SIMULATES, {**two, "P": "make 1\nbegin x\nbegin y\n"})


def full() -> Iterator[Row]:
    """A plan and a certificate of the most bytes that a file may have, all of which say something,
    and of one more."""
    name = "a" * 250
    record = {"target": "b", "commands": [], "reads": [name], "writes": ["b"]}
    copy = {"makefile": f"b: {name}\n\tcp\n", "B": book(sources=[name], records=[record])}
    ends = "".join(f"{line:<255}\n" for line in ("make 1", "run b", "end"))
    plan = f"edit {name}\n" * 65_533 + ends
    yield Row(
        f"{name} 65534 65534\nb 65535 65535\nplan ok\n", [SIMULATE], {**copy, "P": plan}, status=0
    )
    yield Row("refused 35 P\n", [SIMULATE], {**copy, "P": plan + "\n"})
    reads, files = sized(MOST)
    yield Row(f"yes 267 recipes {reads} reads\n", [VERIFY], files, status=0)
    yield refused("35 C", [VERIFY], **sized(MOST + 1)[1])


def sized(size: int) -> tuple[int, dict[str, str]]:
    """266 recipes that read 1,000 sources each, and one that reads as many more that the
    certificate has this size; how many reads there are."""
    sources = [f"s{number:03}" for number in range(1000)]
    needed = {f"r{number:03}": sources for number in range(266)}
    entry = '{{"end":"source","file":"{0}","path":["{1}"],"recipe":"{1}"}}'
    ways = [entry.format(file, name) for name, files in needed.items() for file in files]
    head, tail = '{"format":1,"goals":["all"],"ways":[', "]}"
    room = size - len(head + tail) - sum(len(way) + 1 for way in ways)
    more = (room - 2000) // (len(entry.format("s000", "q")) + 1)
    ways += [entry.format(file, "q") for file in sources[:more]]
    last = "n" * (
        size - len(head + tail) - sum(len(way) + 1 for way in ways) - len(entry.format("", "q"))
    )
    needed["q"] = [*sources[:more], last]
    rules = "".join(f"{name}: {' '.join(files)}\n\t{name}\n" for name, files in needed.items())
    records = [
        {"target": name, "commands": [name], "reads": files, "writes": [name]}
        for name, files in needed.items()
    ]
    written = head + ",".join([*ways, entry.format(last, "q")]) + tail
    files = {
        "makefile": f"all: {' '.join(needed)}\n" + rules,
        "B": book(sources=[*sources, last], records=records),
        "C": written,
    }
    return sum(len(files) for files in needed.values()), files


STANDING = {
    "makefile": RULES,
    "B": book(),
    "C": certificate(),
    "P": "make 1\nrun a.o\nrun p\nend\n",
}
SMALL = all_of(
    *(lines(), kinds(), joined(), included(), named(), graphs(), footprints()),
    *(lists(), unread(), commands(), certificates(), found(), plans()),
)


def assert_row(row: Row, folder: Path) -> None:
    """Asserts what each command of a row answers."""
    for command in row.commands:
        words = [*command, *row.words]
        run = Run(words, row.status, row.out, files={**STANDING, **row.files})
        assert_answers(run, folder)


def first_words(row: Row) -> str:
    """The name of the test of a row."""
    return row.out.splitlines()[0][:60]


@pytest.mark.parametrize("row", SMALL, ids=first_words)
def test_each_command_tells_the_fault(row: Row, tmp_path: Path) -> None:
    """The same line under each command and option that can meet it."""
    assert_row(row, tmp_path)


def test_plans_and_certificates_may_be_full(tmp_path: Path) -> None:
    """Files of the most bytes, all of which say something, and of one more."""
    for row in full():
        assert_row(row, tmp_path)
