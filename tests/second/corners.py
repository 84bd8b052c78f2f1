"""Small cases, each for one sentence of the rules that random ones seldom meet."""

from __future__ import annotations

import json
from collections.abc import Iterator

from cases import Asked, Case
from footprints import Memory
from graph import Graph, Rules, There, goal_names
from reading import read_makefile

SHOWN = b"\na:\n\t[$(X)]\n"
GRAPHS = [
    b"X = a ; b # c" + SHOWN,
    b"X = a \\# b ; c \\# d # e" + SHOWN,
    b"a: $$(b = c",
    b"a$$(b: c",
    b"X$$(Y = 1" + SHOWN,
    b"a: ../b ../../c ../b/c",
    b"a: ../b/../c",
    b"a: b/..",
    b"a: ..b b.. ... .b/..c",
    b"a: ../.. ..",
    b"a: /b //c",
    b"/t: b/c\n\t[$(@D)] [$(@F)] [$(<D)] [$*]",
    b"d/e/t.o: /x\n\t[$(@D)] [$(@F)] [$*] [$(*F)] [$(<D)] [$(^F)]",
    b"a.b: c.o /d d/e c.o\n\t[$^] [$+] [$(^D)] [$(+F)] [$(+D:d=z)] [$<] [$(^:.o=)] [$(+:%o=%%)]",
    b"X = $(Y:a%a=b%c%)\nY = a aa aba abba" + SHOWN,
    b"X = $(Y:%%a=<%>)\nY = a %a x%a b" + SHOWN,
    b"X = $(Y:%=%%)\nY = a b" + SHOWN,
    b"X = $(Y:a=)\nY = a b a ca" + SHOWN,
    b"X = $(Y:=z)\nY =  a\tb  c " + SHOWN,
    b"X = $(Y:b=$(Z:a=c))\nY = ab b\nZ = a" + SHOWN,
    b"X = $(Y:$(Z:a=b)=q)\nY = ab b\nZ = a" + SHOWN,
    b"X = $(Y:a=b=c)\nY = xa" + SHOWN,
    b"X = $(Y:a:b=c)\nY = xa:b a" + SHOWN,
    b"X = $(Y:x%=%)\nY = x xy yx xx" + SHOWN,
    b"X = $(Y:$(P)=$(P)q)\nP = %\nY = a" + SHOWN,
    b"X = $(Y$(Z):a=b)\nZ = Z\nYZ = a" + SHOWN,
    b"X = $(Y)\nY ::=  a  b \nY += c \nY += $$d$(no)" + SHOWN,
    b"X :::= $$a\nX += $$b\nX += $(Y)\nY = y" + SHOWN,
    b"X ::= $$a\nX += $$b $(X)\nX ?= c" + SHOWN,
    b"X +=  a \nX +=\nX += b" + SHOWN,
    b"X =\nX ?= a" + SHOWN,
    b"Y ?= $(Z\nX = a" + SHOWN,
    b"CC ?= x\nX = $(CC) $(MAKE) $(LDFLAGS)|$(CFLAGS)" + SHOWN,
    b"X ::= $(Y)\nY = a" + SHOWN,
    b"$(Y) = a\nY ::= X" + SHOWN,
    b"X = $@ $< $^ $? $*\nY ::= $(X)$@\na: b\n\t[$(X)] [$(Y)]",
    b"X = $X",
    b"X ::= $X$X\nX ::= $X" + SHOWN,
    b"X = ${Y}}" + SHOWN,
    b"X = $(Y))" + SHOWN,
    b"X = ${Y)}" + SHOWN,
    b"X = $(a(b)c)" + SHOWN,
    b"X = $($$)" + SHOWN,
    b"X = $(Y:$$=z)\nY = a$$" + SHOWN,
    b"a: b\n-include gone\n\tx",
    b"a: b\ninclude inc0.mk\n\tx",
    b"a: b\nX = 1\n\tx",
    b"a: b\n.PHONY: z\n\tx",
    b"a: b\n\n# x\n\\\n\n\tx",
    b".c.o:;\na.o: a.c",
    b".c.o:;\nall: a.o a.c\na.c:",
    b".c.o:\na.o: a.c\na.c:",
    b".c:;\na: a.c\na.c:",
    b".c.o:; x\na.o:\na.c:",
    b".SUFFIXES:\n.c.o:\n\tx\na.o: a.c\na.c:",
    b".SUFFIXES: .z\n.z.o:\n\tz $< $*\na.o:\na.z:\na.c:",
    b".SUFFIXES:\n.SUFFIXES: .z .o\n.z.o:\n\tz\na.o:\na.z:",
    b".SUFFIXES: .c .q\n.q:\n\tq $<\na: b\na.q:\na.c:",
    b".sh:\na:\na.sh:",
    b"a.o.sh:\na.o:\na.o.c:",
    b"d/.o:\nd/.c:",
    b".o: ;x\nd/.o: .o .c",
    b".NOTPARALLEL:\na.o: b a.c c b\na.c:",
    b"a.o: .WAIT b .WAIT .WAIT c\na.c:",
    b"a: .WAIT\na: b\na: .WAIT c\na: d .WAIT",
    b".PHONY: a.o\na.o:\na.c:",
    b".PHONY:\n.PHONY: a\n.PHONY: b\na: b c",
    b"a a b: c\na: d",
    b"a b: c ; x\nb: d\nc: ; y",
    b"a: b\nb: c\nc: a",
    b"x: y\ny: z y\nz: x",
    b"a: b b a",
    b".c.o: \n\tx\n.c:\n\ty\nq: .c.o .c",
    b".c.o b: .WAIT\n\tx\na.o:\na.c:",
    b"\ta\n",
    b"\t#a\na:",
    b"\t \t#a\na:\n\t#b",
    b" a: b\n \tc: d",
    b"a:\\\nb\\\n\\\n c",
    b"a: b\\\\\nc: d",
    b"a:\n\tb\\\\\n\tc\\\n\td\\\n\t\te",
    b"a: b\\",
    b"a:\n\tb\\",
    b"a: b # c \\\n d\n\te",
    b"a: b \\# c",
    b"a: b ; c # d \\# e",
    b"a: b # ; c",
    b"#\\\n\tx\na:",
    b"a: $(X#)\nX = b)",
    b"include inc0.mk inc0.mk\n",
    b"include $(no)inc0.mk\nz: y",
    b"X = inc0.mk gone.mk\n-include $(X)\nz:",
    b"include  inc0.mk # gone.mk\nz:",
    b"include inc0.mk\\\n\nz:",
    b".SUFFIXES: .mk\n.mk.o: ; x $<\nz: inc0.o makefile.o\ninclude inc0.mk",
    b".POSIX:\n.IGNORE:\n.SILENT: x\n.PRECIOUS: y z\n.WAIT:\na:",
    b".SUFFIXES: .c .c .d\n.d.c:;x\na.c:\na.d:",
]
# A makefile, sources, fixed prefixes, and of each target what it reads and what it writes.
Build = tuple[bytes, str, str, dict[str, tuple[str, str]]]
BUILDS: list[Build] = [
    (b"-include a.d\na.o: a.c\n\tc\n", "a.c", "", {"a.o": ("a.c", "a.o a.d")}),
    (b"a.o: a.c\n\tc\n", "a.c", "", {"a.o": ("a.c", "a.o makefile")}),
    (b"all: u/a.o\nu/a.c:\n", "", "u/", {}),
    (b"all: u/a.o v/a.o\nu/a.c v/a.c:\n", "u/a.o", "v/", {}),
    (b"q: .o .c\n\tc\n", ".c .o .o.c", "", {"q": (".o .c", "q"), ".o": (".o.c", ".o")}),
    (
        b"q: .PHONY\n\tc\n.SUFFIXES: .PHONY\n.c.PHONY:\n\tx\n",
        ".c .PHONY",
        "",
        {"q": (".PHONY", "q")},
    ),
    (b"a.o: a.c\n\tc\n", "a.c makefile", "", {"a.o": ("a.c makefile", "a.o")}),
    (b"a: b makefile\n\tc\n", "b", "", {"a": ("b makefile", "a")}),
    (b"a: b u/x\n\tc\n", "b", "u/", {"a": ("b u/x u/y", "a")}),
    (b"a: b\n\tc\n", "b", "u/", {"a": ("b", "a u/y")}),
    (b".PHONY: p q\na: b\n\tc\n", "b", "", {"a": ("b", "a q")}),
    (b".PHONY: p\na: b p\n\tc\np:\n", "b h", "", {"a": ("b h", "a")}),
    (b".PHONY: p\na: b p\n\tc\np: d\n\td\n", "b d h", "", {"a": ("b h d", "a"), "p": ("h", "")}),
    (
        b"a: b c\n\tx\nb: d\n\ty\nc: d\n\tz\n",
        "d e",
        "",
        {"a": ("d b", "a"), "b": ("d", "b"), "c": ("d", "c")},
    ),
    (
        b"a: b c\n\tx\nb: e\n\ty\nc: d\n\tz\n",
        "d e",
        "",
        {"a": ("d c e", "a"), "b": ("e", "b"), "c": ("d", "c")},
    ),
    (b"a: b\n\tx\nb: c\nc: d\n\tz\n", "d", "", {"a": ("b d", "a"), "c": ("d", "c b")}),
    (
        b"a: b\n\tx\nb: d\nc: d\n\tz\nall: c .WAIT a\n",
        "d",
        "",
        {"a": ("b", "a"), "c": ("d", "c b")},
    ),
    (b"all: c .WAIT a\na: d\n\tx\nc: d\n\tz\n", "d", "", {"a": ("c d", "a"), "c": ("d", "c")}),
    (
        b"all: x y\nx: a .WAIT b\ny: b\na:\n\tt\nb:\n\tc\n.PHONY: b\n",
        "",
        "",
        {"a": ("", "a"), "b": ("a", "")},
    ),
    (
        b"all: x\nx: a .WAIT b\na:\n\tt\nb:\n\tc\n.PHONY: b\n",
        "",
        "",
        {"a": ("", "a"), "b": ("a", "")},
    ),
    (b"all: p .WAIT q\np: a\nq: b\na:\n\tt\nb:\n\tc\n", "", "", {"a": ("", "a"), "b": ("a", "b")}),
    (
        b"all: p .WAIT q b\np: a\nq: b\na:\n\tt\nb:\n\tc\n.PHONY: b\n",
        "",
        "",
        {"a": ("", "a"), "b": ("a", "")},
    ),
    (
        b"all: p\np: a .WAIT b\na: c .WAIT d\nb: d\nc:\n\tt\nd:\n\tu\n.PHONY: d\n",
        "",
        "",
        {"c": ("", "c"), "d": ("c", "")},
    ),
    (b"a: b\n\tc $?\n", "b", "", {"a": ("b", "a")}),
    (b"a: b\n\tc $(?D)\n", "b", "", {"a": ("b", "a")}),
    (b"a: b\n\tc $(no:x=$?)\n", "b", "", {"a": ("b", "a")}),
    (b"a: b\n\tc $(Q)\nQ = $(?F:a=b)\n", "b", "", {}),
    (b"a: b\n\tc\n", 'b "q b\\s', "", {"a": ('b "q', "a x:y b\\\\s")}),
    (b"a: b\n\tc\n", "b", "", {"a": ("b", "")}),
    (b"a: b\n\tc\nb:\n\td\n", "", "", {"a": ("b", "a"), "b": ("", "b a")}),
    (b"a:;\n", "", "", {}),
    (b"a: b\n", "b", "", {"a": ("z", "w")}),
    (
        b"a.o:\na.x:\n.SUFFIXES: .x\n.x.o:\n\tx $<\ng: ; g\nall: a.o g\n",
        "",
        "",
        {"a.o": ("a.x", "a.o"), "g": ("", "g a.c")},
    ),
    (
        b"all: g a.o\n.SUFFIXES:\n.SUFFIXES: .o .c .x\n.x.o:\n\tx $<\n.c.o:\n\ty $<\ng: ; g\n",
        "a.x",
        "",
        {"a.o": ("a.x", "a.o"), "g": ("", "g a.c")},
    ),
]
# A yes and a no, and words that are asked of them.
SURE = b'{"format":1,"fixed":[],"sources":["b"],"records":[{"target":"a","commands":["c b"],"reads":["b"],"writes":["a"]}]}'
ASKED = {
    b"makefile": b"a: b\n\tc $(X)\nX = b\na.o:\na.c:\n",
    b"B": SURE,
    b"N": SURE.replace(b'"b"]', b'"b","h"]'),
    b"in.mk": b"include d/x.mk\n",
    b"d/x.mk": b"include y.mk\n",
    b"y.mk": b"a: root\n",
    b"d/y.mk": b"a: folder\n",
}
NUMBERS = [
    "1",
    "+1",
    "01",
    "2",
    "3",
    "0",
    "+0",
    "",
    "+",
    "++1",
    " 1",
    "-1",
    "1.0",
    "x",
    "18446744073709551615",
    "18446744073709551616",
    "0" * 5000 + "1",
]
WORDS = [["check", "-b", "N", "-e", number] for number in NUMBERS] + [
    ["check", "-b", "B", "-e", "1"],
    ["check", "-b", "B", "-e", "1", "-c"],
    ["check", "-b", "N", "-c", "-e", "1", "-c"],
    ["check", "-b", "B", "-e", "1", "-e", "1"],
    ["check", "-b", "B", "-e", "x"],
    ["check", "-b", "B", "-w"],
    ["check", "-b", "N", "-w", "-c", "-w"],
    ["check", "-b", "N", "-w", "-e", "1"],
    ["check", "-b", "N", "-w", "-e", "1", "gone"],
    ["check", "-b", "B", "--json"],
    ["check", "-b", "N", "--json", "-e", "1", "-c"],
    ["check", "-b", "N", "--json", "-w", "gone"],
    ["check", "-b", "N", "--json", "-e", "x"],
    ["check", "--json"],
    ["graph", "--json"],
    ["graph", "-w"],
    ["graph", "-e", "1"],
    ["verify", "-b", "B", "-k", "B", "-c"],
    ["check"],
    ["verify", "-b", "B"],
    [],
    ["-r", "graph"],
    ["graph", "a", "-c"],
    ["graph", "a", "--", "-c"],
    ["graph", "--", "-f", "in.mk"],
    ["graph", "-f", "-x"],
    ["graph", "-f", "--", "a"],
    ["graph", "-f", "-"],
    ["graph", "-"],
    ["graph", "-b", "-"],
    ["graph", "-1"],
    ["graph", "-A=1"],
    ["graph", "--", "-A=1"],
    ["graph", "-r", "-c", "-r", "--", "-x", "--"],
    ["graph", "-f", ""],
    ["graph", "-b", ""],
    ["graph", ""],
    ["graph", "-f", "\udcff"],
    ["graph", "-b", "\udcff"],
    ["graph", "\udcff"],
    ["graph", "X=\udcff"],
    ["graph", "-f", "in.mk"],
    ["graph", "-f", "d/x.mk"],
    ["graph", "-c", "CC=$(CC)", "a.o"],
    ["graph", "-c", "CFLAGS=$%", "a.o"],
    ["graph", "CC=$(CC)", "a.o"],
    ["graph", "-c", "C=d", "A:::=$(CC)$(C)$$x", "B::=$(A)$(X)", "X=[$(A)][$(B)]"],
]


def built(build: Build) -> dict[bytes, bytes]:
    """The makefile with the records, whose commands are those that the second program gives."""
    text, sources, fixed, records = build
    makefile = read_makefile(Memory({b"makefile": text}), None, True, [])
    rules = Rules(makefile)
    there = There(sources.encode().split(), fixed.encode().split(), makefile.texts)
    graph = Graph(rules, goal_names(rules, []), there)
    listed = []
    for node in graph.serial:
        if node.name.decode() in records:
            reads, writes = records[node.name.decode()]
            lines = [line.decode() for line in rules.expanded(node, there).texts]
            listed.append(
                {
                    "target": node.name.decode(),
                    "commands": lines,
                    "reads": reads.split(),
                    "writes": writes.split(),
                }
            )
    book = {"format": 1, "fixed": fixed.split(), "sources": sources.split(), "records": listed}
    return {b"makefile": text, b"B": json.dumps(book).encode()}


def corners() -> Iterator[Asked]:
    """Each with its command."""
    for text in GRAPHS:
        files = {b"makefile": text, b"inc0.mk": b"e: f\n"}
        yield "graph", Case(files, ["graph", "-c"])
    empty = json.dumps({"format": 1, "fixed": [], "sources": ["k"], "records": []}).encode()
    for goals in (["x", "y"], ["y", "x"], ["k", "y", "x"], ["a", "x"], ["x", "a"]):
        files = {b"makefile": b"a: b k c\nb: k d\nk: e\n", b"B": empty}
        yield "graph", Case(files, ["graph", "-b", "B", *goals])
    for words in WORDS:
        yield words[0] if words and words[0] in ("check", "verify") else "graph", Case(ASKED, words)
    for build in BUILDS:
        files = built(build)
        yield "evidence", Case(files, ["check", "-b", "B"])
        yield "check", Case(files, ["check", "-b", "B"])
        yield "check", Case(files, ["check", "-b", "B", "-c"])
        other = files[b"B"].replace(b'"commands": ["', b'"commands": ["x", "')
        yield "check", Case({**files, b"B": other}, ["check", "-b", "B"])
        renamed = {
            b"Makefile" if name == b"makefile" else name: data for name, data in files.items()
        }
        yield "check", Case(renamed, ["check", "-b", "B"])
