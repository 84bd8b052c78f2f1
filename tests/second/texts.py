"""Pieces of lines for random makefiles: expressions, macro lines, torn lines, near misses."""

from __future__ import annotations

from random import Random

NAMES = [b"A", b"B", b"C", b"AB", b"a.b", b"_", b"x-y", b"CC", b"CFLAGS", b"no", b"N"]
INTERNAL = [
    b"@",
    b"<",
    b"*",
    b"^",
    b"+",
    b"?",
    b"@D",
    b"@F",
    b"<D",
    b"<F",
    b"*D",
    b"*F",
    b"^D",
    b"^F",
    b"+D",
    b"+F",
]
CHUNKS = [
    b"a",
    b"b.c",
    b"d/x.c y.c",
    b" ",
    b"  ",
    b"\t",
    b".c",
    b"%",
    b"x%y",
    b"A",
    b"/",
    b"w1 w2",
    b"-O1",
    b".",
    b"p.c p.c",
    b":",
    b"=",
    b";",
    b"{",
    b"}",
    b")",
    b"\\",
]
WORDS = [b"a", b"b.c", b"d/x.c y.c", b" ", b".c", b"A", b"w1 w2", b"-O1", b"p.c p.c", b"  "]
ENDS = [
    b".c=.o",
    b"c=",
    b"=.z",
    b"%.c=%.o",
    b"%=d/%",
    b"d/%=%",
    b"a=b",
    b"%c=x",
    b"x%=%%y",
    b"%%=%",
    b".c=%",
    b"w%=v%v",
    b"p%c=%",
    b"c%c=%",
    b"y.c=",
    b"d/x.c=$(A)",
    b"$(B)=q",
    b"%.$(A)=%.$(B)",
    b"=",
    b"%=",
    b"a=b=c",
    b"a:b=c",
    b"$$=x",
    b".c=$$",
]
FAULTY = [
    b"$",
    b"$ ",
    b"$(",
    b"${A",
    b"$()",
    b"$( A )",
    b"$(A:x)",
    b"$%",
    b"$(%D)",
    b"$(A:B",
    b"$)",
    b"$(A B)",
    b"$(shell x)",
    b"$=",
    b"$:",
    b"$(%X)",
    b"$(@X)",
    b"$(@DF)",
    b"${%}",
    b"$(A}",
    b"$(A$)",
    b"$/",
    b"$(\xc3\xa9)",
    b'$"',
    b"$(A(b)c)",
]


def blanks(rng: Random) -> bytes:
    return rng.choice([b"", b" ", b" ", b"  ", b"\t", b" \t "])


def reference(rng: Random, depth: int) -> bytes:
    """A reference in one of its spellings."""
    draw = rng.random()
    if draw < 0.12:
        return b"$" + rng.choice([b"A", b"B", b"C", b"_", b"@", b"<", b"*", b"^", b"+", b"-", b"."])
    if draw < 0.25:
        name = rng.choice(INTERNAL)
    elif draw < 0.4 and depth > 0:
        name = rng.choice(
            [
                b"$(N)",
                b"A$(N)",
                b"A$N",
                b"${N}",
                b"x-$(I)",
                b"$(I)F",
                b"a.$(N:B=b)",
                b"$(N:%=A%)",
                b"$(A)",
                expression(rng, depth - 1, True),
            ]
        )
    else:
        name = rng.choice(NAMES)
    if rng.random() < 0.35:
        name += b":" + rng.choice(ENDS)
    return b"$(" + name + b")" if rng.random() < 0.7 else b"${" + name + b"}"


def expression(rng: Random, depth: int, safe: bool) -> bytes:
    """Some text with references."""
    out = []
    for _ in range(rng.choice([0, 1, 1, 2, 2, 3, 4])):
        draw = rng.random()
        if draw < 0.4:
            out.append(reference(rng, depth))
        elif draw < 0.47:
            out.append(rng.choice([b"$$", b"$$", b"$$$$", b"$$(A)"]))
        elif draw < 0.6 and not safe:
            out.append(rng.choice(FAULTY))
        else:
            out.append(rng.choice(WORDS if safe else CHUNKS))
    return b"".join(out)


def macro_line(rng: Random, name: bytes, operator: bytes | None, text: bytes) -> bytes:
    """An assignment."""
    if operator is None:
        operator = rng.choice([b"=", b"=", b"=", b"::=", b":::=", b"?=", b"+=", b"+="])
    left = rng.choice([b"", b"", b"", b" "]) + name
    return left + blanks(rng) + operator + blanks(rng) + text + rng.choice([b"", b"", b"", b" "])


TEARS = [b"\\\n", b" \\\n  ", b"\\\n\t", b"\\\n\\\n", b"\\\n \t", b"\\\n\t\t", b"\\\n \\\n"]
WILD_TEARS = TEARS + [b"\\\\\\\n", b"\\\\\n", b"\\\\ ", b"\\\n\n"]


def torn(rng: Random, line: bytes) -> bytes:
    """A line with one of its blanks, seldom any place of it, torn by an escaped newline."""
    wild = rng.random() < 0.08
    places = [at for at in range(1, len(line)) if line[at : at + 1] == b" "]
    if wild or line.startswith(b"\t"):
        places = list(range(1, len(line) + 1))
    if not places:
        return line
    at = rng.choice(places)
    return line[:at] + rng.choice(WILD_TEARS if wild else TEARS) + line[at:]


MISSES = [
    b"V != date",
    b"V := x",
    b"a := b ; c # d",
    b"a:: b",
    b"a :: b := c",
    b":: a",
    b": a",
    b"a: b = c",
    b"a: b := c",
    b": a = b",
    b"stray",
    b"; x",
    b"a ; b : c",
    b"\tstray",
    b"\t# fine",
    b"\t \\\n x",
    b"X = 1\n\tcmd",
    b"a: b\n\tc\ninclude inc0.mk\n\td",
    b"./x: a",
    b"a//b:",
    b"a: b/",
    b"a: /",
    b"a/../b: x",
    b"../../x: a",
    b"/..: a",
    b"x*: a",
    b"a: %.c",
    b"a: b|c",
    b"a: 'b'",
    b"a: b&",
    b"a: \\#b",
    b"lib(x.o): a",
    b"a: lib(x.o)",
    b"a: (./x",
    b"a: b)",
    b"a: \x01b",
    b"a: b\x7f",
    b"a: \xff",
    b"a: \xc2\x85",
    b"a: \xed\xa0\x80",
    b"a: \xf4\x90\x80\x80",
    b"a: \xc0\xaf",
    b"a: \xe2\x82\xac",
    b".DEFAULT:",
    b".DEFAULT: a\n\tx",
    b".SECONDARY: a",
    b".ABC: x",
    b".AB: x",
    b".A_B: x",
    b"a .DEFAULT: x",
    b".DEFAULT .PHONY: x",
    b".PHONY a: x",
    b".PHONY .PHONY: x",
    b".PHONY: a ; x",
    b".PHONY: a\n\tx",
    b".PHONY: a\n\n\t#x",
    b".PHONY: .WAIT a",
    b".SUFFIXES: c",
    b".SUFFIXES: .a.b",
    b".SUFFIXES: .",
    b".SUFFIXES: .a/b",
    b".SUFFIXES: .c.",
    b".NOTPARALLEL: a",
    b".POSIX: a",
    b".WAIT: a",
    b".IGNORE: .WAIT",
    b".SILENT: a\n\tb",
    b".SUFFIXES: .PHONY .q",
    b".SUFFIXES: .WAIT",
    b".SUFFIXES: $(E)",
    b".PHONY: ;",
    b".PHONY: lib(x)",
    b"a:\n\tx\na:\n\ty",
    b"a: ; x\na: ; y",
    b"a:;\na:\n\tx",
    b"a: ;\na: ;",
    b"q a: ; x\na q: ; y",
    b"q q: ; x",
    b".c.o: ; x\n.c.o: ; y",
    b"include",
    b"-include",
    b"include $(NONE)",
    b"-include $(NONE)",
    b"include :",
    b"include = x",
    b"include=x",
    b"include: x",
    b"-include=x",
    b"include gone.mk",
    b"include lib(x)",
    b"include ./x gone",
    b"include folder",
    b"-include folder",
    b"include makefile",
    b"-include makefile/x",
    b".c.o: x",
    b".o: x",
    b".c.o zz: x",
    b".c.o: .WAIT",
    b".sh .c: y\n\tz",
    b"a: .WAIT .WAIT b .WAIT",
    b"$(NONE): x\n\ty",
    b"$(NONE): a = b",
    b"$(NONE): $(X",
    b"$(NONE) $(NONE): ; $(",
    b"a: $(X",
    b"$(X: a",
    b"X = $(Y",
    b"a: $(b#c)",
    b"a: b ; c # d $(X)",
    b"a: b # ; c",
    b"a: b \\# ; c",
    b"X = a \\# b # c",
    b"#a\\\nb",
    b"a: b ; \\\n\tc",
    b"a: b \\",
    b"X = a\\\\",
    b"X += a\nX += b",
    b"X ::= $(X) a",
    b"X = $(X)",
    b"a: $(REC)\nREC = $(REC)",
    b"REC = $(REC)\na: $(REC)",
    b"MA = $(MB)\nMB = x$(MA)\n$(MA): x",
    b"$+=x",
    b"a::::=x",
    b"a:::=x",
    b"a::= x",
    b"=x",
    b" = x",
    b"A B = x",
    b"$(NONE)=x",
    b"A$(NONE) = x",
    b"$(X) = y",
    b"a?b = c",
    b"a+b=c",
    b"a! = c",
    b"a !=c",
    b"a+ = c",
    b"a: b\x0bc",
    b"a: b\rc",
    b"a: b\r",
    b"x\0y: a",
    b"X = \0",
    b"#\0",
    b"\t\0",
    b"a: b::c",
    b"a: b:c",
    b"a: b: c",
    b"~: a",
    b"a: =",
    b"a: $$",
    b"a: $$x",
    b"a\\: b",
    b"a: b\\c",
    b"a$$: b",
    b"a,b: c@d",
    b"a: .PHONY",
    b"a: .DEFAULT",
    b"a: -",
    b"a: ..",
    b"a: .",
    b"..: a",
    b"a: ../..",
    b"- : a",
    b".c: .o",
    b"a: zz$(NONE)yy",
    b"a: $(@D)",
    b"$@: x",
    b"a: $%",
    b"a: $(%F)",
    b"\ta\\\n\tb",
    b"a:\n\t$(",
    b"a: b\n\t$",
    b"a: b\n\t$(X:y)",
    b"a: b\n\t$(%)",
    b"a:b\n\t$(REC)\nREC=$(REC)",
    b"a: b\n\t$$$",
    b"a: b\n\t$! x",
    b"a: b\n\t${A B}",
    b"a:b;$(X",
    b"a .WAIT: b",
    b".WAIT b: c",
    b".WAIT:;",
    b"a: ./b lib(x)",
]


def near_miss(rng: Random, names: list[bytes]) -> bytes:
    """A line, or some, that a makefile may not have, or may just have."""
    line = rng.choice(MISSES)
    if names and rng.random() < 0.3:
        line = line.replace(b"a:", rng.choice(names) + b":", 1)
    return line
