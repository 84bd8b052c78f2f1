"""Small footprints, certificates and plans, each for one sentence of the rules."""

from __future__ import annotations

from collections.abc import Iterator, Sequence

from cases import Asked, Case

MAKEFILE = b"p: a.o\n\tl\na.o: a.c\n\tc\n.PHONY: q\nr: q\n\tr\nq: a.c\n\tq\nt: a.o b.o\n\tt\nb.o: a.c\n\tb\n"
RECORD = (
    b'{"target":"p","commands":["l"],"reads":["a.o","a.c"],"writes":["p"]},'
    b'{"target":"a.o","commands":["c"],"reads":["a.c","h.h"],"writes":["a.o"]}'
)
BOOK = (
    b'{"format":1,"fixed":[],"sources":["a.c","h.h"],"records":['
    b'{"target":"p","commands":["l"],"reads":["a.o","a.c"],"writes":["p"]},'
    b'{"target":"a.o","commands":["c"],"reads":["a.c"],"writes":["a.o"]},'
    b'{"target":"r","commands":["r"],"reads":["h.h"],"writes":["r"]},'
    b'{"target":"q","commands":["q"],"reads":["h.h"],"writes":[]},'
    b'{"target":"t","commands":["t"],"reads":["a.o","b.o"],"writes":["t","u"]},'
    b'{"target":"b.o","commands":["b"],"reads":["a.c"],"writes":["b.o","v"]}]}'
)
TWO = (
    b'{"format":2,"fixed":[],"sources":["a.c"],"lists":{"x":["a.c","a.o"],"y":["a.o","b"]},"groups":['
    b'{"goals":["p","a.o"],"records":[]},{"goals":["p"],"records":[{"target":"p","commands":["l"],"reads":["a.o"],'
    b'"writes":["p","p"],"shared":["x","x","y"]}]},{"goals":["p"],"records":[]}]}'
)
ORDERED = (
    b'{"format":2,"fixed":[],"sources":["a.c"],"lists":{},"groups":[{"goals":["b.o","p"],"records":[]},'
    b'{"goals":["p","b.o"],"records":[{"target":"p","commands":[],"reads":[],"writes":[],"shared":[]}]},'
    b'{"goals":["p"],"records":[{"target":"a.o","commands":[],"reads":[],"writes":[],"shared":[]}]}]}'
)
WAYS = [
    b'{"end":"source","file":"a.c","path":["a.o"],"recipe":"a.o"}',
    b'{"end":"written","file":"a.o","path":["p","a.o"],"recipe":"p"}',
    b'{"end":"source","file":"a.c","path":["p","a.o"],"recipe":"p"}',
]
NUMBERS = [
    b"1.0",
    b"1e0",
    b"-0",
    b"0",
    b"2",
    b"3",
    b"-1",
    b"true",
    b"null",
    b'"1"',
    b"18446744073709551615",
    b"18446744073709551616",
    b"-9223372036854775808",
    b"-9223372036854775809",
    b"1e400",
    b"01",
    b"+1",
    b"1.",
    b"NaN",
    b"9" * 310,
    b"1e-999",
    b"-0.0",
    b"[1]",
]
BOOKS = [
    b"",
    b"null",
    b"[]",
    b"{}",
    b"{}{}",
    b'{"format":1',
    BOOK + b" \n\t\r",
    BOOK + b"\0",
    b"\xef\xbb\xbf" + BOOK,
    BOOK + b"\x0b",
    BOOK.replace(b"h.h", b"\xff"),
    BOOK.replace(b'"a.c"', b'"a\\u002ec"'),
    BOOK.replace(b'"fixed":[]', b'"fixed":["\\ud83d\\ude00/"]'),
    BOOK.replace(b'"fixed":[]', b'"fixed":["\\ud83d/"]'),
    BOOK.replace(b'"fixed":[]', b'"fixed":["\\ude00/"],"fixed":[]'),
    BOOK.replace(b'"fixed":[]', b'"fixed":["/","//"]'),
    BOOK.replace(b'"fixed":[]', b'"fixed":[""]'),
    BOOK.replace(b'"fixed":[]', b'"fixed":["a"]'),
    BOOK.replace(b'"fixed":[]', b'"fixed":["h"]'),
    BOOK.replace(b'"fixed":[]', b'"fixed":["/"]'),
    BOOK.replace(b'"fixed":[]', b'"fixed":["./"]'),
    BOOK.replace(b'"fixed":[]', b'"fixed":["../"]'),
    BOOK.replace(b'"fixed":[]', b'"fixed":[],"x":1').replace(b'"records":[{', b'"records":[1,{'),
    BOOK.replace(b'"commands":["l"]', b'"commands":[1]'),
    BOOK.replace(b'"writes":["p"]', b'"writes":["p"],"shared":[]'),
    BOOK.replace(b'"format":1', b'"format":2'),
    BOOK.replace(b'["a.c","h.h"]', b'["a.c","h.h","h.h","a.c"]'),
    BOOK.replace(b'"target":"q"', b'"target":"p"'),
    BOOK.replace(b'"sources":["a.c"', b'"sources":["a.c","./x"'),
    BOOK.replace(b'"reads":["a.o"', b'"reads":["a o"'),
    BOOK.replace(b'"format":1,', b'"format":1,"format":2,'),
    BOOK.replace(b'"format":1,', b'"format":2,"format":1,'),
    BOOK.replace(b'"l"', b'"\\u006c"'),
    BOOK.replace(b'"l"', b'"l\\u0000"'),
    TWO,
    TWO.replace(b'["x","x","y"]', b'["y","z"]'),
    TWO.replace(b'"goals":["p"]', b'"goals":["p","p"]'),
    TWO.replace(b'"goals":["p"]', b'"goals":[]'),
    TWO.replace(
        b'["p","a.o"],"records":[]',
        b'["p","a.o"],"records":[{"target":"p","commands":[],"reads":[],"writes":[],"shared":["no"]}]',
    ),
    TWO.replace(b'["p","a.o"],"records":[]', b'["./p"],"records":[]'),
    TWO.replace(b'"y":["a.o","b"]', b'"y":["a.o","b/"],"":["x"]'),
    TWO.replace(b'"y":["a.o","b"]', b'"y":"b"'),
    TWO.replace(b'"lists":{', b'"lists":{"x":1,'),
    TWO.replace(b'"groups":[', b'"groups":[[],'),
    TWO.replace(b'"groups":[', b'"more":[],"groups":[1,'),
    TWO.replace(b',"shared":["x","x","y"]', b""),
    TWO.replace(b'"records":[]', b'"records":{}', 1),
    TWO.replace(b'"goals":["p"],', b'"goals":["p"],"x":1,').replace(b'"target":"p"', b'"target":1'),
    TWO.replace(b'"format":2', b'"format":1'),
    b'{"format":1,"fixed":[],"sources":["/a"],"records":[' + RECORD + b"]}",
    b'{"x":' + b"[" * 126 + b"]" * 126 + b"}",
    b'{"x":' + b"[" * 127 + b"]" * 127 + b"}",
    *[
        BOOK.replace(
            b'"format"', b'"deep":' + b'{"x":' * depth + b"1" + b"}" * depth + b',"format"'
        )
        for depth in (126, 127)
    ],
    *[
        BOOK.replace(b'"format"', b'"deep":' + b'[{"x":' * 63 + more + b"}]" * 63 + b',"format"')
        for more in (b"1", b"[]")
    ],
    BOOK.replace(b'"format"', b'"deep":' + b"[" * 126 + b"]" * 126 + b',"format"'),
    BOOK.replace(b'"format"', b'"deep":' + b"[" * 127 + b"]" * 127 + b',"format"'),
]
CERTIFICATES: list[list[int | bytes]] = [
    [0, 1, 2],
    [2, 1, 0],
    [0, 1],
    [1, 2],
    [0, 0, 1, 2],
    [0, 1, 2, 1],
    [],
    [0, 1, b'{"end":"source","file":"a.c","path":["a.o"],"recipe":"p"}'],
    [0, 1, b'{"end":"source","file":"a.c","path":[],"recipe":"p"}'],
    [0, 1, b'{"end":"source","file":"a.c","path":["p"],"recipe":"p"}'],
    [0, 1, b'{"end":"always","file":"a.c","path":["p","a.o"],"recipe":"p"}'],
    [0, 1, b'{"end":"written","file":"a.c","path":["p","a.o"],"recipe":"p"}'],
    [0, 1, b'{"end":"source","file":"a.c","path":["p","a.c"],"recipe":"p"}'],
    [0, 1, b'{"end":"source","file":"a.c","path":["p","p","a.o"],"recipe":"p"}'],
    [0, 1, 2, b'{"end":"source","file":"h.h","path":["p","a.o"],"recipe":"p"}'],
    [0, 2, b'{"end":"written","file":"a.o","path":["p"],"recipe":"p"}'],
    [b'{"end":"source","file":"zz","path":["zz"],"recipe":"zz"}'],
    [0, 1, b"[]"],
    [b"1", b"{}"],
    [0, b'{"end":"no","file":1,"path":1,"recipe":1}'],
    [0, b'{"end":"source","file":"./a","path":1,"recipe":1}'],
    [0, b'{"end":"source","file":"a","path":["a",1],"recipe":1}'],
    [0, b'{"end":"source","file":"a","path":["a"],"recipe":"a/"}'],
    [0, b'{"end":"source","file":"a","path":["a"],"recipe":"a","z":1}'],
    [0, b'{"end":"source","file":"a","path":["a"],"z":1}'],
    [0, 1, b'{"end":"no","end":"source","file":"a.c","path":["p","a.o"],"recipe":"p"}'],
]
GOALS: list[list[str]] = [["p", "b.o"], ["b.o", "p"], ["p", "p"], ["b.o"], []]
PLANS = [
    b"make 1\npass r",
    b"make 1 r\nrun q\nrun r\nend\nmake 1 r\npass q",
    b"make 1 r\nrun q\nrun r\nend\nmake 1 r\nrun q\npass r",
    b"make 1 r\nrun q\nrun r\nend\nmake 1 r\nrun q\nrun r\nend\n",
    b"make 1\nbegin q\nend",
    b"make 1\nrun r",
    b"make 2\nbegin a.o\nbegin b.o\nbegin a.o",
    b"make 1\nbegin a.o\nbegin b.o",
    b"make 2\nbegin a.o\nput a.o a.o\ndone a.o",
    b"make 1\nbegin a.o\nlook a.o a.c\ndone a.o",
    b"make 1\nbegin a.o\nlook a.o h.h",
    b"make 1\nbegin a.o\nput a.o a.c",
    b"make 1\nbegin a.o\nput a.o v",
    b"make 1\nbegin a.o\nlook a.o zz",
    b"make 1 t\nrun a.o\nrun b.o\nrun t\nend\nmake 1 t\npass a.o\npass b.o\npass t\nend",
    b"make 1 t\nrun a.o\nrun b.o\nrun t\nend\nedit h.h\nmake 1 t\nrun a.o\npass b.o\npass t",
    b"make 1 t\nrun a.o\nrun b.o\nrun t\nend\nedit a.c 1\nmake 1 t\nrun a.o\nrun b.o\nrun t\nend\nedit a.c 5\nmake 4096 t\nfinish t",
    b"make 2 t t r\nbegin a.o\nbegin q\nfinish a.o\nrun b.o\nfinish q\nrun r\nrun t\nend",
    b"make 1 q",
    b"make 1 nowhere t",
    b"make 1\nmake 1 nowhere",
    b"make 1\nmake 1 t",
    b"edit a.o",
    b"edit p",
    b"make 1\nedit a.c",
    b"stop",
    b"end",
    b"done a.o",
    b"look a.o a.c",
    b"put a.o a.o",
    b"finish a.o",
    b"run a.o",
    b"pass a.o",
    b"begin a.o",
    b"make 1\nstop\nmake 1\nbegin a.o\nstop",
    b"make 1\nlook a.o a.c",
    b"make 1\nfinish q\n",
    b"make 1\nrun a.o\nrun a.o",
    b"make 1\npass a.c",
    b"make 1\nbegin a.c",
    b"make 1\nbegin t",
    b"make 1\npass nowhere",
    b"make 1\nlook a.o nowhere",
    b"# x\n\n \t\n make  1\t\nrun a.o\r",
    b"make 01\nbegin a.o\nput a.o a.o 018446744073709551615",
    b"make 1\nbegin a.o\nput a.o a.o 18446744073709551616",
    b"make 1\nbegin b.o\nlook b.o a.c\nput b.o b.o\nput b.o v 3\nedit a.c\n",
    b"make 1\nrun b.o\nstop\nmake 1\nbegin b.o\nlook b.o a.c\nput b.o v 9\nput b.o b.o\ndone b.o",
    b"make 1\nrun b.o\nstop\nedit a.c\nmake 1\nbegin b.o\nlook b.o a.c\nput b.o v 9\nput b.o b.o\ndone b.o\nstop\nedit a.c 1\nmake 1\nfinish b.o",
    b"make 1\nbegin b.o\nput b.o v 4\nput b.o v 5\nfinish b.o\nstop\nmake 1\nrun b.o\nstop\nmake 1\nbegin b.o\nfinish b.o",
    b"make 0",
    b"make 4097",
    b"make",
    b"make x",
    b"stop a",
    b"end 1",
    b"put a.o",
    b"edit",
    b"edit a.c 1 2",
    b"\xc2\xa0",
    b"#\xff",
    b"run \xff",
    b"make 1 \xff",
    b"edit a.c -1",
    b"edit a.c +1",
    b"edit a.c 1x",
    b"Make 1",
    b"make 1\nrun a.o b.o",
    b"make " + b"0" * 5000 + b"1\nrun a.o",
    b"make 1 t\nbegin b.o\nlook b.o a.c\nput b.o b.o 1\nput b.o b.o 2\nput b.o v 3\ndone b.o\nstop\nmake 1\nbegin b.o\nlook b.o a.c\nput b.o b.o 1\nput b.o v 3\ndone b.o",
]


def certificate(ways: Sequence[int | bytes]) -> bytes:
    texts = [WAYS[way] if isinstance(way, int) else way for way in ways]
    return b'{"format":1,"goals":["p"],"ways":[' + b",".join(texts) + b"]}"


def verified(data: bytes) -> Asked:
    return "verify", Case(
        {b"makefile": MAKEFILE, b"B": BOOK, b"K": data}, ["verify", "-b", "B", "-k", "K"]
    )


def documents() -> Iterator[Asked]:
    """Each with its command."""
    books = BOOKS + [BOOK.replace(b'"format":1', b'"format":' + number) for number in NUMBERS]
    for book in books:
        yield "graph", Case({b"makefile": MAKEFILE, b"B": book}, ["graph", "-b", "B"])
    for book in BOOKS:
        yield "check", Case({b"makefile": MAKEFILE, b"B": book}, ["check", "-b", "B", "-c"])
    for goals in GOALS:
        files = {b"makefile": MAKEFILE, b"B": ORDERED}
        yield "check", Case(files, ["check", "-b", "B", *goals])
    for ways in CERTIFICATES:
        yield verified(certificate(ways))
    right = certificate([0, 1, 2])
    for number in NUMBERS:
        yield verified(right.replace(b'"format":1', b'"format":' + number))
    for old, new in [
        (b'["p"],', b'["p","p"],'),
        (b'["p"],', b"[],"),
        (b'["p"],', b'["p/"],'),
        (b'["p"],', b"[1],"),
        (b'"goals"', b'"goal"'),
        (b'"format":1,', b""),
        (b'{"format"', b'{"x":1,"format"'),
        (b'"ways":[', b'"ways":{},"ways":['),
        (b"]}]}", b']}],"ways":{}}'),
        (right, b"[]"),
        (right, b""),
        (right, b"{"),
        (right, right + b"\n \t\r"),
        (right, right + b"x"),
        (b'"source"', b'"so\\u0075rce"'),
    ]:
        yield verified(right.replace(old, new))
    for plan in PLANS:
        for book in BOOK, BOOK.replace(b'["h.h"],"writes":[]', b'["h.h"],"writes":["q"]'):
            files = {b"makefile": MAKEFILE, b"B": book, b"P": plan}
            yield "simulate", Case(files, ["simulate", "-b", "B", "-p", "P", "t", "r"])
