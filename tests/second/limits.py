"""Cases at the limits, which are too large for random ones, and each near miss once."""

from __future__ import annotations

from collections.abc import Iterator, Mapping, Sequence

from cases import Asked, Case
from corners import corners
from documents import documents
from makefiles import FOLDER, Contents
from mendings import mendings
from texts import MISSES

RULE = b"a: b\n\tc\n"
BOOK = b'{"format":1,"fixed":[],"sources":["b"],"records":[%s]}' % (
    b'{"target":"a","commands":["c"],"reads":["b"],"writes":["a"]}'
)


def graph(
    text: bytes, files: Mapping[bytes, Contents] | None = None, words: Sequence[str] = ()
) -> Asked:
    return "graph", Case({b"makefile": text, **(files or {})}, ["graph", "-c", *words])


def simulated(plan: bytes) -> Asked:
    return "simulate", Case(
        {b"makefile": RULE, b"B": BOOK, b"P": plan}, ["simulate", "-b", "B", "-p", "P"]
    )


def lines_at_limit() -> Iterator[Asked]:
    for size in (65536, 65537):
        yield graph(b"a:;" + b"x" * (size - 3) + b"\n")
        yield graph(b"a:\n\t" + b"x" * size + b"\n")
        yield graph(b"a:\n\t" + b"x\\\n" * (size // 3) + b"x" * (size % 3) + b"\n")
        yield graph(b"a: b\\\n" + b" " * 70000 + b"c #" + b"x" * (size - 9) + b"\n")
        yield graph(b"a:\n" + b" " * size + b"\n\t" + b"\t" * size + b"\n#" + b"y" * (size - 1))
    yield graph(b"x" * 65537 + b"\0")
    yield graph(b"x\n" * 65536 + b"x\0")


def many_lines() -> Iterator[Asked]:
    for size in (65536, 65537):
        yield graph(b"a:\n" + b"#\n\n" * (size - 1))
        yield graph(b"a:\n" + b"\tx\n" * (size - 2) + b"\n \n\t\n# end")
    files = {b"makefile": b"#\n" * 65537, b"B": BOOK}
    yield "words", Case(files, ["check", "-w", "-b", "B"])


def values_at_limit() -> Iterator[Asked]:
    long = b"V = " + b"x" * 65532 + b"\n"
    sums = b"W ::= " + b"$(V)" * 15 + b"\n"
    for rest in (65596, 65597):
        text = long + sums + b"W += " + b"y" * 65530 + b"\nW += " + b"z" * (rest - 65532)
        yield graph(text + b"\na:;echo")
    for more in (64, 65):
        text = long + sums + b"X = $(W)$(V)" + b"z" * more + b"\n"
        yield graph(text + b"a: $(X:x%=q)\n")
        yield graph(text + b"Y :::= $(X)\na:;echo\n")
        yield graph(text + b"Y ::= $(X)\na:;echo\n")
    yield graph(long + b"W ::= " + b"$(V)" * 17 + b"$(\na:")
    yield graph(long + b"D = $(V:x%=$$%)\nW :::= " + b"$(D)" * 9 + b"\na:;echo")
    yield graph(
        b"D ::= "
        + b"$$" * 32760
        + b"\nE = "
        + b"$(D)" * 8
        + b"\nF ::= $(E)$(E)\nG :::= $(F)\nH :::= $(F)$(F)\na:;echo"
    )


def many_references() -> Iterator[Asked]:
    pairs = b"A0 =\n" + b"".join(b"A%d = $(A%d)$(A%d)\n" % (i, i - 1, i - 1) for i in range(1, 16))
    yield graph(pairs + b"all: $(A15)$(A0)\n")
    yield graph(pairs + b"all: $(A15)$(A0)$(A0)\n")
    yield graph(pairs + b"all:\n\t$(A15)$(A0)\n\tx$(A15)$(A0)$(A0)\n")


def references_at_limit() -> Iterator[Asked]:
    for depth in (255, 256):
        chain = b"".join(b"B%d = $(B%d)\n" % (i, i + 1) for i in range(depth))
        yield graph(chain + b"B%d = x\na: $(B0)\n" % depth)
        yield graph(b"X = " + b"$(" * (depth + 1) + b"A" + b")" * (depth + 1) + b"\na: $(X)\n")
        yield graph(b"a: " + b"$(" * (depth + 1) + b"A" + b")" * (depth + 1) + b"\n")
        yield graph(b"a: " + b"$(A:" * depth + b"$B=y" + b"=x)" * depth + b"\n")
    yield graph(b"a: " + b"$(" * 256 + b"$" + b")" * 256 + b"\n")
    yield graph(b"a: " + b"$(" * 256 + b"$(" + b")" * 256 + b"\n")


def texts_at_limit() -> Iterator[Asked]:
    chain = {b"f%d" % i: b"include f%d\n" % (i + 1) for i in range(1, 16)}
    yield graph(b"include f1\n", {**chain, b"f16": b"a:;x\n"})
    yield graph(b"include f1\n", {**chain, b"f16": b"a:;x\ninclude $(\n"})
    yield graph(b"include f1\n", {**chain, b"f16": b"-include f17\n"})
    yield graph(b"include makefile\n")
    for times in (1023, 1024):
        names = b" ".join([b"e"] * 100)
        rest = b" ".join([b"e"] * (times - 1000))
        text = (b"include " + names + b"\n") * 10 + b"include gone\n"
        yield graph(
            text.replace(b"include gone", b"-include gone " + rest) + b"a:;x\n", {b"e": b""}
        )
    yield graph(
        (b"include " + names + b"\n") * 10 + b"include " + b"e " * 23 + b"gone\n", {b"e": b""}
    )
    big = b" " * 65000 + b"\n"
    for size in (16777216, 16777217):
        text = b"a:;x\n" + big * 258
        yield graph(text[: size - 1] + b"\n" * (size - len(text[: size - 1])))


def names_at_limit() -> Iterator[Asked]:
    for size in (4096, 4097):
        yield graph(b"a: " + b"n" * size + b"\n\tx\n")
        yield graph(b"a: " + b"\xc3\xa9" * (size // 2) + b"n" * (size % 2) + b"\n")
        yield graph(RULE, None, ["g" * size])
        yield graph(RULE, {b"B": BOOK.replace(b'"b"', b'"%s"' % (b"s" * size))}, ["-b", "B"])
    for count in (4095, 4096):
        listed = [b"a:"] + [
            b"a: " + b" ".join(b"n%d" % i for i in range(low, min(low + 512, count)))
            for low in range(0, count, 512)
        ]
        text = b"\n".join(listed) + b"\n"
        yield graph(text)
        yield graph(text + b"n7: a\n")
        yield graph(
            text + b"n4094:;x\n",
            {b"B": BOOK.replace(b'"b"', b",".join(b'"n%d"' % i for i in range(4094)))},
            ["-b", "B"],
        )


def deep_names() -> Iterator[Asked]:
    deep = b"".join(b"n%d: n%d\n" % (i, i + 1) for i in range(4095))
    yield graph(deep)
    yield graph(deep + b"n4095: n4096\n")
    yield graph(deep + b"n4095: n1\n")


def plans_at_limit() -> Iterator[Asked]:
    yield simulated(b"\n" * 65535 + b"end\n")
    yield simulated(b"\n" * 65536 + b"end\n")
    yield simulated(b"\n" * 65537)
    yield simulated(b"# x\n" * 65536)
    yield simulated(b"\n" * 65534 + b"jump\n" + b"\n\n\n")
    yield simulated(b"make 1\nrun a\nend\nedit b 18446744073709551615\nmake 1\nrun a\nend\n")
    yield simulated(
        b"make 1\nrun a\nend\nedit b\nedit b 1\nmake 1\nbegin a\nlook a b\nput a a 9\ndone a\n"
    )
    yield simulated(b"")
    for size in (16777216, 16777217):
        yield simulated(b"#" + b"x" * (size - 1))
    yield graph(RULE, {b"B": BOOK + b" " * (16777217 - len(BOOK))}, ["-b", "B"])


def near_misses() -> Iterator[Asked]:
    for miss in MISSES:
        files: dict[bytes, Contents] = {b"inc0.mk": b"e: f\n", b"folder": FOLDER}
        yield graph(miss + b"\nz: y\n\tc\n", files)
        yield graph(b"z: y\n" + miss, files)


UNREAD = [["-b", "gone"], ["-b", "folder"], ["-b", "makefile/B"]]
UNREAD += [["-b", "B", "-f", name] for name in ("gone", "folder", "makefile/x", "./makefile")]
LIMITS = (
    near_misses,
    lines_at_limit,
    values_at_limit,
    references_at_limit,
    texts_at_limit,
    names_at_limit,
)
REFUSING = (corners, *LIMITS)


def in_words() -> Iterator[Asked]:
    """The builds for other commands, and what is refused, with findings and faults in words."""
    files: dict[bytes, Contents]
    for makes in (corners, documents, mendings):
        for command, case in makes():
            if command in ("check", "evidence", "repair"):
                yield "words", Case(case.files, ["check", "-w", *case.words[1:]])
    for makes in REFUSING:
        for command, case in makes():
            if command == "graph" and "-b" not in case.words:
                files = {b"B": BOOK, **case.files}
                yield "words", Case(files, ["check", "-w", "-b", "B", *case.words[1:]])
    for words in UNREAD:
        files = {b"makefile": RULE, b"B": BOOK, b"folder": FOLDER}
        yield "words", Case(files, ["check", "-w", *words])
    many = b" ".join(b"n%d" % number for number in range(4096))
    yield "words", Case({b"makefile": b"a: " + many, b"B": BOOK}, ["check", "-w", "-b", "B"])
    files = {b"makefile": b"a: " + many + b"\n" + many + b":", b"B": BOOK}
    yield "words", Case(files, ["check", "-w", "-b", "B"])


def in_json() -> Iterator[Asked]:
    """The same as JSON."""
    for _, case in in_words():
        yield "json", Case(case.files, ["check", "--json", *case.words[2:]])


QUICK = (corners, documents, mendings, in_words, in_json, *LIMITS, plans_at_limit)


def limits(quick: bool) -> Iterator[tuple[str, str, Case]]:
    """Each with a label and its command; the quick ones alone, or all."""
    for makes in QUICK if quick else QUICK + (many_lines, many_references, deep_names):
        for number, (command, case) in enumerate(makes()):
            yield f"{makes.__name__} {number}", command, case
