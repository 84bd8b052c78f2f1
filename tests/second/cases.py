"""One random case of a command: the files of a folder, and the words."""

from __future__ import annotations

import json
import os
from collections.abc import Callable, Mapping
from random import Random

from book import Book, read_book
from certificates import certificate_of
from footprints import Model, book_of, format_one
from graph import Graph, There
from judge import Subject
from lacking import book_of as true_book
from lacking import lacking
from lines import Refused
from makefiles import FOLDER, Contents, Project, WithoutFolders, mutated, structural
from plans import WRONG, plan_of
from request import Request, Usage
from shapes import inferences, jungle, orders
from versions import put_below, two_versions

OPERANDS = [
    b"X=x.o",
    b"A=$(B)",
    b"CC=cc",
    b"CFLAGS =  -g ",
    b"A::=$(CFLAGS)$$",
    b"B:::=$(A) $$v",
    b"OUT=",
    b"X = $(Y) z",
    b"AB=1",
    b"M1=a.o b.o",
    b"A=x\ny",
    b"B=b\tc",
    b"E=a",
    b"X:::= $(CC)",
    b"a.b=%",
    b"x-y=d/e",
    b"NONE=zz",
    b"-O=1",
    b"X=",
    b"A=a=b",
    b"_::=$(A)",
]
ODD_OPERANDS = [
    b"=x",
    b"A+=x",
    b"A:=x",
    b"A?=x",
    b"A!=x",
    b"A B=x",
    b"A::::=x",
    b"X::=$(",
    b"X::=$(X)$",
    b"X::=$(%)",
    b"X::=$(REC",
    b"\xc3\xa9=x",
    b"$(A)=x",
    b" =",
    b"A=$(A)",
    b"B:::=$(A:x)",
    b"A==",
    b"A= =",
    b"X=$(",
    b"::=x",
    b"A:: =x",
    b"@=x",
]
ODD_GOALS = [
    b".WAIT",
    b"-",
    b"./x",
    b"lib(x)",
    b"a//b",
    b"",
    b".c",
    b".c.o",
    b".o.c",
    b".PHONY",
    b"nowhere",
    b"makefile",
    b"/usr/x",
    b"..",
    b"a%",
    b"x y",
    b"\xc3\xa9",
    b".hid",
    b".SUFFIXES",
    b"inc0.mk",
    b"lib(",
    b"a;b",
    b"d/.o",
    b".hid.o",
    b"zz.o",
]
USAGE = [
    ["-x"],
    ["-e"],
    ["-q", "a"],
    ["--zz"],
    ["-f"],
    ["-f", "makefile", "-f", "makefile"],
    ["-b", "B", "-b", "B"],
    ["-k", "K", "-k", "K"],
    ["-p"],
    ["-f", "-x"],
    ["--no", "x"],
]


def project_of(rng: Random, command: str, valid: bool) -> Project:
    """A makefile with its included files; where `valid`, seldom at fault."""
    draw = rng.random()
    if draw < (0.1 if command == "graph" else 0.25):
        project = inferences(rng)
    elif draw < (0.12 if command == "graph" else 0.45):
        project = orders(rng)
    elif draw < (0.45 if command == "graph" else 0.47):
        project = jungle(rng)
    else:
        project = structural(rng, valid)
    return mutated(rng, project) if rng.random() < (0.02 if valid else 0.2) else project


def words_of(rng: Random, command: str, valid: bool) -> list[str]:
    """Options and other words, without those that name footprints, certificate and plan."""
    words = [command]
    if rng.random() < 0.12:
        words.append("-r")
    if command == "graph" and rng.random() < 0.7:
        words.append("-c")
    if command == "check" and rng.random() < 0.3:
        words += ["-c"] * rng.choice([1, 1, 2])
    if rng.random() < 0.06:
        words += ["-f", "makefile"]
    elif rng.random() < 0.03:
        words += [
            "-f",
            rng.choice(
                [
                    "inc0.mk",
                    "./makefile",
                    "-",
                    "gone.mk",
                    "a//b",
                    "folder",
                    "makefile/x",
                    "../x",
                    "a b",
                    "folder/",
                ]
            ),
        ]
    if not valid and rng.random() < 0.01:
        words += rng.choice(USAGE)
    return words


def other_words(rng: Random, project: Project, valid: bool) -> list[str]:
    """Operands and goals, in the order in which they are given."""
    out = []
    for _ in range(rng.choice([1, 1, 2, 3]) if rng.random() < 0.2 else 0):
        odd = not valid and rng.random() < 0.15
        out.append(rng.choice(ODD_OPERANDS if odd else OPERANDS))
    for _ in range(rng.choice([1, 1, 2, 2, 3]) if rng.random() < 0.45 else 0):
        draw = rng.random()
        if draw < (0.02 if valid else 0.1):
            goal = rng.choice(ODD_GOALS)
        else:
            goal = rng.choice((project.targets if draw < 0.9 else project.names) or [b"a"])
        out.insert(rng.randint(0, len(out)), goal)
    if rng.random() < 0.002:
        out.append(b"\xff")
    if any(word.startswith(b"-") and word != b"-" for word in out) or rng.random() < 0.02:
        out.insert(0, b"--")
    return [os.fsdecode(word) for word in out]


def mixed(rng: Random, options: list[str], others: list[str]) -> list[str]:
    """The words in the order in which they are given: others may come before options."""
    if others[:1] == ["--"] or rng.random() < 0.85:
        return options + others
    return options[:1] + others + options[1:]


class Case:
    def __init__(self, files: Mapping[bytes, Contents], words: list[str]) -> None:
        self.files = files
        self.words = words


# A case, and the command that it is counted for.
Asked = tuple[str, Case]
# What makes a certificate or a plan, from a graph, its book and the names that were passed over.
Maker = Callable[[Random, Graph, Book, set[bytes]], bytes]


def named(rng: Random, command: str, project: Project) -> None:
    """The makefile stands sometimes under the other usual name, or is missing."""
    draw = rng.random()
    if draw < 0.04:
        project.files[b"Makefile"] = project.files.pop(b"makefile")
    elif draw < 0.045:
        del project.files[b"makefile"]
    elif draw < 0.05:
        project.files[b"makefile"] = FOLDER
    if rng.random() < 0.02:
        project.files[b"folder"] = FOLDER


def model_of(rng: Random, project: Project, words: list[str]) -> Model | None:
    """What the second program makes of the makefile, or None where it refuses it."""
    try:
        return Model(rng, WithoutFolders(project), Request(list(words)))
    except (Refused, Usage):
        return None


def book_for(model: Model | None, names: list[bytes], valid: bool) -> bytes:
    if model is None:
        sources = [name.decode("utf-8") for name in names]
        return json.dumps({"format": 1, "fixed": [], "sources": sources, "records": []}).encode()
    try:
        return book_of(model, valid)
    except Refused:
        return json.dumps(format_one(model, [])).encode("utf-8")


def case_of(rng: Random, command: str) -> Case:
    """A case of a command."""
    if command == "words":
        return case_in_words(rng)
    if command == "json":
        return case_in_json(rng)
    if command == "since":
        return since_case(rng)
    case = case_in_lines(rng, command)
    if command != "check" and rng.random() < 0.15:
        case.words[1:1] = [rng.choice(["-w", "--json"])]
    return case


def case_in_lines(rng: Random, command: str) -> Case:
    """A case of a command whose answer is printed in lines."""
    if command == "repair" and rng.random() < 0.85:
        return lacking_case(rng)
    share = {"graph": 0.0, "check": 0.75, "repair": 0.9, "verify": 0.9, "simulate": 0.9}[command]
    valid = rng.random() < share
    project = project_of(rng, command, valid)
    names = project.targets[:]
    named(rng, command, project)
    words = words_of(rng, command, valid)
    if b"folder" in b"".join(data for data in project.files.values() if data is not FOLDER):
        project.files[b"folder"] = FOLDER
    others = other_words(rng, project, valid)
    project.targets = names
    if command == "graph" and rng.random() < 0.7:
        return Case(project.files, mixed(rng, words, others))
    needed = {"verify": ["-k", "K"], "simulate": ["-p", "P"]}.get(command, [])
    model = model_of(rng, project, words + ["-b", "B"] + needed + others)
    files = project.files
    book = book_for(model, project.names, valid and rng.random() < 0.8)
    files[b"B"] = book
    words += ["-b", "B"]
    if command == "verify":
        words += ["-k", "K"]
        files[b"K"] = judged(rng, model, book, certificate_for)
    if command == "simulate":
        words += ["-p", "P"]
        files[b"P"] = judged(rng, model, book, plan_for)
    if rng.random() < 0.01:
        broken_word(rng, files, words)
    return Case(files, mixed(rng, words, others))


def lacking_case(rng: Random, wrong: float = 0.2) -> Case:
    """A case of `repair`, over a build whose makefile says too little of it."""
    truth, project = lacking(rng, wrong)
    named(rng, "repair", project)
    words = words_of(rng, "repair", True)
    others = other_words(rng, project, True)
    words += ["-b", "B"]
    project.files[b"B"] = true_book(truth, WithoutFolders(project), words + others)
    words += ["--part"] * rng.choice([0, 0, 1])
    if rng.random() < 0.01:
        broken_word(rng, project.files, words)
    return Case(project.files, mixed(rng, words, others))


def since_case(rng: Random) -> Case:
    """A case of `since`: two versions of a build, or a build for `check` and one like it."""
    if rng.random() < 0.2:
        return loosely_compared(rng)
    name = b"rules.mk" if rng.random() < 0.05 else b"makefile"
    folder, files, new = two_versions(rng, name)
    options = ["-b", "B"] + ["-r"] * rng.choice([0, 0, 0, 1, 2])
    if name != b"makefile":
        options += ["-f", name.decode()]
    goals = rng.sample(list(new.recipes), 1) if rng.random() < 0.15 else []
    if rng.random() < 0.01:
        options += rng.choice([["-c"], ["-e", "1"], ["-b", "B"]])
    if rng.random() < 0.2:
        options += rng.choice([["-w"], ["--json"], ["-w", "--json"]])
    words = [folder, *goals] if rng.random() < 0.99 else []
    draw = rng.random()
    if draw < 0.5:
        return Case(files, ["since", *words, *options])
    return Case(files, ["since", *options, *(["--"] if draw > 0.97 else []), *words])


def loosely_compared(rng: Random) -> Case:
    """A build for `check`, and as the old one the same, often with some damage."""
    case = case_of(rng, "check")
    kept = [word for word in case.words[1:] if word not in ("-c", "-w")]
    old = dict(case.files)
    if b"B" in old:
        old[b"footprint.json"] = old.pop(b"B")
    if rng.random() < 0.5:
        name = rng.choice(sorted(old) or [b"makefile"])
        data = old.get(name, b"")
        if data is not FOLDER:
            lines = data.split(b"\n")
            lines[rng.randrange(len(lines))] = rng.choice([b"", b"\tx", b"x", b"a: b", b"include q"])
            old[name] = b"\n".join(lines)
    form = rng.choice([["-w"], ["--json"]]) if rng.random() < 0.4 else []
    return Case({**put_below("old", old), **case.files}, ["since", "old", *form, *kept])


def case_in_words(rng: Random) -> Case:
    """A case of `check -w`, over a build for `check` or one for `repair`, of which half have more
    that no line mends."""
    kind = rng.choice(["check", "repair", "repair wrong"])
    case = lacking_case(rng, 0.6) if kind == "repair wrong" else case_of(rng, kind)
    more = ["-w"] * rng.choice([1] * 20 + [2])
    if rng.random() < 0.05:
        more.insert(rng.randint(0, len(more)), "-c")
    if rng.random() < 0.03:
        more += ["-e", rng.choice(["1", "2", "+9"])]
    case.words[:1] = ["check", *more]
    return case


def case_in_json(rng: Random) -> Case:
    """A case of `check --json`, over a build for `check`, sometimes with options that change
    nothing."""
    case = case_of(rng, "check")
    more = ["--json"] * rng.choice([1] * 20 + [2])
    for option in (["-c"], ["-w"], ["-e", rng.choice(["1", "2", "x"])]):
        if rng.random() < 0.04:
            more += option
    case.words[:1] = ["check", *more]
    return case


def broken_word(rng: Random, files: dict[bytes, Contents], words: list[str]) -> None:
    """An option less, or a file missing, a folder in its place, or not to be read."""
    name = rng.choice(["B", "K", "P"])
    if name not in words:
        return
    at = words.index(name)
    kind = rng.randrange(4)
    if kind == 0:
        words[at] = rng.choice(["gone", "./B", "makefile/B"])
    elif kind == 1:
        files.pop(os.fsencode(name), None)
    elif kind == 2:
        files[os.fsencode(name)] = FOLDER
    else:
        del words[at - 1 : at + 1]


def certificate_for(rng: Random, graph: Graph, book: Book, passed_over: set[bytes]) -> bytes:
    return certificate_of(rng, Subject(graph, book, passed_over))


def plan_for(rng: Random, graph: Graph, book: Book, _passed_over: set[bytes]) -> bytes:
    return plan_of(rng, graph, book)


def judged(rng: Random, model: Model | None, data: bytes, make: Maker) -> bytes:
    """What `make` gives for the graph under the footprints; something else where there is none."""
    try:
        if model is None:
            raise Refused(0)
        book = read_book(data, model.goals)
        there = There(book.sources, book.fixed, model.rules.makefile.texts)
        return make(rng, Graph(model.rules, model.goals, there), book, model.passed_over)
    except Refused:
        return rng.choice([b'{"format":1,"goals":[],"ways":[]}', b"make 1\nend\n", b"x"] + WRONG)
