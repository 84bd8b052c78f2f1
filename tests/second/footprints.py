"""Random footprints for a makefile, true as far as they go or with faults, of both formats."""

from __future__ import annotations

import copy
import json
from collections.abc import Iterable, Mapping
from random import Random
from typing import Literal, Protocol

from book import Book, JsonObject, Record, RecordValue
from graph import Graph, Rules, There, goal_names
from judge import Finding, Subject
from lines import Refused
from makefiles import WithoutFolders
from reading import Found, read_makefile
from request import Request

FIXED = ["/usr/", "/etc/", "sys/", "/", "../inc/", "usr/", "/usr/lib/"]
ODD_FILES = [
    "log",
    "out.txt",
    "a b".replace(" ", "_"),
    "x:y",
    'q"q',
    "b\\s",
    "é/ü",
    "a%b",
    "(p)",
    "..",
    "-",
    ".WAIT",
    "\u2028",
    "\U0001f600",
]


class Memory:
    """Files in memory, read as those of a folder are."""

    def __init__(self, files: Mapping[bytes, bytes | Literal["failed"]]) -> None:
        self.files = files

    def read(self, name: bytes) -> Found:
        return self.files.get(name)

    def why(self, name: bytes) -> bytes:
        return b""


class Recorded(Protocol):
    """What a file of footprints has besides its records."""

    rng: Random
    fixed: list[str]
    sources: list[str]
    goals: list[bytes]


class Model:
    """A makefile as it is read with some words, and sources that it can do with."""

    def __init__(self, rng: Random, project: WithoutFolders, request: Request) -> None:
        self.rng = rng
        self.project = project
        makefile = read_makefile(
            Memory(project.files),
            request.values.get("f"),
            "r" not in request.flags,
            request.operands,
        )
        self.rules = Rules(makefile)
        self.goals = goal_names(self.rules, request.goals)
        self.passed_over = set(makefile.passed_over)
        self.fixed = [front for front in FIXED if rng.random() < (0.05 if front == "/" else 0.15)]
        often = 0.3 if project.inferring else 0.8
        self.sources = [
            name.decode("utf-8")
            for name in project.names
            if name not in self.rules.targets and rng.random() < often
        ]
        if rng.random() < 0.1:
            self.sources += ["spare.h", "zz"][: rng.randint(1, 2)]
        rng.shuffle(self.sources)
        self.sources = [name for name in self.sources if not self.under(name)]
        self.graph = self.graph_with_sources()

    def under(self, name: str) -> bool:
        return any(name.startswith(front) for front in self.fixed)

    def there(self) -> There:
        return There(
            [name.encode() for name in self.sources],
            [front.encode() for front in self.fixed],
            self.rules.makefile.texts,
        )

    def graph_with_sources(self) -> Graph:
        """The graph, with each name added to the sources that nothing makes."""
        while True:
            try:
                return Graph(self.rules, self.goals, self.there())
            except Refused as fault:
                if fault.number != 41 or self.rng.random() < 0.01:
                    raise
                self.sources.append(fault.words[0].decode("utf-8"))

    def subject(self, records: dict[str, RecordValue]) -> Subject:
        made = {
            target.encode(): Record(
                [text.encode() for text in record["commands"]],
                [file.encode() for file in record["reads"]],
                [file.encode() for file in record["writes"]],
            )
            for target, record in records.items()
        }
        sources = [name.encode() for name in self.sources]
        return Subject(self.graph, Book([], sources, made), self.passed_over)


def records_of(model: Model, mend: str) -> dict[str, RecordValue]:
    """A record for each recipe of the graph; what a finding tells of is taken out of them: of
    each finding, of those but races and stale reads, or of none."""
    rng = model.rng
    records: dict[str, RecordValue] = {}
    nodes = [node.name.decode() for node in model.graph.serial]
    for node in model.graph.recipes():
        name = node.name.decode()
        texts = model.rules.expanded(node, model.graph.there).texts
        reads = [
            one.decode()
            for one in node.prerequisites
            if rng.random() < 0.8 and not model.graph.nodes[one].phony
        ]
        writes = [name] if not node.phony or rng.random() < 0.05 else []
        for direct in list(reads):
            if direct in records and rng.random() < 0.5:
                reads += [
                    one
                    for one in records[direct]["reads"] + records[direct]["writes"]
                    if rng.random() < 0.4
                ]
        if model.fixed and rng.random() < 0.3:
            reads.append(rng.choice(model.fixed) + rng.choice(["x", "lib/y", "k.h"]))
        often = 0.8 if model.project.crossing else 0.1 if mend == "all" else 0.25
        while rng.random() < often:
            reads.append(rng.choice(nodes + model.sources))
            often /= 2
        if rng.random() < (0.3 if model.project.inferring else 0.05):
            writes.append(made_from(model, nodes))
        if rng.random() < 0.2:
            writes.append(rng.choice(ODD_FILES + ["log", name + ".d"]))
        if rng.random() < 0.1:
            writes.append(rng.choice(nodes))
        if rng.random() < 0.04:
            writes.append(
                rng.choice(
                    [
                        "makefile",
                        "inc0.mk",
                        "gone.d",
                        "a.d",
                        "b.c",
                        "a.c",
                        "b.y",
                        "d/a.c",
                        "Makefile",
                    ]
                )
            )
        if rng.random() < 0.05:
            reads.append(rng.choice(["makefile", "inc0.mk", "nowhere", "log", name] + ODD_FILES))
        rng.shuffle(reads)
        rng.shuffle(writes)
        commands = [text.decode("utf-8", "replace") for text in texts]
        records[name] = {
            "target": name,
            "commands": commands,
            "reads": list(dict.fromkeys(reads)),
            "writes": list(dict.fromkeys(writes)),
        }
    for _ in range(6 if mend != "none" else 0):
        subject = model.subject(records)
        found = subject.findings() if mend == "all" else subject.static_findings()
        if not found or not all([mended(records, words) for words in found]):
            break
    return records


def made_from(model: Model, names: list[str]) -> str:
    """A file, not there yet, of which an inference rule might make one of the names."""
    fitting: list[bytes] = []
    for name in names:
        rest, ending = model.rules.cut(name.encode())
        fitting += [
            rest + suffix
            for suffix in model.rules.suffixes
            if suffix + ending in model.rules.commands
        ]
    fitting = [
        file
        for file in fitting
        if not model.graph.there.is_given(file) and file not in model.rules.targets
    ]
    return model.rng.choice(fitting or [b"made.c"]).decode()


def mended(records: dict[str, RecordValue], words: Finding) -> bool:
    """Takes out of the records what a finding tells of; whether that can be done."""
    kind, names = words[0], [word.decode() for word in words[1:]]
    if kind in (b"given", b"writers", b"loose"):
        target = names[1] if kind in (b"writers", b"loose") else names[0]
        file = names[0] if kind == b"loose" else names[-1]
        return drop(records[target]["writes"], file)
    if kind == b"selection":
        return len(names[1]) % 2 == 0 and any(
            [drop(record["writes"], names[1]) for record in records.values()]
        )
    if kind in (b"own", b"unknown", b"race", b"stale"):
        return drop(records[names[0]]["reads"], names[-1])
    if kind == b"target":
        records[names[0]]["writes"].append(names[0])
        return True
    return False


def drop(texts: list[str], text: str) -> bool:
    if text in texts:
        texts.remove(text)
    return True


def spoiled(model: Model, records: dict[str, RecordValue]) -> None:
    """Records with one thing more or less."""
    rng = model.rng
    if not records:
        return
    record = records[rng.choice(sorted(records))]
    other = records[rng.choice(sorted(records))]
    kind = rng.randrange(9)
    if kind == 0:
        del records[record["target"]]
    elif kind == 1:
        record["commands"] = record["commands"][:-1] + rng.choice([[], ["other"]])
    elif kind == 2:
        drop(record["writes"], record["target"])
    elif kind == 3 and other["writes"]:
        record["writes"].append(rng.choice(other["writes"]))
    elif kind == 4 and other["writes"]:
        record["reads"].append(rng.choice(other["writes"]))
    elif kind == 5 and model.sources:
        record["reads"].append(rng.choice(model.sources))
    elif kind == 6 and record["reads"]:
        record["writes"].append(rng.choice(record["reads"]))
    elif kind == 7:
        record["reads"].append("nowhere")
    elif kind == 8:
        record["writes"].append(rng.choice(sorted(model.graph.nodes)).decode())


def format_one(model: Recorded, records: list[RecordValue]) -> JsonObject:
    return {"format": 1, "fixed": model.fixed, "sources": model.sources, "records": records}


def format_two(model: Recorded, records: list[RecordValue]) -> JsonObject:
    """The same in groups and with shared lists; the group of the goals isn't the only one."""
    rng = model.rng
    lists: dict[str, list[str]] = {}
    made: list[JsonObject] = []
    for told in records:
        record: JsonObject = dict(told, shared=[])
        cut = rng.randint(0, len(record["reads"]))
        if rng.random() < 0.6:
            tail = record["reads"][cut:]
            name = rng.choice(["l", "l%d" % len(lists), "", "é", "a b"])
            if lists.get(name, tail) == tail:
                lists[name] = tail
                record["shared"].append(name)
                record["reads"] = record["reads"][: cut + (rng.random() < 0.2)]
        made.append(record)
    if rng.random() < 0.2:
        lists["unused"] = ["x", "x"]
    goals = [goal.decode() for goal in model.goals]
    groups = [{"goals": goals, "records": made}]
    if rng.random() < 0.3:
        groups.append({"goals": goals, "records": []})
    if rng.random() < 0.3:
        groups.insert(0, {"goals": goals + ["other"], "records": made[:1]})
    if rng.random() < 0.2:
        groups.insert(0, {"goals": list(reversed(goals)), "records": made})
    return {
        "format": 2,
        "fixed": model.fixed,
        "sources": model.sources,
        "lists": lists,
        "groups": groups,
    }


def objects_in(value: object) -> list[JsonObject]:
    """All objects of a value, the value too."""
    found = [value] if isinstance(value, dict) else []
    inner: Iterable[object] = value if isinstance(value, list) else []
    for one in value.values() if isinstance(value, dict) else inner:
        found.extend(objects_in(one))
    return found


ODD_VALUES: list[object] = [
    None,
    True,
    0,
    1,
    2,
    3,
    -1,
    1.0,
    "",
    "x",
    [],
    ["x"],
    [1],
    [["x"]],
    {},
    {"x": []},
    {"x": "y"},
    [None],
    [{}],
    ["./x"],
    ["a//b"],
    ["a b"],
    "./x",
    ["/"],
    ["//"],
    ["x/"],
    ["x\u0000"],
    ["x\u007f"],
    ["l"],
    ["none"],
    18446744073709551615,
]


def odd_value(rng: Random) -> object:
    return copy.deepcopy(rng.choice(ODD_VALUES))


def altered(rng: Random, value: JsonObject) -> JsonObject:
    """A value with one of its members changed, missing, or one more; two may be changed."""
    value = json.loads(json.dumps(value))
    for _ in range(rng.choice([1, 1, 2])):
        one = rng.choice(objects_in(value))
        keys = sorted(one)
        kind = rng.randrange(6)
        if kind == 0 and keys:
            del one[rng.choice(keys)]
        elif kind == 1 and keys:
            one[rng.choice(keys)] = odd_value(rng)
        elif kind == 2:
            one[rng.choice(["more", "shared", "lists", "format", "target", ""])] = odd_value(rng)
        elif keys:
            key = rng.choice(keys)
            if not isinstance(one[key], list):
                continue
            if kind == 3 and one[key]:
                one[key].append(copy.deepcopy(rng.choice(one[key])))
            elif kind == 4:
                one[key].insert(
                    rng.randint(0, len(one[key])),
                    rng.choice(
                        ["./x", "", "a/", "x", "usr/x", "/usr/q", "a//b", 7, None, "\u00a0x"]
                    ),
                )
            elif one[key]:
                rng.shuffle(one[key])
    return value


def spelled(rng: Random, value: JsonObject) -> bytes:
    """The text of a value in one of its spellings; a few are no JSON, or say a key twice."""
    text = json.dumps(
        value,
        ensure_ascii=rng.random() < 0.5,
        separators=rng.choice([(",", ":"), (", ", ": "), (" ,\n", "\t:\r\n")]),
    )
    draw = rng.random()
    if draw < 0.9:
        return text.encode("utf-8") + rng.choice([b"", b"\n", b" \t\r\n"])
    if draw < 0.94:
        return broken(rng, text)
    key = rng.choice(["format", "sources", "records", "fixed", "goals", "ways", "x"])
    twice = json.dumps({key: rng.choice([1, 2, [], "x", ["\ud800"]])})[1:-1]
    if rng.random() < 0.5:
        return ("{" + twice + "," + text[1:]).encode("utf-8")
    return (text.rstrip()[:-1] + "," + twice + "}").encode("utf-8")


TOKENS = [
    b"[",
    b"]",
    b"{",
    b"}",
    b",",
    b":",
    b'"a"',
    b'"b"',
    b"1",
    b"-",
    b"0",
    b".",
    b"e",
    b"E",
    b"+",
    b"9",
    b"null",
    b"true",
    b"false",
    b"nul",
    b"True",
    b'"',
    b"\\",
    b'"\\',
    b"\\u",
    b"d83d",
    b"dc00",
    b"\\ud83d\\udc00",
    b'"\\udc00"',
    b"00e1",
    b" ",
    b"\t",
    b"\n",
    b"\r",
    b"\x0c",
    b"\xa0",
    b"\xc2\xa0",
    b"\xef\xbb\xbf",
    b"/",
    b"'",
    b"//",
    b"#",
    b"\x00",
    b"\x1f",
    b"\x7f",
    b'"\\/"',
    b'"\\b\\f\\n"',
    b'"\\a"',
    b'"\\u00zz"',
    b'"\x80"',
    b'"\xed\xa0\x80"',
    b'"\xc3\xa9"',
    b"1e5",
    b"1E+5",
    b"1e",
    b"1.5",
    b"-0",
    b"-0.0",
    b"1e309",
    b"-1e309",
    b"123456789012345678901234567890",
    b"1" + b"0" * 308,
    b"1" + b"0" * 309,
    b"0.1e-400",
    b"NaN",
    b"-Infinity",
    b"[]",
    b"{}",
]


def soup(rng: Random) -> bytes:
    """A member that may be JSON, put together of tokens."""
    if rng.random() < 0.3:
        return (
            b'"'
            + b"".join(token.strip(b'"') for token in rng.choices(TOKENS, k=rng.randint(0, 4)))
            + b'"'
        )
    if rng.random() < 0.5:
        return b"[" + b",".join(rng.choices(TOKENS, k=rng.randint(0, 3))) + b"]"
    return b"".join(rng.choices(TOKENS, k=rng.randint(1, 4)))


def broken(rng: Random, text: str) -> bytes:
    """A text that may be no JSON."""
    data = text.encode("utf-8")
    kind = rng.randrange(9)
    place = rng.randint(0, len(data))
    if kind == 0:
        return data[:place]
    if kind == 1:
        return data[:place] + data[place + 1 :]
    if kind == 2:
        return (
            data[:place]
            + rng.choice(
                [
                    b",",
                    b"}",
                    b"]",
                    b'"',
                    b"\\",
                    b"\xff",
                    b"\0",
                    b"0",
                    b"\\u12",
                    b"\\ud800",
                    b"\t",
                    b"\x1f",
                    b":",
                ]
            )
            + data[place:]
        )
    if kind == 3:
        return b"\xef\xbb\xbf" + data
    if kind == 4:
        depth = rng.choice([126, 127, 128, 500])
        return b'{"deep":' + b"[" * (depth - 1) + b"]" * (depth - 1) + b"," + data[1:]
    number = rng.choice(
        [
            b"1.0",
            b"1e0",
            b"-0",
            b"01",
            b"1.",
            b"1e400",
            b"NaN",
            b"Infinity",
            b"+1",
            b"0x1",
            b"18446744073709551616",
            b"-9223372036854775809",
            b"9" * 400,
            b"1E+2",
            b"-1",
            b"18446744073709551615",
            b"1e-400",
            b".5",
            b"-",
            b"0",
            b"3",
            b"0.0",
            b"2.5e1",
        ]
    )
    if kind == 5:
        return b'{"soup":' + soup(rng) + b"," + data[1:]
    if kind < 8:
        return data.replace(b'"format":1', b'"format":' + number).replace(
            b'"format": 1', b'"format":' + number
        )
    return rng.choice(
        [b"", b"null", b"[]", b"1", b'"x"', b"{}", b"{} {}", b" ", b"tru", b'{"a":1,}']
    )


def book_of(model: Model, valid: bool) -> bytes:
    """The bytes of a file of footprints, and the records that they hold."""
    rng = model.rng
    often = ["all", "static", "none"] if model.project.inferring else ["all", "all", "static"]
    mend = rng.choice(often if valid else ["all", "static", "static", "none"])
    records = records_of(model, mend)
    if not valid and rng.random() < 0.3:
        spoiled(model, records)
    listed = list(records.values())
    if rng.random() < 0.15:
        listed.append(
            {
                "target": rng.choice(["ghost", "h.h", "b"]),
                "commands": ["x"],
                "reads": ["r"],
                "writes": ["w"],
            }
        )
        if listed[-1]["target"] in records:
            listed.pop()
    rng.shuffle(listed)
    make = format_two if rng.random() < 0.4 else format_one
    value = make(model, listed)
    if not valid and rng.random() < 0.12:
        value = altered(rng, value)
    elif not valid and rng.random() < 0.04:
        value["sources"] = value["sources"] + [front + "s" for front in value["fixed"]]
    if valid:
        return json.dumps(value, ensure_ascii=False).encode("utf-8")
    return spelled(rng, value)
