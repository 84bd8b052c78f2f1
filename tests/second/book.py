"""JSON as `serde_json` reads it, files of footprints of both formats, and certificates."""

from __future__ import annotations

import json
import math
from collections.abc import Callable, Container, Iterable
from typing import Any, NoReturn, NotRequired, TypedDict, TypeGuard, cast

from lines import Refused, is_plain_path

DEPTH_LIMIT = 127
JsonObject = dict[str, Any]


class RecordValue(TypedDict):
    """A record as JSON; that of format 2 names shared lists too."""

    target: str
    commands: list[str]
    reads: list[str]
    writes: list[str]
    shared: NotRequired[list[str]]


class GroupValue(TypedDict):
    """The records of some goals, as JSON."""

    goals: list[str]
    records: list[RecordValue]


class BookValue(TypedDict):
    """What a file of footprints has as JSON, but for its records."""

    format: int
    fixed: list[str]
    sources: list[str]
    lists: NotRequired[dict[str, list[str]]]


class NoJson(Exception):
    pass


def whole(text: str) -> float:
    """A number without point and exponent: whole where 64 bits hold it, else a float."""
    if text == "-0" or len(text) > 25 or not -(2**63) <= int(text) < 2**64:
        return floating(text)
    return int(text)


def floating(text: str) -> float:
    number = float(text)
    if math.isinf(number):
        raise NoJson
    return number


def refuse(_text: str) -> NoReturn:
    raise NoJson


def members(pairs: list[tuple[str, object]]) -> dict[str, object]:
    """The last value of each key; half of a pair of surrogates is no text."""
    json.dumps(pairs, ensure_ascii=False).encode("utf-8")
    return dict(pairs)


def too_deep(text: str) -> bool:
    """Whether brackets outside of texts stand deeper than the limit."""
    depth = 0
    at = 0
    while at < len(text):
        byte = text[at]
        if byte == '"':
            at += 1
            while text[at] != '"':
                at += 2 if text[at] == "\\" else 1
        elif byte in "[{":
            depth += 1
            if depth > DEPTH_LIMIT:
                return True
        elif byte in "]}":
            depth -= 1
        at += 1
    return False


def value_of(data: bytes) -> object:
    """The JSON value of bytes; NoJson where there is none."""
    try:
        text = data.decode("utf-8")
        value: object = json.loads(
            text,
            parse_int=whole,
            parse_float=floating,
            parse_constant=refuse,
            object_pairs_hook=members,
        )
        json.dumps(value, ensure_ascii=False).encode("utf-8")
    except (ValueError, RecursionError):
        raise NoJson
    if too_deep(text):
        raise NoJson
    return value


def is_texts(value: object) -> TypeGuard[list[str]]:
    return isinstance(value, list) and all(isinstance(text, str) for text in value)


def is_path(text: str) -> bool:
    return is_plain_path(text.encode("utf-8"))


def is_front(text: str) -> bool:
    return text == "/" or text.endswith("/") and is_path(text[:-1])


def shape(key: str) -> Refused:
    return Refused(52, key.encode())


def has_key(value: JsonObject, key: str, test: Callable[[object], bool]) -> None:
    if key not in value or not test(value[key]):
        raise shape(key)


def only(value: JsonObject, keys: Container[str]) -> None:
    if any(key not in keys for key in value):
        raise shape("unknown")


def is_object(value: object) -> TypeGuard[JsonObject]:
    return isinstance(value, dict)


def is_list(value: object) -> TypeGuard[list[object]]:
    return isinstance(value, list)


def is_text(value: object) -> TypeGuard[str]:
    return isinstance(value, str)


def is_lists(value: object) -> TypeGuard[dict[str, list[str]]]:
    return is_object(value) and all(is_texts(names) for names in value.values())


def is_whole(value: object) -> TypeGuard[int]:
    return isinstance(value, int) and not isinstance(value, bool)


class Record:
    def __init__(self, commands: list[bytes], reads: list[bytes], writes: list[bytes]) -> None:
        self.commands = commands
        self.reads = reads
        self.writes = writes


class Book:
    """What a file of footprints says for some goals."""

    def __init__(
        self, fixed: list[bytes], sources: list[bytes], records: dict[bytes, Record]
    ) -> None:
        self.fixed = fixed
        self.sources = sources
        self.records = records


def once(texts: Iterable[str]) -> list[bytes]:
    return [text.encode("utf-8") for text in dict.fromkeys(texts)]


def test_records(records: Iterable[object], keys: list[str]) -> None:
    tests: dict[str, Callable[[object], bool]] = {
        "target": is_text,
        "commands": is_texts,
        "reads": is_texts,
        "writes": is_texts,
        "shared": is_texts,
    }
    for record in records:
        if not is_object(record):
            raise shape("records")
        for key in keys:
            has_key(record, key, tests[key])
        only(record, keys)


def test_shapes(value: object) -> list[GroupValue]:
    """52 and 53, in their order. It answers the groups, each with goals and records."""
    if not is_object(value):
        raise shape("top")
    has_key(value, "format", is_whole)
    if value["format"] not in (1, 2):
        raise Refused(53)
    has_key(value, "fixed", is_texts)
    has_key(value, "sources", is_texts)
    keys = ["target", "commands", "reads", "writes"]
    if value["format"] == 1:
        has_key(value, "records", is_list)
        only(value, ["format", "fixed", "sources", "records"])
        test_records(value["records"], keys)
        return [{"goals": [], "records": value["records"]}]
    has_key(value, "lists", is_lists)
    has_key(value, "groups", is_list)
    only(value, ["format", "fixed", "sources", "lists", "groups"])
    for group in value["groups"]:
        if not is_object(group):
            raise shape("groups")
        has_key(group, "goals", is_texts)
        has_key(group, "records", is_list)
        only(group, ["goals", "records"])
        test_records(group["records"], keys + ["shared"])
    groups: list[GroupValue] = value["groups"]
    return groups


def test_names(value: BookValue, groups: list[GroupValue]) -> None:
    """55: the first key under which a name is none."""

    def tested(texts: list[str], key: str, test: Callable[[str], bool] = is_path) -> None:
        if not all(test(text) for text in texts):
            raise Refused(55, key.encode())

    tested(value["fixed"], "fixed", is_front)
    tested(value["sources"], "sources")
    lists = value.get("lists", {})
    for name in sorted(lists, key=lambda text: text.encode("utf-8")):
        tested(lists[name], "lists")
    for group in groups:
        tested(group["goals"], "goals")
        for record in group["records"]:
            tested([record["target"]], "target")
            tested(record["reads"], "reads")
            tested(record["writes"], "writes")


def read_book(data: bytes, goals: list[bytes]) -> Book:
    """The book of a file of footprints, or 51 to 58."""
    try:
        told = value_of(data)
    except NoJson:
        raise Refused(51)
    groups = test_shapes(told)
    value = cast(BookValue, told)
    test_names(value, groups)
    for group in groups:
        targets: set[str] = set()
        for record in group["records"]:
            if record["target"] in targets:
                raise Refused(54, record["target"].encode("utf-8"))
            targets.add(record["target"])
    for source in value["sources"]:
        if any(source.startswith(front) for front in value["fixed"]):
            raise Refused(56, source.encode("utf-8"))
    lists = value.get("lists", {})
    for group in groups:
        for record in group["records"]:
            if any(name not in lists for name in record.get("shared", [])):
                raise Refused(58)
    wanted = [goal.decode("utf-8") for goal in goals]
    for group in groups:
        if value["format"] == 1 or group["goals"] == wanted:
            return Book(
                once(value["fixed"]), once(value["sources"]), records_of(group["records"], lists)
            )
    raise Refused(57)


def records_of(records: list[RecordValue], lists: dict[str, list[str]]) -> dict[bytes, Record]:
    made = {}
    for record in records:
        reads = record["reads"] + [
            name for shared in record.get("shared", []) for name in lists[shared]
        ]
        commands = [text.encode("utf-8") for text in record["commands"]]
        made[record["target"].encode("utf-8")] = Record(
            commands, once(reads), once(record["writes"])
        )
    return made


class Way:
    """An entry of a certificate."""

    def __init__(self, recipe: bytes, file: bytes, path: list[bytes], end: bytes) -> None:
        self.recipe = recipe
        self.file = file
        self.path = path
        self.end = end


# The goals of a certificate, and its ways.
Certificate = tuple[list[bytes], list[Way]]


def read_certificate(data: bytes) -> Certificate:
    """The goals and the ways of a certificate, or 71 or 72."""
    try:
        value = value_of(data)
    except NoJson:
        raise Refused(71)
    try:
        return certificate_of(value)
    except Refused as fault:
        raise Refused(72, *fault.words)


def is_names(value: object) -> TypeGuard[list[str]]:
    return is_texts(value) and all(is_path(text) for text in value)


def is_name(value: object) -> TypeGuard[str]:
    return is_text(value) and is_path(value)


def certificate_of(value: object) -> Certificate:
    if not is_object(value):
        raise shape("top")
    has_key(value, "format", lambda number: is_whole(number) and number == 1)
    has_key(value, "goals", is_names)
    has_key(value, "ways", is_list)
    only(value, ["format", "goals", "ways"])
    ways = []
    for entry in value["ways"]:
        if not is_object(entry):
            raise shape("ways")
        has_key(entry, "end", lambda text: text in ("written", "source", "always"))
        has_key(entry, "file", is_name)
        has_key(entry, "path", is_names)
        has_key(entry, "recipe", is_name)
        only(entry, ["end", "file", "path", "recipe"])
        path = [name.encode("utf-8") for name in entry["path"]]
        ways.append(
            Way(
                entry["recipe"].encode("utf-8"),
                entry["file"].encode("utf-8"),
                path,
                entry["end"].encode("utf-8"),
            )
        )
    return [goal.encode("utf-8") for goal in value["goals"]], ways


def certificate_text(goals: list[bytes], ways: list[Way]) -> bytes:
    """The compact text of a certificate."""
    value = {
        "format": 1,
        "goals": [goal.decode("utf-8") for goal in goals],
        "ways": [
            {
                "end": way.end.decode(),
                "file": way.file.decode("utf-8"),
                "path": [name.decode("utf-8") for name in way.path],
                "recipe": way.recipe.decode("utf-8"),
            }
            for way in ways
        ],
    }
    text = json.dumps(value, ensure_ascii=False, separators=(",", ":"), sort_keys=True)
    return text.encode("utf-8")
