"""The text of recorded footprints: format 1, or where that is long, format 2."""

from __future__ import annotations

import json
from collections.abc import Iterable, Sequence
from dataclasses import dataclass

from mkcheck_tools.book.footprint_files import Footprints, Record
from mkcheck_tools.faults import Fault

# Above this many bytes format 2 is written.
FORMAT_1_AT_MOST = 8_000_000
# What mkcheck reads of a file.
FILE_AT_MOST = 16_777_216
# A list pays where it saves more than its own brackets and the names by which records call for it.
LIST_COSTS = 8
DIGITS = "0123456789abcdefghijklmnopqrstuvwxyz"

# A JSON object.
Value = dict[str, object]


@dataclass(frozen=True)
class Shared:
    """Records of format 2, and their lists by name."""

    records: list[Value]
    lists: dict[str, list[str]]


def text_of(footprints: Footprints) -> str:
    """The file. Format 1 serves any goals, format 2 these alone."""
    text = first(footprints)
    if len(text.encode("utf-8")) <= FORMAT_1_AT_MOST:
        return text
    text = second(footprints)
    size = len(text.encode("utf-8"))
    if size > FILE_AT_MOST:
        raise Fault(
            f"the footprints are {size:,} bytes long, and mkcheck reads at most {FILE_AT_MOST:,} of"
            " a file: record fewer goals at a time"
        )
    return text


def first(footprints: Footprints) -> str:
    """The text of format 1: readable, with a record on a line."""
    values = (vars(record) for record in footprints.records.values())
    return f'{{"format":1,{presumed(footprints)},"records":[{lines(map(compact, values))}]}}\n'


def second(footprints: Footprints) -> str:
    """The text of format 2, with one group: a list and a record on a line each."""
    shared = share(list(footprints.records.values()))
    lists = lines(f"{compact(name)}:{compact(names)}" for name, names in shared.lists.items())
    head = f'{{"format":2,{presumed(footprints)},"lists":{{{lists}}}'
    values = lines(map(compact, shared.records))
    group = f'{{"goals":{compact(footprints.goals)},"records":[{values}]}}'
    return f'{head},"groups":[\n{group}]}}\n'


def presumed(footprints: Footprints) -> str:
    """What the records presume, as both formats have it."""
    fixed, sources = compact(footprints.fixed), compact(footprints.sources)
    return f'"fixed":{fixed},"sources":{sources}'


def lines(texts: Iterable[str]) -> str:
    """These texts, each on a line of its own, with commas between them."""
    return ",".join("\n" + text for text in texts)


def compact(value: object) -> str:
    """A JSON value on one line."""
    return json.dumps(value, ensure_ascii=False, separators=(",", ":"))


def share(records: Sequence[Record]) -> Shared:
    """The same records, with a list for files that the same records read, if that is shorter."""
    readers: dict[str, list[int]] = {}
    for number, record in enumerate(records):
        for name in dict.fromkeys(record.reads):
            readers.setdefault(name, []).append(number)
    groups: dict[tuple[int, ...], list[str]] = {}
    for name, numbers in readers.items():
        groups.setdefault(tuple(numbers), []).append(name)
    lists: dict[str, list[str]] = {}
    list_of: dict[str, str] = {}
    for together, names in groups.items():
        called = name_of(len(lists))
        size = sum(len(name) + 3 for name in names)
        readings = len(together)
        if (readings - 1) * size > LIST_COSTS + len(called) + readings * (len(called) + 3):
            lists[called] = names
            list_of.update(dict.fromkeys(names, called))
    found: list[Value] = []
    for record in records:
        reads = dict.fromkeys(record.reads)
        own = [name for name in reads if name not in list_of]
        shared = list(dict.fromkeys(list_of[name] for name in reads if name in list_of))
        found.append({**vars(record), "reads": own, "shared": shared})
    return Shared(found, lists)


def name_of(number: int) -> str:
    """The name of a list: its number, in as few digits as there can be."""
    digits = DIGITS[number % len(DIGITS)]
    while number := number // len(DIGITS):
        digits = DIGITS[number % len(DIGITS)] + digits
    return digits
