"""Certificates that may be given to `verify`: those that are right, and altered ones."""

from __future__ import annotations

import json
from random import Random
from typing import TypedDict

from book import JsonObject, Way, certificate_text
from footprints import altered, odd_value, spelled
from judge import Subject


class WayValue(TypedDict):
    """An entry of a certificate, as JSON."""

    end: str
    file: str
    path: list[str]
    recipe: str


def ways_of(subject: Subject) -> list[Way]:
    """A way for each read that needs one and has one."""
    return [way for way in (subject.way(*pair) for pair in subject.pairs()) if way]


def value_of(subject: Subject) -> JsonObject:
    text = certificate_text(subject.graph.goals, ways_of(subject))
    value: JsonObject = json.loads(text.decode("utf-8"))
    return value


def longer_path(rng: Random, subject: Subject, way: WayValue) -> None:
    """Another path that begins as this one does, a step further or with another end."""
    path = [name.encode() for name in way["path"]]
    if path and path[-1] in subject.recipes:
        following = subject.carried(path[-1])
        if following:
            path.append(rng.choice(following))
    way["path"] = [name.decode() for name in path]
    if path and path[-1] in subject.recipes and rng.random() < 0.7:
        ends = subject.ends(path, way["file"].encode())
        if ends:
            way["end"] = rng.choice(ends).decode()


def alter_entry(rng: Random, subject: Subject, ways: list[WayValue]) -> None:
    """One entry changed, left out, doubled or put in."""
    names = [node.name.decode() for node in subject.graph.serial]
    if not ways or rng.random() < 0.1:
        recipe = rng.choice(names)
        ways.append(
            {
                "end": rng.choice(["source", "written", "always"]),
                "file": rng.choice(names),
                "path": [recipe],
                "recipe": recipe,
            }
        )
        return
    places = [at for at, way in enumerate(ways) if len(way["path"]) > 1]
    place = rng.choice(places) if places and rng.random() < 0.7 else rng.randrange(len(ways))
    way = ways[place]
    kind = rng.randrange(11)
    if kind == 0:
        del ways[place]
    elif kind == 1:
        ways.insert(rng.randint(0, len(ways)), way.copy())
    elif kind == 2:
        way["path"] = way["path"][:-1]
    elif kind == 3:
        way["path"] = way["path"][1:]
    elif kind == 4:
        rng.shuffle(way["path"])
    elif kind == 5:
        way["end"] = rng.choice(["source", "written", "always"])
    elif kind == 6:
        way["file"] = rng.choice(names + ["nowhere"])
    elif kind == 7:
        way["recipe"] = rng.choice(names + ["nowhere"])
    elif kind == 8:
        way["path"].insert(rng.randint(0, len(way["path"])), rng.choice(names + ["nowhere"]))
    else:
        longer_path(rng, subject, way)


def certificate_of(rng: Random, subject: Subject) -> bytes:
    """The bytes of a certificate."""
    value = value_of(subject)
    draw = rng.random()
    if draw < 0.25:
        return json.dumps(value, ensure_ascii=False).encode("utf-8") + rng.choice([b"", b"\n"])
    if draw < 0.35:
        rng.shuffle(value["ways"])
    elif draw < 0.8:
        for _ in range(rng.choice([1, 1, 2])):
            alter_entry(rng, subject, value["ways"])
    elif draw < 0.85:
        value["goals"] = rng.choice(
            [[], value["goals"] * 2, value["goals"] + ["x"], list(reversed(value["goals"]))]
        )
    else:
        value = altered(rng, value)
        if isinstance(value.get("ways"), list) and value["ways"] and rng.random() < 0.3:
            value["ways"][rng.randrange(len(value["ways"]))] = odd_value(rng)
    return spelled(rng, value)
