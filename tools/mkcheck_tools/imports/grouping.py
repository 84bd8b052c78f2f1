"""Sentences that differ only in the target that they are about: one stands for all."""

from __future__ import annotations

import os
import re
from collections.abc import Iterable, Mapping

from mkcheck_tools.imports.sentences import listed

# Where the rule of a target stands, in front of a sentence.
PLACE = re.compile(r"([^\s:]+:\d+)(?=:? )")


def grouped(texts: Iterable[str], subjects: Mapping[str, str]) -> list[str]:
    """Sentences, those that differ only in the target and in the line of its rule as one.

    `subjects` has the target for those that are about one. Of several the first one stands there,
    with its details, and the other targets.
    """
    groups: list[list[str]] = []
    known: dict[int, list[tuple[tuple[list[str], str], list[str]]]] = {}
    for text in texts:
        target = subjects.get(text, "")
        own = words_of(text), target
        of_length = known.setdefault(len(own[0]), [])
        same = (group for first, group in of_length if target and is_alike(first, own))
        group = next(same, None)
        if group is not None:
            group.append(text)
            continue
        groups.append([text])
        if target:
            of_length.append((own, groups[-1]))
    return [joined(group, subjects) for group in groups]


def joined(texts: list[str], subjects: Mapping[str, str]) -> str:
    """The sentence for several that differ only in the target, in the order of these."""
    if len(texts) == 1:
        return texts[0]
    texts = sorted(texts, key=lambda text: subjects[text])
    first, *details = texts[0].split("\n")
    end = ":" if first.endswith(":") else ""
    others = [named(text, subjects[text], place_of(first)) for text in texts[1:]]
    front = first.removesuffix(":")
    return "\n".join([f"{front}; so it is with {listed(others, 'and', '')}{end}", *details])


def named(text: str, target: str, place: str) -> str:
    """A target, with the line of its rule where that isn't this one."""
    own = place_of(text)
    return target if own == place or not own else f"{target} ({own})"


def place_of(text: str) -> str:
    """The makefile and the line in front of a sentence; empty where there are none."""
    found = PLACE.match(text)
    return found.group(1) if found is not None else ""


def words_of(text: str) -> list[str]:
    """The words of a sentence, without the line of the rule and the details."""
    return PLACE.sub("", text.split("\n", 1)[0], count=1).split(" ")


def is_alike(one: tuple[list[str], str], other: tuple[list[str], str]) -> bool:
    """Whether two sentences, each with its target, differ only in that: word by word, since the
    name of a target may be another word too, as in `make in a is started in a first build`."""
    pairs = zip(one[0], other[0], strict=True)
    return all(
        mine == its or template(mine, one[1]) == template(its, other[1]) for mine, its in pairs
    )


def template(word: str, target: str) -> str:
    """A word without the name of a target, and the names made from that."""
    base = os.path.basename(target)
    names = [target, os.path.splitext(target)[0], base, os.path.splitext(base)[0]]
    for number, name in enumerate(names):
        word = re.sub(rf"(?<![\w./-]){re.escape(name)}(?![\w-])", f"\0{number}", word)
    return word
