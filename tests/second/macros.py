"""Macros: the table, and what a text expands to."""

from __future__ import annotations

import re
from collections.abc import Sequence
from typing import NamedTuple

from lines import BLANKS, Unplaced, first_outside, reference_end, words

VALUE_LIMIT = 1048576
REFERENCE_LIMIT = 65536
LEVEL_LIMIT = 256
NAME = re.compile(rb"[A-Za-z0-9._-]+\Z")
INTERNAL = re.compile(rb"[@*<^+?%][DF]?\Z")
ONE_BYTE = re.compile(rb"[A-Za-z0-9._@*<^+?%-]\Z")


class Macro(NamedTuple):
    """What a name stands for; the text of a delayed one is expanded where it is used."""

    delayed: bool
    text: bytes


class Locals:
    """What the internal macros of a command stand for; outside commands they are empty."""

    def __init__(
        self, target: bytes | None = None, stem: bytes = b"", prerequisites: Sequence[bytes] = ()
    ) -> None:
        self.lists: dict[bytes, list[bytes]]
        self.lists = {b"@": [], b"*": [], b"<": [], b"^": [], b"+": [], b"?": []}
        if target is not None:
            self.lists[b"@"] = [target]
            self.lists[b"*"] = [stem]
            self.lists[b"<"] = list(prerequisites[:1])
            self.lists[b"^"] = list(dict.fromkeys(prerequisites))
            self.lists[b"+"] = list(prerequisites)

    def value(self, name: bytes) -> bytes:
        names = self.lists[name[:1]]
        if name[1:] == b"D":
            names = [folder_of(one) for one in names]
        elif name[1:] == b"F":
            names = [one.rsplit(b"/", 1)[-1] for one in names]
        return b" ".join(names)


def folder_of(name: bytes) -> bytes:
    if b"/" not in name:
        return b"."
    return name.rsplit(b"/", 1)[0] or b"/"


def measured(text: bytes) -> bytes:
    if len(text) > VALUE_LIMIT:
        raise Unplaced(15)
    return text


def replaced(word: bytes, old: bytes, new: bytes) -> bytes:
    """A word in which `old` at its end, or around its stem, became `new`."""
    if b"%" not in old:
        return word[: len(word) - len(old)] + new if word.endswith(old) else word
    front, back = old.split(b"%", 1)
    if len(word) < len(front) + len(back):
        return word
    if not (word.startswith(front) and word.endswith(back)):
        return word
    return new.replace(b"%", word[len(front) : len(word) - len(back)], 1)


class Expander:
    """One expansion: it counts references, and notes whether `$?` was met."""

    def __init__(self, table: MacroTable, local: Locals) -> None:
        self.table = table
        self.local = local
        self.count = 0
        self.varying = False

    def expand(self, text: bytes, level: int, progress: frozenset[bytes]) -> bytes:
        out = []
        length = 0
        at = 0
        while at < len(text):
            dollar = text.find(b"$", at)
            if dollar != at:
                part = text[at:] if dollar < 0 else text[at:dollar]
                at += len(part)
            elif text[at + 1 : at + 2] == b"$":
                part = b"$"
                at += 2
            else:
                part, at = self.form(text, at, level, progress)
            out.append(part)
            length += len(part)
            if length > VALUE_LIMIT:
                raise Unplaced(15)
        return b"".join(out)

    def form(
        self, text: bytes, at: int, level: int, progress: frozenset[bytes]
    ) -> tuple[bytes, int]:
        """The value of the form at this `$`, and the place behind it."""
        following = text[at + 1 : at + 2]
        if following in (b"(", b"{"):
            end = reference_end(text, at)
            if end is None:
                raise Unplaced(13)
            body = text[at + 2 : end]
            after = end + 1
        elif ONE_BYTE.match(following):
            body = following
            after = at + 2
        else:
            raise Unplaced(16)
        parts = self.parts(body)
        if level >= LEVEL_LIMIT:
            raise Unplaced(14)
        parts = [self.expand(part, level + 1, progress) for part in parts]
        value = self.value(parts[0], level, progress)
        if len(parts) == 1:
            return value, after
        return b" ".join(replaced(word, parts[1], parts[2]) for word in words(value)), after

    @staticmethod
    def parts(body: bytes) -> list[bytes]:
        """The name alone, or name, s1 and s2."""
        colon = first_outside(body, (b":",))
        if colon is None:
            return [body]
        equals = first_outside(body, (b"=",), colon + 1)
        if equals is None:
            raise Unplaced(11)
        return [body[:colon], body[colon + 1 : equals], body[equals + 1 :]]

    def value(self, name: bytes, level: int, progress: frozenset[bytes]) -> bytes:
        if not NAME.match(name) and not INTERNAL.match(name):
            raise Unplaced(11)
        if name in (b"%", b"%D", b"%F"):
            raise Unplaced(17)
        self.count += 1
        if self.count > REFERENCE_LIMIT:
            raise Unplaced(14)
        if INTERNAL.match(name):
            self.varying = self.varying or name[:1] == b"?"
            return self.local.value(name)
        if name in progress:
            raise Unplaced(12, name)
        if name not in self.table.macros:
            return b""
        delayed, text = self.table.macros[name]
        if not delayed:
            return text
        return self.expand(text, level + 1, progress | {name})


class MacroTable:
    """Each name with whether it is delayed, and its text."""

    def __init__(self) -> None:
        self.macros: dict[bytes, Macro] = {}
        self.fixed: set[bytes] = set()

    def expand(self, text: bytes, local: Locals | None = None) -> tuple[bytes, bool]:
        """What a text expands to, and whether it varies from make to make."""
        expander = Expander(self, local or Locals())
        return expander.expand(text, 0, frozenset()), expander.varying

    def define(self, name: bytes, operator: bytes, text: bytes) -> None:
        """What an assignment of a makefile does; the name was expanded."""
        if not NAME.match(name):
            raise Unplaced(11)
        if name not in self.fixed:
            self.store(name, operator, text)

    def fix(self, operand: bytes) -> None:
        """What a macro operand does: no later assignment changes its name."""
        before, text = operand.split(b"=", 1)
        operator = b"="
        for colons in (b":::", b"::"):
            if before.endswith(colons):
                operator = colons + b"="
                before = before[: -len(colons)]
                break
        name = before.strip(BLANKS)
        if not NAME.match(name):
            raise Unplaced(11)
        self.store(name, operator, text.lstrip(BLANKS))
        self.fixed.add(name)

    def store(self, name: bytes, operator: bytes, text: bytes) -> None:
        defined = name in self.macros
        if operator == b"?=" and defined:
            return
        if operator == b"+=" and defined:
            delayed, old = self.macros[name]
            new = text if delayed else self.expand(text)[0]
            self.macros[name] = Macro(delayed, measured(old + b" " + new))
        elif operator == b"::=":
            self.macros[name] = Macro(False, measured(self.expand(text)[0]))
        elif operator == b":::=":
            self.macros[name] = Macro(True, measured(self.expand(text)[0].replace(b"$", b"$$")))
        else:
            self.macros[name] = Macro(True, measured(text))
