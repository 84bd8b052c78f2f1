"""The members of JSON objects that mkcheck prints, each of the kind that it has to be."""

from __future__ import annotations

import json
from collections.abc import Mapping
from dataclasses import dataclass

from mkcheck_tools.answers.checkers import INSTALL
from mkcheck_tools.faults import Fault


@dataclass(frozen=True)
class Members:
    """The members of an object. What isn't there, or is of another kind, is a fault; what no tool
    asks for may be there too."""

    values: Mapping[str, object]

    @classmethod
    def of(cls, value: object) -> Members:
        """Those of a value, which has to be an object."""
        if not isinstance(value, dict):
            raise Fault(f"mkcheck check --json printed no JSON object; {INSTALL}")
        return cls(value)

    @classmethod
    def read(cls, text: bytes) -> Members:
        """Those of the object that a text is."""
        if not text.strip():
            raise Fault(f"mkcheck check --json printed nothing; {INSTALL}")
        try:
            return cls.of(json.loads(text.decode("utf-8")))
        except (ValueError, RecursionError):
            said = text.decode("utf-8", "replace").partition("\n")[0]
            raise Fault(
                f"mkcheck check --json printed no JSON, but {said[:60]!r}; {INSTALL}"
            ) from None

    def wrong(self, key: str, kind: str) -> Fault:
        """That a member isn't of a kind."""
        said = f"mkcheck check --json printed an answer in which {key} is no {kind}"
        return Fault(f"{said}; {INSTALL}")

    def is_null(self, key: str) -> bool:
        """Whether a member is null. It has to be there."""
        if key not in self.values:
            raise self.wrong(key, "member")
        return self.values[key] is None

    def text(self, key: str) -> str:
        """A text."""
        value = self.values.get(key)
        if not isinstance(value, str):
            raise self.wrong(key, "text")
        return value

    def number(self, key: str) -> int:
        """A number."""
        value = self.values.get(key)
        if not isinstance(value, int) or isinstance(value, bool):
            raise self.wrong(key, "number")
        return value

    def items(self, key: str) -> list[object]:
        """The values of a list."""
        value = self.values.get(key)
        if not isinstance(value, list):
            raise self.wrong(key, "list")
        return value

    def texts(self, key: str) -> tuple[str, ...]:
        """A list of texts."""
        values = [one for one in self.items(key) if isinstance(one, str)]
        if len(values) != len(self.items(key)):
            raise self.wrong(key, "list of texts")
        return tuple(values)

    def inner(self, key: str) -> Members:
        """An object in this one."""
        value = self.values.get(key)
        if not isinstance(value, dict):
            raise self.wrong(key, "object")
        return Members(value)

    def objects(self, key: str) -> tuple[Members, ...]:
        """A list of objects."""
        values = [Members(one) for one in self.items(key) if isinstance(one, dict)]
        if len(values) != len(self.items(key)):
            raise self.wrong(key, "list of objects")
        return tuple(values)
