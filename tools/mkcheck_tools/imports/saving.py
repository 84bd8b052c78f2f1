"""Keeps a translation between runs of the program, for steps that are done one at a time."""

from __future__ import annotations

import dataclasses
import json
from typing import Any

from mkcheck_tools.book.note_files import Noted
from mkcheck_tools.faults import Fault
from mkcheck_tools.imports.builds import Build, Command, Kind, Node, Origin, Setting
from mkcheck_tools.imports.recorded import Recorded

FORMAT = 3
SETS = (
    "configured",
    "makefiles",
    "read_made",
    "read_again",
    "old_dependencies",
    "unsure_dependencies",
    "tried",
    "blind",
    "made",
    "unjudged",
)


def text_of_build(build: Build, recorded: Recorded | None = None) -> str:
    """The text of a build, with what the recorder said of it; its notes have a file of their
    own."""
    said = {}
    if recorded is not None:
        said = {
            "unrecorded": dict(recorded.unrecorded),
            "looked": dict(recorded.looked),
            "waited": dict(recorded.waited),
        }
    return json.dumps({"format": FORMAT, "build": build, "recorded": said}, default=plain_value)


def plain_value(value: object) -> object:
    """The form of what JSON lacks."""
    if dataclasses.is_dataclass(value):
        return {one.name: getattr(value, one.name) for one in dataclasses.fields(value)}
    return value.value if isinstance(value, Kind) else sorted(value)  # type: ignore[call-overload]


def build_of_text(text: str) -> Build:
    """The build of a text; raises `Fault` where it isn't one of this program."""
    try:
        values = json.loads(text)
        if values["format"] != FORMAT:
            raise ValueError("it is of another version")
        fields = values["build"]
        fields["nodes"] = {name: node_of(node) for name, node in fields["nodes"].items()}
        fields["starters"] = {int(make): name for make, name in fields["starters"].items()}
        for name in SETS:
            fields[name] = set(fields[name])
        return Build(**fields)
    except (ValueError, KeyError, TypeError) as error:
        raise Fault(f"the saved translation can't be read ({error}): import again") from None


def recorded_of_text(text: str, noted: Noted) -> Recorded:
    """What the recorder said, of a text that `build_of_text` takes; `noted` are its notes."""
    values = json.loads(text)["recorded"]
    if not values:
        return Recorded(noted=noted)
    return Recorded(values["unrecorded"], noted, values["waited"], values["looked"])


def node_of(values: dict[str, Any]) -> Node:
    """A node of its values."""
    setting = values["setting"]
    values["kind"] = Kind(values["kind"])
    values["commands"] = [Command(**command) for command in values["commands"]]
    values["origin"] = Origin(**values["origin"]) if values["origin"] else None
    values["setting"] = Setting(
        setting["folder"],
        tuple(setting["shell"]),
        tuple((name, value) for name, value in setting["exports"]),
        tuple(setting["unset"]),
    )
    return Node(**values)
