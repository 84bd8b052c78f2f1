"""What a recording came to, for the program that asked for it: a JSON file."""

from __future__ import annotations

import json
from dataclasses import asdict, dataclass
from pathlib import Path

from mkcheck_tools.faults import Failure, Fault

FORMAT = 1


@dataclass(frozen=True)
class RecordingAnswer:
    """What a recording came to: its status, whether it wrote footprints, how many recipes the goals
    reach, and of how many of these the record was known already."""

    status: int
    written: bool
    recipes: int = 0
    known: int = 0
    unrecorded: tuple[Failure, ...] = ()
    """Why recipes have no record."""

    fault: str = ""
    """What ended it before anything was written; empty where nothing did."""

    @property
    def reasons(self) -> list[str]:
        """Why nothing was written, or recipes have no record, each reason once."""
        texts = [self.fault] if self.fault else [failure.text for failure in self.unrecorded]
        return list(dict.fromkeys(texts))


def text_of_answer(answer: RecordingAnswer) -> str:
    """The file of an answer."""
    value = {"format": FORMAT, **asdict(answer)}
    return json.dumps(value, ensure_ascii=False, separators=(",", ":")) + "\n"


def read_answer(path: str) -> RecordingAnswer:
    """The answer in a file. Raises Fault where there is none, or it is damaged."""
    try:
        value = json.loads(Path(path).read_text(encoding="utf-8"))
        if value["format"] != FORMAT:
            raise Fault(f"{path} is of another version of mkcheck-record")
        return RecordingAnswer(
            int(value["status"]),
            bool(value["written"]),
            int(value["recipes"]),
            int(value["known"]),
            tuple(failure_of_value(one) for one in value["unrecorded"]),
            str(value["fault"]),
        )
    except (OSError, ValueError, KeyError, TypeError, RecursionError):
        raise Fault(f"{path} can't be read as the answer of a recording") from None


def failure_of_value(value: dict[str, object]) -> Failure:
    """Why a recipe has no record, of its JSON value."""
    make = value["make_in"]
    return Failure(
        str(value["target"]),
        str(value["text"]),
        str(value["fact"]),
        None if make is None else str(make),
        tuple(map(str, list(value["makers"]))),  # type: ignore[call-overload]
    )
