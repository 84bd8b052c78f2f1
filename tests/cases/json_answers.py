"""What is wrong about `--json`: its answer must have the form of docs/answer.schema.json, and say
what the command says without it, `check` also with `-c` and `-w`."""

from __future__ import annotations

import json
import re
from collections.abc import Iterator, Sequence
from functools import cache
from pathlib import Path
from typing import Any, Protocol

import jsonschema
from case_file import Answer

FLAGS = re.compile("-[crw]+")
EVIDENCE = re.compile(r"-e\+?\d+")
SEEN = "once these are mended, as far as can be seen now:"
UNSEEN = "once these are mended, check again: races and stale reads may show"
LEFT_OUT = re.compile(r"  (?:targets|files): ")
OTHERS = ("graph", "repair", "verify", "simulate")
# Refusals whose words are names alone, and whose sentence has the place of a line that needs them.
PLACED = (41, 42)
SCHEMA = Path(__file__).resolve().parents[2] / "docs" / "answer.schema.json"


class Asks(Protocol):
    """Asks the program in the folder of a case."""

    def __call__(self, words: Sequence[str]) -> Answer:
        """The answer to these words."""


@cache
def form() -> Any:
    """What tests a value against the schema of answers."""
    return jsonschema.Draft7Validator(json.loads(SCHEMA.read_text()))


def shown_otherwise(words: Sequence[str]) -> list[str]:
    """The words of a command `check` without the options that say how the answer is shown."""
    kept: list[str] = []
    rest = iter(words[1:])
    for word in rest:
        if word == "-e":
            next(rest, None)
        elif FLAGS.fullmatch(word):
            kept += ["-r"] * word.count("r")
        elif word != "--json" and not EVIDENCE.fullmatch(word):
            kept.append(word)
    return kept


def is_answer(answer: Answer) -> bool:
    """Whether this is an answer, and no error of the command line or out of memory."""
    return answer.status in (0, 1, 2) and not answer.errors


def decoded(text: bytes) -> str:
    """The text, with U+FFFD in place of bytes that are no UTF-8."""
    return text.decode(errors="replace")


def said_of_yes(value: dict[str, Any], plain: Answer, ask: Asks, rest: list[str]) -> list[str]:
    """What is wrong about the answer yes."""
    counts = plain.output.splitlines()[0].split()
    written = json.loads(ask(["check", "-c", *rest]).output)
    wanted = {"recipes": int(counts[1]), "reads": int(counts[3]), "certificate": written}
    return [f"its {key} differ" for key, known in wanted.items() if value[key] != known]


def group_lines(group: dict[str, Any], makefile: str) -> list[str]:
    """A group as `check -w` prints it, without the names that its sentence leaves out."""
    place = group["place"]
    head = f"{place['file']}:{place['line']}" if place else makefile
    done = [f"  do: {group['do']}"] if group["do"] else []
    added = [f"  add: {line}" for line in (group["add"] or "").splitlines()]
    kinds = ", ".join([group["kind"], *group["also"]])
    return [f"{head}: {group['sentence']} [{kinds}]", *added, *done]


def several(count: int, one: str, many: str) -> str:
    """A number, and the word for one or for several."""
    return f"{count} {one if count == 1 else many}"


def counts_line(counts: dict[str, int]) -> str:
    """The counts as `check -w` prints them."""
    told = several(counts["findings"], "finding", "findings")
    told += f" in {several(counts['groups'], 'group', 'groups')}; "
    alone = counts["findings"] == 1
    if not counts["lines"]:
        return f"{told}no line mends {'it' if alone else 'them'}"
    whom = f"{counts['mended']} of them"
    if counts["mended"] == counts["findings"]:
        whom = "it" if alone else "all of them"
    return f"{told}{several(counts['lines'], 'line mends', 'lines mend')} {whom}"


def miscounted(value: dict[str, Any]) -> Iterator[str]:
    """What is wrong about the counts of a no, and about the numbers of its groups."""
    groups, found, counts = value["groups"], value["findings"], value["counts"]
    added = [group["add"] for group in groups if group["add"]]
    if counts["findings"] != len(found) or counts["groups"] != len(groups):
        yield "it counts other findings or groups"
    if counts["lines"] != sum(text.count("\n") for text in added):
        yield "it counts other lines"
    mended = [one for one in found if groups[one["group"] - 1]["add"]]
    if counts["mended"] != len(mended):
        yield "it counts other findings as mended"
    for one in found:
        group = groups[one["group"] - 1]
        named = {*group["targets"], *group["files"], *group["writers"]}
        if one["kind"] not in (group["kind"], *group["also"]) or named.isdisjoint(one["names"]):
            yield f"{one['text']} is in another group"
        if one["text"] != " ".join(["no", one["kind"], *one["names"]]):
            yield f"{one['text']} has other words"


def groups_lines(value: dict[str, Any], makefile: str) -> list[str]:
    """The groups of a no as `check -w` prints them, without the counts of the later ones."""
    lines = [line for group in value["groups"] for line in group_lines(group, makefile)]
    lines.append(counts_line(value["counts"]))
    if all(group["kind"] in ("race", "stale") for group in value["groups"]):
        return lines
    later = [line for group in value["later"] for line in group_lines(group, makefile)]
    return [*lines, SEEN if later else UNSEEN, *later]


def said_of_no(value: dict[str, Any], plain: Answer, told: Answer, rest: list[str]) -> list[str]:
    """What is wrong about the answer no, by what `check` and `check -w` print."""
    wanted = list(enumerate(plain.output.decode().splitlines(), 1))
    makefile = rest[rest.index("-f") + 1] if "-f" in rest else "makefile"
    lines = [line for line in told.output.decode().splitlines() if not LEFT_OUT.match(line)]
    if SEEN in lines:
        del lines[-1]
    given = [(one["number"], one["text"]) for one in value["findings"]]
    wrong = [] if given == wanted else ["its findings are others"]
    wrong += [] if groups_lines(value, makefile) == lines else ["its groups are others"]
    return wrong + list(miscounted(value))


def said_of_refusal(value: dict[str, Any], plain: Answer, told: Answer) -> Iterator[str]:
    """What is wrong about a refusal, by what `check` and `check -w` print."""
    text = decoded(plain.output).removesuffix("\n")
    sentence = decoded(told.output).split("\n", maxsplit=1)[0]
    if value["text"] != text or value["number"] != int(text.split()[1]):
        yield "its text or number is another"
    if value["sentence"] != sentence or f"{value['name']} ({value['number']})" not in sentence:
        yield "its sentence or name is another"
    place = value["place"]
    shown = place and f"{place['file']}:{place['line']}"
    if shown and not sentence.startswith(f"{shown}: "):
        yield "its place is another"
    if shown and value["number"] not in PLACED and text.split()[2] != shown:
        yield "its text has another place"
    if not place and told.output.count(b"\n") > 1:
        yield "it has no place"
    yield from misnamed(value, text, sentence)


def misnamed(value: dict[str, Any], text: str, sentence: str) -> Iterator[str]:
    """What is wrong about the names, the argument and the word of a refusal, by its text and its
    sentence."""
    names, argument, word = value["names"], value["argument"], value["word"]
    if text.split()[len(text.split()) - len(names) :] != names:
        yield "its names are others"
    if value["name"] in ("NoRule", "Cycle") and not names:
        yield "it has no names"
    has_argument = text.split()[2:3] == [argument and f"{argument['kind']}:{argument['number']}"]
    if argument and (value["place"] or not has_argument):
        yield "its argument is another"
    if value["name"] in ("BadGoal", "GoalIsMember") and not argument:
        yield "it has no argument"
    if word is not None and f": {word}: " not in sentence:
        yield "its word is another"
    if value["name"] in ("BadName", "ArchiveMember") and word is None:
        yield "it has no word"


def said_of(value: dict[str, Any], plain: Answer, ask: Asks, rest: list[str]) -> list[str]:
    """What is wrong about a value that has the form of answers."""
    if value["answer"] != {0: "yes", 1: "no", 2: "refused"}[plain.status]:
        return ["it is another answer"]
    if plain.status == 0:
        return said_of_yes(value, plain, ask, rest)
    if plain.status == 1:
        return said_of_no(value, plain, ask(["check", "-w", *rest]), rest)
    return list(said_of_refusal(value, plain, ask(["check", "-w", *rest])))


def printed_of(value: dict[str, Any], words: Sequence[str]) -> tuple[str, str]:
    """What a command other than `check` prints on both streams, by its answer as JSON."""
    if "printed" not in value:
        output = value.get("lines", "") + value.get("text", "")
        output += (value.get("part") or "") if "--part" in words else ""
        newline = "\n" if value["answer"] == "refused" else ""
        return output + newline, value.get("reason", "")
    if value["answer"] == "yes":
        return value["printed"] + "plan ok\n", ""
    return f"{value['printed']}{value['text']}\n{value['left']}", ""


def misprinted(ask: Asks, words: Sequence[str]) -> Iterator[str]:
    """What is wrong about the answer as JSON to another command than `check`."""
    rest = [word for word in words[1:] if word not in ("--json", "-w")]
    plain = ask([words[0], *rest])
    if plain.status not in (0, 1, 2):
        return
    given = ask([words[0], "--json", *rest])
    if plain.errors.startswith(b"error: "):
        if given != plain:
            yield "`--json` has other errors"
        return
    if given.status != plain.status or given.errors:
        yield f"`--json` ends with status {given.status}"
    value = json.loads(given.output)
    wrong = [error.message for error in form().iter_errors(value)]
    if not wrong and printed_of(value, rest) != (decoded(plain.output), decoded(plain.errors)):
        wrong = ["it is another answer"]
    yield from (f"`--json` prints {given.output.decode()}{said}" for said in wrong)


def misspoken(ask: Asks, words: Sequence[str]) -> Iterator[str]:
    """What is wrong about the answer as JSON to a command `check`."""
    rest = shown_otherwise(words)
    plain = ask(["check", *rest])
    given = ask(["check", "--json", *rest])
    if not is_answer(plain):
        if given != plain:
            yield "`--json` has other errors"
        return
    if given.status != plain.status or given.errors:
        yield f"`--json` ends with status {given.status}"
    text = given.output.decode()
    if not text.endswith("\n") or text.count("\n") != 1:
        yield "`--json` doesn't print one line"
    value = json.loads(text)
    wrong = [error.message for error in form().iter_errors(value)]
    yield from (f"`--json` prints {text}{said}" for said in wrong)
    if not wrong:
        yield from (f"`--json` prints {text}{said}" for said in said_of(value, plain, ask, rest))
