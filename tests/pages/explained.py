"""Holds what `mkcheck explain` prints to docs/FINDINGS.md and docs/FAULTS.md.

The overview has the rows of the tables of these pages. Each explanation has the paragraphs of its
section there, word for word and in their order, and its example stands in a session of that
section. A number and each name of a fault give the same explanation.
"""

from __future__ import annotations

import re
import subprocess
from collections.abc import Iterator
from dataclasses import dataclass
from pathlib import Path

ROOT = Path(__file__).resolve().parents[2]
PAGES = (ROOT / "docs" / "FINDINGS.md", ROOT / "docs" / "FAULTS.md")
NO_COMMAND = "unrecognized subcommand"
FINDING = re.compile(r"^\| \[`(\w+)`\]\(#[\w-]+\) \| (.*) \|$", re.MULTILINE)
FAULT = re.compile(r"^\| (\d+) \| `([\w:]+)` \| (.*) \|$", re.MULTILINE)
SESSION = re.compile(r"^```console[^\n]*\n(.*?)^```$", re.MULTILINE | re.DOTALL)
LINK = re.compile(r"\[([^\]\n]*)\]\([^)\s]+\)")
NEXT = re.compile(r"^(##|\*\*`)", re.MULTILINE)
WIDTH, LINES = 78, 20


@dataclass(frozen=True)
class Topic:
    """A finding or a fault: how its section begins, the words that it is called by, and the first
    line of its explanation."""

    start: str
    words: tuple[str, ...]
    head: str


def faults(page: str) -> list[tuple[str, str, str]]:
    """The rows of the page's table of faults: number, name and sentence."""
    return [(row[1], row[2], row[3].replace(r"\|", "|")) for row in FAULT.finditer(page)]


def topics(page: str) -> Iterator[Topic]:
    """The findings and the faults of the page's tables."""
    for place, (word, sentence) in enumerate(FINDING.findall(page), 1):
        yield Topic(f"## {place}. `{word}`\n", (word,), f"{word}: {sentence}")
    rows = faults(page)
    for number in dict.fromkeys(number for number, _, _ in rows):
        names = [(name, sentence) for own, name, sentence in rows if own == number]
        name, sentence = names[0]
        yield Topic(
            f"**`{name}` ({number}).** ",
            (number, *(name for name, _ in names)),
            f"{name} ({number}): {sentence}",
        )


def overview(page: str) -> list[str]:
    """The lines of the overview, as the page's tables have them."""
    findings = [f"{word}: {sentence}" for word, sentence in FINDING.findall(page)]
    return findings + [f"{number} {name}: {said}" for number, name, said in faults(page)]


def section(page: str, topic: Topic) -> str:
    """What the page says of a topic, behind its heading; nothing where there is no heading."""
    at = page.find(f"\n{topic.start}")
    if at < 0:
        return ""
    text = page[at + 1 + len(topic.start) :]
    end = NEXT.search(text)
    return text[: end.start()] if end else text


def paragraphs(text: str) -> list[str]:
    """The paragraphs of a section, each on one line, without links."""
    prose = LINK.sub(r"\1", SESSION.sub("", text))
    return [" ".join(part.split()) for part in prose.split("\n\n")]


def is_within(part: list[str], whole: list[str]) -> bool:
    """Whether a list occurs in another one, without a gap."""
    return any(whole[at : at + len(part)] == part for at in range(len(whole) - len(part) + 1))


def faults_of(topic: Topic, printed: str, found: str) -> Iterator[str]:
    """What is wrong with the explanation of a topic, which the page explains by this section."""
    head, *parts = printed.rstrip("\n").split("\n\n")
    lines = printed.expandtabs().splitlines()
    if head != topic.head:
        yield f"begins with {head!r} and not {topic.head!r}"
    if len(lines) > LINES or any(len(line) > WIDTH for line in lines):
        yield f"has over {LINES} lines, or a line of over {WIDTH} columns"
    if not found:
        yield "has no section"
    left, shown = iter(paragraphs(found)), [block.split("\n") for block in SESSION.findall(found)]
    for part in parts:
        if part.startswith("    "):
            example = [line.removeprefix("    ") for line in part.split("\n")]
            if not any(is_within(example, block) for block in shown):
                yield f"has an example that no session there shows:\n{part}"
        elif " ".join(part.split()) not in left:
            yield f"has a paragraph that doesn't stand there:\n{part}"


def explain(mkcheck: str, *words: str) -> subprocess.CompletedProcess[str]:
    """Runs `mkcheck explain`."""
    return subprocess.run([mkcheck, "explain", *words], capture_output=True, text=True, check=False)


def wrong_explanations(mkcheck: str) -> int:
    """Prints where `mkcheck explain` and its pages differ, and tells how many times."""
    whole = explain(mkcheck)
    if NO_COMMAND in whole.stderr:
        print("pages: this mkcheck has no command `explain`: its texts weren't compared")
        return 0
    page, wrong, count = "\n".join(page.read_text(encoding="utf-8") for page in PAGES), 0, 0
    if whole.stdout.splitlines() != overview(page):
        wrong += 1
        print("pages: `mkcheck explain` doesn't print the rows of its pages")
    for topic in topics(page):
        found = section(page, topic)
        for word in topic.words:
            count += 1
            for said in faults_of(topic, explain(mkcheck, word).stdout, found):
                wrong += 1
                print(f"`mkcheck explain {word}` {said}")
    print(f"pages: {count} words are explained as on their pages, but for {wrong}")
    return wrong
