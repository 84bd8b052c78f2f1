"""Draws the schedule that shows a finding: time runs down, and each job has a lane.

Only the recipes that matter are drawn: the reader, the writers of the file, and the few that run
between them. A row says how many are left out.
"""

from __future__ import annotations

import unicodedata
from dataclasses import dataclass, field

from mkcheck_tools.answers.findings import Finding
from mkcheck_tools.answers.plans import Edit, Make, Phase, Run
from mkcheck_tools.report.escaping import counted, markup, shortened, visible

WIDTH, LEFT, ROW, GAP, BYTE, TEXT = 338, 48, 22, 6, 6.7, 262
BETWEEN_AT_MOST = 3
PASSED_AT_MOST = 3
WRITES_AT_MOST = 2


@dataclass
class Bar:
    """A recipe as it is drawn: its rows, of which each has a mark and a text."""

    name: str
    look: str
    rows: list[tuple[str, str]] = field(default_factory=list)


@dataclass
class Picture:
    """The parts of a picture, from top to bottom."""

    parts: list[str] = field(default_factory=list)
    top: int = 4

    def text(self, x: float, y: float, text: str, look: str, room: float) -> None:
        """A text that is shortened to its room; the whole one shows under the pointer."""
        seen = visible(text)
        short = fitted(seen, int(room / BYTE))
        title = f"<title>{markup(shortened(text, 400))}</title>" if short != seen else ""
        self.parts.append(f'<text class="{look}" x="{x:g}" y="{y:g}">{title}{markup(short)}</text>')

    def mark(self, kind: str, x: float, y: float) -> None:
        """The mark of a step: a disc reads, a square writes, a cross goes wrong."""
        if kind == "look":
            self.parts.append(f'<circle class="look" cx="{x:g}" cy="{y:g}" r="4"/>')
        elif kind == "put":
            self.parts.append(
                f'<rect class="put" x="{x - 4:g}" y="{y - 4:g}" width="8" height="8"/>'
            )
        elif kind == "wrong":
            self.parts.append(f'<path class="wrong" d="M{x - 4:g} {y - 4:g}l8 8m0 -8l-8 8"/>')

    def bar(self, bar: Bar, x: float, y: float, width: float) -> float:
        """A recipe, and where it ends."""
        height = ROW * (1 + len(bar.rows)) + 4
        self.parts.append(
            f'<rect class="bar {bar.look}" x="{x:g}" y="{y:g}" width="{width:g}"'
            f' height="{height:g}" rx="4"/>'
        )
        self.text(x + 8, y + 16, bar.name, "name", width - 14)
        for number, (kind, text) in enumerate(bar.rows, 1):
            middle = y + ROW * number + 12
            self.mark(kind, x + 14, middle)
            look = "bad" if kind == "wrong" else "step"
            self.text(x + 26, middle + 4, text, look, width - 32)
        return y + height

    def phase(self, text: str) -> None:
        """The name of a phase, on the left."""
        self.text(2, self.top + 16, text, "phase", LEFT - 4)

    def left_out(self, number: int) -> None:
        """A row for recipes that aren't drawn."""
        self.text(LEFT + 8, self.top + 15, f"⋮ {counted(number, 'other recipe')}", "more", 280)
        self.top += ROW

    def line(self) -> None:
        """A line between two phases."""
        self.parts.append(f'<path class="line" d="M0 {self.top}h{WIDTH}"/>')
        self.top += 6

    def svg(self, label: str) -> str:
        """The whole picture."""
        return (
            f'<svg class="time" role="img" aria-label="{markup(shortened(label, 400))}"'
            f' viewBox="-1 0 {WIDTH + 2} {self.top + 4}"'
            f' width="{WIDTH + 2}" height="{self.top + 4}">' + "".join(self.parts) + "</svg>"
        )


def columns(character: str) -> int:
    """How many columns a character takes."""
    if unicodedata.combining(character):
        return 0
    return 2 if unicodedata.east_asian_width(character) in "WF" else 1


def fitted(text: str, room: int) -> str:
    """The text, shortened in its middle to at most `room` columns."""
    if sum(map(columns, text)) <= room:
        return text
    front, back, used = "", "", 1
    for step in range(len(text)):
        one = text[step // 2] if step % 2 == 0 else text[-1 - step // 2]
        used += columns(one)
        if used > room:
            break
        front, back = (front + one, back) if step % 2 == 0 else (front, one + back)
    return f"{front}…{back}"


def race(finding: Finding, phases: list[Phase]) -> tuple[str, str]:
    """The picture of a race, and what it shows in words."""
    reader, writer, file = finding.names
    runs = [run for run in runs_of(phases) if run.target != reader]
    picture = Picture()
    picture.phase("build")
    width = (WIDTH - LEFT - GAP) / 2
    for lane in (0, 1):
        x = LEFT + lane * (width + GAP)
        picture.text(x + 8, picture.top + 15, f"job {lane + 1}", "more", width)
    picture.top += ROW
    if runs:
        picture.left_out(len(runs))
    left = Bar(reader, "runs", [("wrong", f"reads {file}"), ("", "too early")])
    right = Bar(writer, "open", [("", "not done"), ("", ""), ("put", f"writes {file}")])
    picture.bar(left, LEFT, picture.top, width)
    picture.top = int(picture.bar(right, LEFT + width + GAP, picture.top, width)) + 4
    before = f"After {counted(len(runs), 'other recipe')}, the" if runs else "The"
    words = (
        f"{before} recipe of {shortened(reader)} begins, and nothing makes it wait for that of"
        f" {shortened(writer)}. It may find no {shortened(file)}, an old one, or half of one."
    )
    return picture.svg(words), words


def runs_of(phases: list[Phase]) -> list[Run]:
    """The runs of the first phase, where that is a make."""
    first = phases[0] if phases else None
    return first.runs if isinstance(first, Make) else []


def stale(finding: Finding, phases: list[Phase]) -> tuple[str, str]:
    """The picture of a stale read, and what it shows in words."""
    reader, file = finding.names
    picture = Picture()
    makes = 0
    edited = any(isinstance(phase, Edit) for phase in phases)
    for number, phase in enumerate(phases):
        if number:
            picture.line()
        if isinstance(phase, Edit):
            picture.phase("edit")
            picture.mark("put", LEFT + 14, picture.top + 12)
            picture.text(LEFT + 26, picture.top + 16, f"{phase.file} changes", "step", TEXT)
            picture.top += ROW + 4
        else:
            makes += 1
            picture.phase("build")
            draw_make(picture, phase, reader, file, makes > 1)
    picture.line()
    picture.phase("then")
    picture.mark("wrong", LEFT + 14, picture.top + 12)
    said = f"{reader} is still of the old {file}"
    halves = (f"{reader} is still", f"of the old {file}")
    for line in [said] if len(said) * BYTE < TEXT else halves:
        picture.text(LEFT + 26, picture.top + 16, line, "bad", TEXT)
        picture.top += ROW
    change = f"{shortened(file)} changes" if edited else f"{shortened(file)} is written anew"
    words = (
        f"A build runs the recipe of {shortened(reader)}, which reads {shortened(file)}. Then"
        f" {change}, but the next build passes {shortened(reader)}: it isn't made again."
    )
    return picture.svg(words), words


def draw_make(picture: Picture, make: Make, reader: str, file: str, again: bool) -> None:
    """Draws a make, in one lane."""
    width, left_out = WIDTH - LEFT, 0
    kept = {id(run) for run in that_matter(make.runs, reader, file)}
    for run in make.runs:
        if id(run) not in kept:
            left_out += 1
            continue
        if left_out:
            picture.left_out(left_out)
            left_out = 0
        bar = bar_of(run, reader, file, again)
        picture.top = int(picture.bar(bar, LEFT, picture.top, width)) + 4
    if left_out:
        picture.left_out(left_out)


def bar_of(run: Run, reader: str, file: str, again: bool) -> Bar:
    """A recipe of a make; `again` in the second one."""
    if run.passed:
        text = "passed: make sees no reason to run it" if run.target == reader else "passed too"
        return Bar(run.target, "passed", [("wrong" if run.target == reader else "", text)])
    bar = Bar(run.target, "runs")
    for kind, name in run.steps:
        if name != file:
            continue
        verb = "reads" if kind == "look" else "writes"
        bar.rows.append((kind, f"{verb} {'the new ' if again else ''}{name}"))
    if run.target == reader:
        writes = [name for kind, name in run.steps if kind == "put"]
        bar.rows += [("put", f"writes {name}") for name in writes[:WRITES_AT_MOST]]
        if len(writes) > WRITES_AT_MOST:
            bar.rows.append(("", f"and {counted(len(writes) - WRITES_AT_MOST, 'more file')}"))
    return bar


def that_matter(runs: list[Run], reader: str, file: str) -> list[Run]:
    """The reader, the writers of the file, those between them if they are few, and a few that are
    passed too."""
    places = [
        place for place, run in enumerate(runs) if run.target == reader or run.does("put", file)
    ]
    if not places:
        return [run for run in runs if run.passed][:PASSED_AT_MOST]
    first, last = places[0], places[-1]
    if last - first - 1 <= BETWEEN_AT_MOST:
        kept = runs[first : last + 1]
    else:
        kept = [runs[place] for place in places]
    names = {id(run) for run in kept}
    passed = [run for run in runs if run.passed and id(run) not in names]
    return [*kept, *passed[: PASSED_AT_MOST - 1]]
