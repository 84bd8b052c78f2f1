"""The findings on a page: in groups, worst first, with schedules and graphs."""

from __future__ import annotations

import os
from collections.abc import Iterator, Sequence
from concurrent.futures import ThreadPoolExecutor
from dataclasses import dataclass, field
from functools import partial

from mkcheck_tools.answers.findings import Finding, Group
from mkcheck_tools.answers.plans import phases_of
from mkcheck_tools.report import timelines
from mkcheck_tools.report.escaping import as_sentence, clipped, counted, markup, prose, shortened
from mkcheck_tools.report.judging import Judged, repair_of
from mkcheck_tools.report.makefiles import Makefiles
from mkcheck_tools.report.overview import what_to_do
from mkcheck_tools.report.pairs import Shared, shared
from mkcheck_tools.report.parts import Budget, clipped_lines, look_of, place_of
from mkcheck_tools.report.pictures import Drawing, around, as_list, drawn
from mkcheck_tools.report.schedules import Plans, plans

# How much is shown in full, so that a page stays small.
DETAILED_AT_MOST = 60
DETAILED_BYTES = 2_000_000
BARE_BYTES = 800_000
BRIEF_BYTES = 800_000
COLUMNS = 4_000
# For how many findings a schedule is asked for, and how many reads mkcheck goes through for that.
PLANS_AT_MOST, PLANS_AT_LEAST = 60, 6
READS_AT_MOST = 1_500_000
# Kinds that have a schedule.
PICTURED = ("race", "stale")
# The marks of schedules: a width, a picture, and what it means.
MARKS = (
    (12, '<circle class="look" cx="6" cy="6" r="4"/>', "reads"),
    (12, '<rect class="put" x="2" y="2" width="8" height="8"/>', "writes"),
    (12, '<path class="wrong" d="M2 2l8 8m0 -8l-8 8"/>', "goes wrong"),
    (24, '<rect class="bar open" x="1" y="1" width="22" height="10"/>', "not done, or not run"),
)
KEY = "".join(
    f'<span><svg class="time" width="{width}" height="12" aria-hidden="true">{mark}</svg>'
    f"{text}</span>"
    for width, mark, text in MARKS
)
HIDDEN = (
    '<h2 id="then">Once these are mended, as far as can be seen now</h2>\n'
    "<p>mkcheck looks for races and stale reads"
    " once the findings above are mended. These can be seen already. They are advice: mending the"
    " findings may change them.</p>\n"
)
WITH_RACES = "Stale reads of files of a race stand with that race, above."
CHECK_AGAIN = "Once these are mended, check again: races and stale reads may show."


@dataclass
class Shown:
    """The kinds of findings, explained; what is shown in full, by its anchors, and what is drawn
    for it: schedules by the numbers of findings, graphs by anchors; what `repair` prints; and how
    much the page may still take."""

    explained: dict[str, tuple[str, str]]
    timelines: dict[int, str]
    full: frozenset[str]
    repair: str = ""
    pictures: dict[str, str] = field(default_factory=dict)
    drawings: dict[str, Drawing] = field(default_factory=dict)
    makefiles: Makefiles = field(default_factory=lambda: Makefiles({}))
    bare: Budget = field(default_factory=lambda: Budget(BARE_BYTES))
    detailed: Budget = field(default_factory=lambda: Budget(DETAILED_BYTES))
    brief: Budget = field(default_factory=lambda: Budget(BRIEF_BYTES))


def findings(judged: Judged) -> str:
    """What to do, then all findings, by kind, worst first, and the races and stale reads that they
    hide."""
    all_shared = shared(judged.groups, "group")
    order = [one for kind in judged.kinds for one in all_shared if one.kind == kind]
    behind = shared(judged.hidden, "later")
    shown = prepare(judged, [*order, *behind][:DETAILED_AT_MOST])
    parts = [what_to_do(judged, shown.repair, order)]
    parts += [overview(judged, shown)] if len(judged.kinds) > 1 else []
    if judged.hidden:
        number = counted(len(judged.hidden), "group")
        parts.append(
            f'<p class="note">Behind these, <a href="#then">{number}</a> of races and stale reads'
            " can be seen already.</p>\n"
        )
    for kind in judged.kinds:
        own = [one for one in order if one.kind == kind]
        parts.append(kind_head(kind, *shown.explained[kind]))
        parts.append(f'<p class="key">{KEY}</p>\n' if own and kind in PICTURED else "")
        parts += panels(judged, own, shown)
        if len(own) < len(judged.of_kind(kind)):
            parts.append(f"<p>{WITH_RACES}</p>\n")
    if judged.checked.ungrouped:
        lines = bare_lines(judged.checked.ungrouped, shown.bare, is_open=True)
        parts.append(f"<h2>Findings in no group</h2>\n{lines}")
    if judged.checked.hides and not judged.hidden:
        parts.append(f'<p class="note">{CHECK_AGAIN}</p>\n')
    return "".join([*parts, hidden(judged, behind, shown)])


def hidden(judged: Judged, behind: Sequence[Shared], shown: Shown) -> str:
    """The races and stale reads that the findings hide, as advice."""
    if not behind:
        return ""
    kinds = dict.fromkeys(kind for group in judged.hidden for kind in group.kinds)
    meanings = [meaning(kind, shown.explained[kind][1]) for kind in kinds]
    return "".join([HIDDEN, *meanings, *panels(judged, behind, shown)])


def panels(judged: Judged, those: Sequence[Shared], shown: Shown) -> list[str]:
    """Groups in full or in brief, as far as there is room for them, and how many are left out."""
    parts, left = [], 0
    for one in those:
        text = panel(judged, one, shown) if one.anchor in shown.full else ""
        if not text or not shown.detailed.takes(text):
            text = short_panel(one, judged)
            if not shown.brief.takes(text):
                left += 1
                continue
        parts.append(text)
    if left:
        parts.append(
            f"<p>{counted(left, 'more group')}: <code>mkcheck check -w</code> prints all.</p>\n"
        )
    return parts


def overview(judged: Judged, shown: Shown) -> str:
    """A table of the kinds of findings."""
    rows = []
    for kind in judged.kinds:
        number = sum(finding.kind == kind for finding in judged.findings)
        rows.append(
            f'<tr><td><a href="#{markup(kind)}">{markup(kind)}</a></td>'
            f"<td>{prose(shown.explained[kind][0])}</td>"
            f'<td class="number">{number:,}</td>'
            f'<td class="number">{len(judged.of_kind(kind)):,}</td></tr>'
        )
    return (
        '<table class="kinds"><thead><tr><th>kind</th><th>what it means</th>'
        '<th class="number">findings</th>'
        f'<th class="number">groups</th></tr></thead><tbody>{"".join(rows)}</tbody></table>\n'
    )


def kind_head(kind: str, sentence: str, explanation: str) -> str:
    """The heading of a kind of findings, with its explanation."""
    name = markup(kind)
    return f'<h2 id="{name}">{name}: {prose(sentence)}</h2>\n{meaning(kind, explanation)}'


def meaning(kind: str, explanation: str) -> str:
    """The explanation of a kind of findings, folded."""
    return (
        f"<details><summary>What <code>{markup(kind)}</code> means</summary>"
        f"<pre>{markup(explanation)}</pre></details>\n"
    )


def plans_at_most(judged: Judged, asked: Sequence[Finding]) -> int:
    """For how many of these findings a schedule is asked for. mkcheck goes through the reads of
    their files for each of them."""
    reads = judged.book.reads_of({one.file for one in asked[:PLANS_AT_MOST]})
    return max(PLANS_AT_LEAST, min(PLANS_AT_MOST, READS_AT_MOST // (reads + 1)))


def prepare(judged: Judged, those: Sequence[Shared]) -> Shown:
    """Asks for what else is shown, and draws schedules and graphs of groups in full."""
    groups = [group for one in those for group in one.groups]
    pictured = [(group, kind) for group in groups for kind in group.kinds if kind in PICTURED]
    asked = [one for group, kind in pictured for one in group.of_kind(kind)[:1]]
    asked += [one for group in groups for one in group.of_kind("race")[1:]]
    del asked[plans_at_most(judged, asked) :]
    behind = [kind for group in judged.hidden for kind in group.kinds]
    kinds = dict.fromkeys([*judged.kinds, *behind])
    with (
        plans(judged.checker, judged.book, judged.graph.goals, asked) as plan_of,
        ThreadPoolExecutor(min(4, os.cpu_count() or 1)) as pool,
    ):
        repair = pool.submit(repair_of, judged.checker)
        explained = {kind: pool.submit(judged.checker.explained, kind) for kind in kinds}
        figures = pool.map(partial(timeline, plan_of), asked)
        drawn_plans = {one.number: figure for one, figure in zip(asked, figures)}
    shown = Shown(
        {kind: told.result() for kind, told in explained.items()},
        drawn_plans,
        frozenset(one.anchor for one in those),
        repair.result(),
    )
    for one in those:
        other = lacking(judged, one.first)
        if other:
            first = one.first.findings[0]
            shown.drawings[one.anchor] = around(judged.graph, first.reader, other, first.file)
    texts = drawn(list(shown.drawings.values()))
    shown.pictures = dict(zip(shown.drawings, texts))
    return shown


def lacking(judged: Judged, group: Group) -> str:
    """The prerequisite that the first finding of a group lacks; nothing where it lacks none."""
    missing = group.missing()
    if not group.findings or not (missing or group.kind in PICTURED):
        return ""
    file = group.findings[0].file
    if missing:
        return file if file in missing else missing[0]
    return judged.book.provider(file, judged.graph)


def panel(judged: Judged, one: Shared, shown: Shown) -> str:
    """A group in full."""
    group = one.first
    parts = [sentences(one)]
    if group.line is not None:
        missing = judged.missing_words(group)
        parts.append(shown.makefiles.excerpt(group.file, group.line, missing))
    parts.append(remedy(group, judged))
    figures = [shown.timelines.get(finding.number, "") for finding in one.findings]
    figures.append(graph_around(one, shown))
    parts.append(f'<div class="show">{"".join(figures)}</div>' if any(figures) else "")
    parts.append(left_undrawn(one, shown))
    parts.append(bare_lines(one.findings, shown.bare))
    return f'<section class="panel" id="{one.anchor}">{"".join(parts)}</section>\n'


def left_undrawn(one: Shared, shown: Shown) -> str:
    """How many races, and which stale read, have no schedule on the page."""
    races = [each for group in one.groups for each in group.of_kind("race")]
    stale = [each for group in one.groups for each in group.of_kind("stale")[:1]]
    left = [each for each in [*races, *stale] if each.number not in shown.timelines]
    if not left:
        return ""
    some = counted(len(left), "more finding")
    return (
        f'<p class="soft">No schedule is drawn for {some}: <code>mkcheck check -e'
        f" {left[0].number}</code> prints that of finding {left[0].number}.</p>"
    )


def sentences(one: Shared) -> str:
    """The sentences of a group, at its place."""
    more = [f"<h3>{prose(clipped(group.sentence))}</h3>" for group in one.groups[1:]]
    head = f"<h3>{place_of(one.first)}{prose(clipped(one.first.sentence))}</h3>"
    return "".join([head, *more])


def remedy(group: Group, judged: Judged) -> str:
    """What mends a group."""
    if group.adds:
        return "".join(
            f"<h4>Add to {markup(shortened(makefile))}</h4>"
            f'<pre class="add">{clipped_lines(lines)}</pre>'
            for makefile, lines in judged.lines_by_makefile(group.adds).items()
        )
    return f"<h4>What to do</h4>{advice(group)}" if group.advice else ""


def advice(group: Group) -> str:
    """What to do where no line mends a group, and the names that its sentence leaves out."""
    if not group.advice:
        return ""
    left_out = list(names_left_out(group))
    lists = f"<pre>{clipped_lines(left_out)}</pre>" if left_out else ""
    return f'<p class="do">{prose(as_sentence(clipped(group.advice)))}</p>{lists}'


def names_left_out(group: Group) -> Iterator[str]:
    """All targets and all files, in lines, where the sentence tells of two and how many more."""
    lists = [("targets", group.targets), ("files", group.files)]
    for word, names in lists[:1] if group.kind == "loose" else lists:
        if len(names) > 2:
            line = f"{word}:"
            for name in names:
                if len(line) + len(name) > COLUMNS:
                    yield line
                    line = f"{word}:"
                line += f" {name}"
            yield line


def short_panel(one: Shared, judged: Judged) -> str:
    """A group without pictures."""
    group = one.first
    by_makefile = judged.lines_by_makefile(group.adds) if group.adds else {}
    adds = "".join(
        f'<pre class="add">{clipped_lines(lines)}</pre>' for lines in by_makefile.values()
    )
    return (
        f'<section class="panel brief" id="{one.anchor}">{sentences(one)}{adds}{advice(group)}'
        "</section>\n"
    )


def bare_lines(findings: Sequence[Finding], budget: Budget, is_open: bool = False) -> str:
    """Findings as `check` prints them, folded."""
    if not findings:
        return ""
    lines: list[str] = []
    for finding in findings:
        line = f"{finding.number}: {finding.text}"
        if not budget.takes(line):
            lines.append(f"… {counted(len(findings) - len(lines), 'more finding')}")
            break
        lines.append(line)
    them = "it" if len(findings) == 1 else "them"
    said = f"{counted(len(findings), 'finding')}, as mkcheck check prints {them}"
    return (
        f"<details{' open' if is_open else ''}><summary>{said}</summary>"
        f'<pre class="bare">{markup(chr(10).join(lines))}</pre></details>'
    )


def timeline(plan_of: Plans, finding: Finding) -> str:
    """The schedule that shows a finding."""
    phases = phases_of(plan_of(finding), finding.reader, finding.file)
    if not phases:
        return ""
    draw = timelines.race if finding.kind == "race" else timelines.stale
    svg, words = draw(finding, phases)
    return (
        f'<figure class="timeline"><h4>A schedule that shows finding {finding.number}</h4>'
        f"<figcaption>{markup(words)}</figcaption>{svg}</figure>"
    )


def graph_around(one: Shared, shown: Shown) -> str:
    """The graph around the first finding of a group."""
    drawing = shown.drawings.get(one.anchor)
    if drawing is None:
        return ""
    svg = shown.pictures.get(one.anchor, "")
    first = one.findings[0]
    of = f" of finding {first.number}" if len(one.first.findings) > 1 else ""
    inner = f'<div class="scroll">{svg}</div>' if svg else ""
    return (
        f'<figure class="around {look_of(svg)}"><h4>The missing prerequisite{of}</h4>'
        f"<figcaption>What {markup(shortened(first.reader))} lacks is dashed and red.</figcaption>"
        f'{inner}<div class="list">{as_list(drawing)}</div></figure>'
    )
