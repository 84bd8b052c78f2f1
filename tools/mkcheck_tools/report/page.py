"""The page: one HTML file that shows an answer."""

from __future__ import annotations

from collections.abc import Iterable

from mkcheck_tools import VERSION
from mkcheck_tools.answers.refusals import OPERAND, Refusal
from mkcheck_tools.book.note_files import Noted, with_doubts
from mkcheck_tools.judge.notes import Note
from mkcheck_tools.report.escaping import clipped, counted, markup, prose, shortened
from mkcheck_tools.report.judging import Judged
from mkcheck_tools.report.makefiles import Makefiles
from mkcheck_tools.report.panels import findings
from mkcheck_tools.report.parts import Budget, look_of
from mkcheck_tools.report.pictures import (
    EDGES_AT_MOST,
    WHOLE_AT_MOST,
    as_list,
    drawn,
    key,
    reads_found,
    whole,
)
from mkcheck_tools.report.reduced import fitting
from mkcheck_tools.report.style import SCRIPT, STYLE

# As the README has it; a test compares.
PROMISE = (
    "For every number of jobs, every order of steps that make allows, and every list of source"
    " edits, makes of any of the goals, stops between recipes, and recipes that fail or are killed:"
    " after each finished make, every file that a recipe reached from its goals writes holds what a"
    " clean serial build of those goals from the present sources gives."
)
PRESUMED = (
    "It is proved of makefile, goals and footprints. That the real build is as these say is"
    " presumed."
)
UNPROVED = (
    "This mkcheck was built without proving it. One that `make proved` built rests on its proofs."
)
ENDS = (
    "For each read of a file that can change: the way by which a change of the file makes the"
    " recipe run.",
    "Ends: `source`, the file is edited, and is a prerequisite of the last recipe; `written`, the"
    " last recipe writes it; `always`, the last recipe runs in each make.",
)
# How much is shown, so that a page stays small.
LIST_AT_MOST = 120
WAYS_AT_MOST = 10_000
WAYS_BYTES = 2_000_000


def page(judged: Judged, front: str = "") -> str:
    """The page. `front` is markup that stands before all but the head."""
    title = f"mkcheck: {judged.word}, {shortened(judged.original)}"
    if judged.refusal is not None:
        body = refusal(judged)
    elif judged.answer == "yes":
        is_promised = judged.above is None or judged.above.is_plain
        first = promise(judged) if is_promised else ""
        body = first + notes(judged.noted) + ways(judged) + whole_graph(judged)
    else:
        body = findings(judged) + notes(judged.noted) + whole_graph(judged)
    return (
        '<!DOCTYPE html>\n<html lang="en">\n<head>\n<meta charset="utf-8">\n'
        '<meta name="viewport" content="width=device-width, initial-scale=1">\n'
        f"<title>{markup(title)}</title>\n<style>{STYLE}</style>\n</head>\n<body>\n"
        f"<main>\n{head(judged)}{front}{body}</main>\n<script>{SCRIPT}</script>\n</body>\n</html>\n"
    )


def head(judged: Judged) -> str:
    """The answer, and what was judged."""
    said = {
        "yes": with_doubts("parallel and incremental makes build this right", judged.noted),
        "no": judged.counts,
        "refused": "mkcheck gives no answer",
    }[judged.answer]
    if judged.above is not None and not judged.above.is_plain:
        said = judged.above.text
    operands = [word for word in judged.checker.words if "=" in word]
    goals = judged.graph.goals or [word for word in judged.checker.words if "=" not in word]
    left_out = ", without the default text" if "-r" in judged.checker.options else ""
    rows = [
        ("Makefile", judged.original + left_out),
        ("Translated", judged.makefile if judged.origins else ""),
        ("Footprints", judged.checker.book),
        ("Goals", " ".join(goals) or "the first target"),
        ("Macros", " ".join(operands)),
    ]
    if judged.graph.nodes:
        recipes = counted(len(judged.graph.recipes), "recipe")
        rows.append(("Reached", f"{counted(len(judged.graph.nodes), 'name')}, {recipes}"))
    if judged.above is None or judged.above.is_plain:
        rows.append(("Answer", judged.yes))
    rows.append(("Programs", f"{judged.version}, mkcheck-report {VERSION}"))
    listed = "".join(
        f"<dt>{name}</dt><dd>{markup(clipped(value))}</dd>" for name, value in rows if value
    )
    return (
        f'<h1><span class="answer {judged.word}">{judged.word}</span> {markup(said)}</h1>\n'
        f"<dl>{listed}</dl>\n"
    )


def notes(noted: Noted) -> str:
    """What the recorder knew and the footprints can't say: the doubts, then the hints."""
    parts = []
    for title, those in (("Doubts", noted.doubts), ("Hints", noted.hints)):
        if those:
            items = "".join(f"<li>{noted_line(note)}</li>" for note in those[:LIST_AT_MOST])
            more = len(those) - LIST_AT_MOST
            end = f'<p class="soft">… {counted(more, "more note")}</p>' if more > 0 else ""
            parts.append(f"<h3>{title}</h3>\n<ul>{items}</ul>{end}\n")
    if not parts:
        return ""
    about = "What the recorder knew and the footprints can't say. A doubt: a yes may be wrong."
    return f"<h2>Notes of the recording</h2>\n<p>{markup(about)}</p>\n{''.join(parts)}"


def noted_line(note: Note) -> str:
    """A note in a list."""
    return f"<code>{markup(note.kind.word)}</code> {markup(clipped(note.text))}"


def refusal(judged: Judged) -> str:
    """What a refusal means, with its line."""
    refused = judged.refusal
    assert refused is not None
    parts = [f"<h3>{markup(clipped(refused.sentence))}</h3>", line_of(refused, judged)]
    rest = judged.checker.explain(refused.name).partition("\n")[2].strip("\n")
    if rest:
        parts.append(f"<h4>What {refused.name} means</h4><pre>{markup(rest)}</pre>")
    parts.append(f'<p class="soft">mkcheck prints <code>{markup(clipped(refused.text))}</code></p>')
    return f'<h2>Why there is no answer</h2>\n<section class="panel">{"".join(parts)}</section>\n'


def line_of(refused: Refusal, judged: Judged) -> str:
    """The lines of the makefile around a refusal, or the word of the command line."""
    if refused.file is None or refused.line is None:
        return ""
    if refused.is_of_file:
        is_shown = refused.is_shown(judged.makefile)
        return Makefiles({}).excerpt(refused.file, refused.line, []) if is_shown else ""
    words = judged.checker.words
    alike = [word for word in words if ("=" in word) == (refused.file == OPERAND)]
    return "".join(f"<pre>{markup(clipped(word))}</pre>" for word in alike[refused.line - 1 :][:1])


def promise(judged: Judged) -> str:
    """What a yes promises."""
    said = [PROMISE, PRESUMED, *([UNPROVED] if "not proved" in judged.version else [])]
    return f"<h2>What this promises</h2>\n{paragraphs(said)}"


def paragraphs(texts: Iterable[str]) -> str:
    """Texts, each as a paragraph."""
    return "".join(f"<p>{prose(text)}</p>\n" for text in texts)


def ways(judged: Judged) -> str:
    """The table of ways."""
    if not judged.checked.ways:
        return ""
    rows, budget = [], Budget(WAYS_BYTES)
    for way in judged.checked.ways[:WAYS_AT_MOST]:
        path = " → ".join(shortened(name, 100) for name in way.path)
        row = (
            f"<tr><td>{markup(shortened(way.recipe, 200))}</td>"
            f'<td data-of="reads">{markup(shortened(way.file, 200))}</td>'
            f"<td>{markup(way.end)}</td>"
            f'<td data-of="over">{markup(clipped(path))}</td></tr>'
        )
        if not budget.takes(row):
            break
        rows.append(row)
    more = len(judged.checked.ways) - len(rows)
    left = ""
    if more:
        left = f"<p>{counted(more, 'more way')}: <code>mkcheck check</code> prints all.</p>"
    return (
        f"<h2>{counted(len(judged.checked.ways), 'way')}</h2>\n{paragraphs(ENDS)}"
        '<div><table class="ways"><thead><tr><th>recipe</th><th>reads</th><th>end</th>'
        f"<th>over these recipes</th></tr></thead><tbody>{''.join(rows)}</tbody></table></div>\n"
        + left
    )


def whole_graph(judged: Judged) -> str:
    """The whole graph, or a smaller one where it is too large."""
    number = len(judged.graph.nodes)
    if number <= 1:
        return ""
    found = reads_found(judged.checked)
    drawing, said = whole(judged.graph, judged.book, short=True, found=found), ""
    if number > WHOLE_AT_MOST:
        drawing, said = fitting(drawing)
        said = f" {said}"
    if drawing.size > EDGES_AT_MOST:
        left_out = len(drawing.missing) + len(drawing.unlisted)
        said += f" Left out: {counted(left_out, 'read')} of files that aren't listed."
        drawing = drawing.of_prerequisites()
    if len(drawing.edges) > EDGES_AT_MOST:
        said = f"It has {counted(len(drawing.edges), 'edge')}; `mkcheck-report --dot` prints them."
        return f"<h2>The whole graph</h2>\n<p>{prose(said)}</p>\n"
    svg = drawn([drawing])[0]
    inner = f'<div class="scroll">{svg}</div>{key(drawing)}' if svg else ""
    is_open = "" if svg and drawing.size > LIST_AT_MOST else " open"
    return (
        f"<h2>The whole graph</h2>\n<p>{counted(number, 'name')}; each target leads to what it"
        f' needs.{said}</p>\n<div class="{look_of(svg)}">{inner}<details class="list"{is_open}>'
        f"<summary>As a list</summary>{as_list(drawing)}</details></div>\n"
    )
