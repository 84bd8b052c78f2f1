"""The top of a page of a no: what to do, all lines to add, and a list of the groups."""

from __future__ import annotations

from collections.abc import Sequence

from mkcheck_tools.report.escaping import as_sentence, clipped, counted, markup, prose, shortened
from mkcheck_tools.report.judging import Judged
from mkcheck_tools.report.pairs import Shared
from mkcheck_tools.report.parts import Budget, clipped_lines, place_of

LISTED_AT_MOST = 120
LISTED_BYTES = 200_000
SENTENCE_AT_MOST = 300


def what_to_do(judged: Judged, repair: str, those: Sequence[Shared]) -> str:
    """The lines to add, what else to do, and where each group stands on the page."""
    unmended = [one for one in those if not one.first.adds]
    parts = ["<h2>What to do</h2>\n"]
    lines = repair.split("\n") if repair else lines_of(those)
    is_told = judged.above is not None and judged.origins is not None
    if is_told:
        parts.append("<p>The audit above says what to write, and where.</p>\n")
    for number, (makefile, own) in enumerate(judged.lines_by_makefile(lines).items()):
        if is_told:
            break
        if not own:
            continue
        at = f"<code>{markup(shortened(makefile))}</code>"
        if makefile.endswith(".ninja"):
            parts.append(f"<p>Write what is behind colons as inputs (<code>| FILE</code>) in {at}")
        else:
            parts.append(f"<p>Add these lines to the end of {at}")
        parts.append("" if number else promised(judged, repair, len(those) - len(unmended)))
        parts.append(f'.</p>\n<pre class="add all">{clipped_lines(own)}</pre>\n')
    if unmended and not repair:
        said = "For these no line helps:" if lines else "No line that could be added helps:"
        parts.append(f"<p>{said}</p>\n<ul>{items(unmended, is_advice=True)}</ul>\n")
    if len(those) > 1:
        title = counted(len(those), "problem")
        parts.append(
            f"<details open><summary>{title}, the worst first</summary>"
            f"<ol>{items(those, is_advice=False)}</ol></details>\n"
        )
    return "".join(parts)


def promised(judged: Judged, repair: str, mended: int) -> str:
    """What comes of the lines to add, of which `repair` says that with them all is right."""
    if not repair:
        return f". They are for {counted(mended, 'problem')} below; check again then"
    if judged.origins is not None:
        return ". They are for makes after the first one: the import says what that needs too"
    return ": with them the answer is yes. <code>mkcheck repair</code> prints them"


def lines_of(those: Sequence[Shared]) -> list[str]:
    """The lines to add of all groups, each once."""
    return list(dict.fromkeys(line for one in those for line in one.first.adds))


def items(those: Sequence[Shared], is_advice: bool) -> str:
    """Links to groups, with what to do or what is wrong, as far as there is room."""
    budget, parts = Budget(LISTED_BYTES), []
    for one in those[:LISTED_AT_MOST]:
        group = one.first
        kinds = ", ".join(kind for each in one.groups for kind in each.kinds)
        text = as_sentence(group.advice) if is_advice else group.sentence
        told = f"{place_of(group)}{prose(clipped(text, SENTENCE_AT_MOST))}"
        item = f'<li><a href="#{one.anchor}">{markup(kinds)}</a> {told}</li>'
        if not budget.takes(item):
            break
        parts.append(item)
    more = len(those) - len(parts)
    if more:
        parts.append(f'<li class="soft">… {counted(more, "more problem")}</li>')
    return "".join(parts)
