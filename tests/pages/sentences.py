"""Holds the table of sentences in docs/COMMANDS.md to what `mkcheck check -w` prints.

For each row there are small builds with one to three names and files. What the row says, filled in,
has to be printed, with the lines to add or the advice below it. A row that no build makes is wrong,
and so is a build that no row tells of. Where findings hide races and stale reads, the line that the
page has for that comes last, or, with one more recipe, the stale read of that one.
"""

from __future__ import annotations

import json
import re
import subprocess
import tempfile
from collections.abc import Callable, Iterator
from dataclasses import dataclass, replace
from pathlib import Path

ROOT = Path(__file__).resolve().parents[2]
PAGE = ROOT / "docs" / "COMMANDS.md"
HEAD = "| word | sentence | `add:` | `do:` |\n|---|---|---|---|\n"
THEN = "once these are mended, as far as can be seen now:"
MORE = "once these are mended, check again: races and stale reads may show"
ONE = "1 finding in 1 group; 1 line mends it\n"
UNKNOWN = "unexpected argument '-w'"
# What stands before a sentence, and how it is written below.
PLACE, PLACED = re.compile(r"^makefile(:\d+)?: ", re.MULTILINE), "FILE:LINE: "
COUNTS = (1, 2, 3)
Record = tuple[str, list[str], list[str]]


@dataclass(frozen=True)
class Row:
    """A row of the table."""

    word: str
    sentence: str
    add: str
    do: str

    @property
    def has_writer(self) -> bool:
        """Whether the sentence names a recipe S that the lines name too."""
        return self.add == "R: S"


@dataclass(frozen=True)
class Build:
    """A makefile, sources, and for each record target, reads and writes; and what the group says:
    its names, its files, and the recipe S."""

    makefile: str
    sources: list[str]
    records: list[Record]
    names: list[str]
    files: list[str]
    writer: str = ""

    def book(self, command: str) -> str:
        """The footprints; each recipe has this command."""
        records = [
            {"target": target, "commands": [command], "reads": reads, "writes": writes}
            for target, reads, writes in self.records
        ]
        value = {"format": 1, "fixed": [], "sources": self.sources, "records": records}
        return json.dumps(value)


def rows_of(page: str) -> list[Row]:
    """The rows of the table."""
    at = page.find(HEAD)
    if at < 0:
        return []
    table = page[at + len(HEAD) :].split("\n\n")[0]
    found = [
        [cell.strip().strip("`") for cell in line.strip("|").split("|")]
        for line in table.splitlines()
    ]
    return [Row(*cells) for cells in found if len(cells) == 4]


def numbered(front: str, count: int) -> list[str]:
    """The text `front` with each number from 0 on, as many as `count` says."""
    return [f"{front}{number}" for number in range(count)]


def rules(names: list[str], words: str = "") -> str:
    """Rules with a command each."""
    return "".join(f"{name}: {words}\n\tmk\n" for name in names)


def gathered(*names: str) -> str:
    """The first rule, which gathers others."""
    return f"all: {' '.join(names)}\n"


def alone(
    records: Callable[[list[str]], list[Record]],
) -> Callable[[list[str], list[str]], Build]:
    """Recipes with these records, which nothing else needs."""

    def build(names: list[str], files: list[str]) -> Build:
        return Build(gathered(*names) + rules(names), [], records(names), names, files)

    return build


def varying(names: list[str], files: list[str]) -> Build:
    """Recipes that use `$?`."""
    makefile = gathered(*names) + "".join(f"{name}:\n\tmk $?\n" for name in names)
    return Build(makefile, [], [(name, [], [name]) for name in names], names, files)


def needed(names: list[str], files: list[str]) -> Build:
    """Recipes that don't write their targets, which another recipe needs."""
    makefile = rules(["p"], " ".join(names)) + rules(names)
    records: list[Record] = [(name, [], []) for name in names]
    return Build(makefile, [], [("p", [], ["p"]), *records], names, files)


def writers(names: list[str], files: list[str]) -> Build:
    """Two recipes that write the same files."""
    records: list[Record] = [(one, [], [one, *files]) for one in ("a", "b")]
    return Build(gathered("a", "b") + rules(["a", "b"]), [], records, ["a"], files, "b")


def given(names: list[str], files: list[str]) -> Build:
    """Recipes that write sources."""
    records: list[Record] = [(name, [], [name, *files]) for name in names]
    return Build(gathered(*names) + rules(names), files, records, names, files)


def own(names: list[str], files: list[str]) -> Build:
    """Recipes that read what they write."""
    records: list[Record] = [(name, files, [name, *files]) for name in names]
    return Build(gathered(*names) + rules(names), [], records, names, files)


def reading(names: list[str], files: list[str], sources: list[str]) -> Build:
    """Recipes that read files of which the makefile says nothing."""
    records: list[Record] = [(name, files, [name]) for name in names]
    return Build(gathered(*names) + rules(names), sources, records, names, files)


def unknown(names: list[str], files: list[str]) -> Build:
    """Recipes that read files of unknown origin."""
    return reading(names, files, [])


def unreached(names: list[str], files: list[str]) -> Build:
    """Recipes that read what a recipe writes which the goals don't reach."""
    records: list[Record] = [(name, files, [name]) for name in names]
    makefile = gathered(*names) + rules([*names, "maker"])
    return Build(makefile, [], [*records, ("maker", [], ["maker", *files])], names, files, "maker")


def stale(names: list[str], files: list[str]) -> Build:
    """Recipes that read sources."""
    return reading(names, files, files)


def unwritable(names: list[str], files: list[str]) -> Build:
    """Recipes that read sources with names that a makefile can't hold."""
    return stale(names, [f"{file}:{file}" for file in files])


def loose(names: list[str], files: list[str]) -> Build:
    """Names without recipes, which recipes write; here the files are recipes."""
    bare = "".join(f"{name}:\n" for name in names)
    records: list[Record] = [(file, [], [file, *names]) for file in files]
    return Build(gathered(*files, *names) + bare + rules(files), [], records, names, files)


def both(names: list[str], files: list[str]) -> Build:
    """Recipes that read what other recipes write."""
    records: list[Record] = [(name, files, [name]) for name in names]
    records += [(file, [], [file]) for file in files]
    return Build(gathered(*names, *files) + rules(names + files), [], records, names, files)


def phony(build: Build) -> Build:
    """The build in which the names are phony, so that nothing is stale."""
    records = [
        (target, reads, [] if target in build.names else writes)
        for target, reads, writes in build.records
    ]
    makefile = f"{build.makefile}.PHONY: {' '.join(build.names)}\n"
    return replace(build, makefile=makefile, records=records)


def race(names: list[str], files: list[str]) -> Build:
    """Such recipes, which are phony."""
    return phony(both(names, files))


def beside(names: list[str], files: list[str], wait: str) -> Build:
    """Recipes that read files which another recipe writes beside its target."""
    records: list[Record] = [("s", [], ["s", *files]), *((name, files, [name]) for name in names)]
    makefile = gathered("s", wait, *names) + rules(["s", *names])
    return Build(makefile, [], records, names, files, "s")


def side_both(names: list[str], files: list[str]) -> Build:
    """Such recipes, in any order."""
    return beside(names, files, "")


def side_race(names: list[str], files: list[str]) -> Build:
    """Such recipes, which are phony."""
    return phony(side_both(names, files))


def side_stale(names: list[str], files: list[str]) -> Build:
    """Such recipes, behind `.WAIT`."""
    return beside(names, files, ".WAIT")


def selection(names: list[str], files: list[str]) -> Build:
    """A name that an inference rule makes of a file once a recipe has written that."""
    makefile = ".SUFFIXES: .o .c .s\n.c.o:\n\tmk\n.s.o:\n\tmk\nall: gen .WAIT x.o\n" + rules(
        ["gen"]
    )
    records: list[Record] = [("gen", [], ["gen", "x.c"]), ("x.o", ["x.s"], ["x.o"])]
    return Build(makefile, ["x.s"], records, ["x.o"], ["x.c"])


# For each word, whether there is a recipe S, and whether lines mend it, a build of names and files.
BUILDS: list[tuple[str, bool, bool, Callable[[list[str], list[str]], Build]]] = [
    ("record", False, False, alone(lambda names: [])),
    ("commands", False, False, alone(lambda names: [(name, [], [name]) for name in names])),
    ("varying", False, False, varying),
    ("target", False, True, alone(lambda names: [(name, [], []) for name in names])),
    ("target", False, False, needed),
    ("writers", False, False, writers),
    ("given", False, False, given),
    ("own", False, False, own),
    ("unknown", False, False, unknown),
    ("unknown", True, True, unreached),
    ("loose", False, True, loose),
    ("race", False, True, race),
    ("race", True, True, side_race),
    ("stale", False, True, stale),
    ("stale", False, False, unwritable),
    ("stale", True, True, side_stale),
    ("race, stale", False, True, both),
    ("race, stale", True, True, side_both),
    ("selection", False, False, selection),
]


def shown(names: list[str]) -> str:
    """Names as a sentence has them."""
    if len(names) < 3:
        return " and ".join(names)
    return f"{names[0]}, {names[1]} and {len(names) - 2} more"


def filled(template: str, build: Build, join: Callable[[list[str]], str]) -> str:
    """What a cell of the table says of a build."""

    def chosen(found: re.Match[str], count: int) -> str:
        return found[1] if count == 1 else found[2]

    text = re.sub("<([^/<>]*)/([^<>]*)>", lambda found: chosen(found, len(build.names)), template)
    text = re.sub(
        r"\[([^/\[\]]*)/([^\[\]]*)\]", lambda found: chosen(found, len(build.files)), text
    )
    words = {"R": join(build.names), "F": join(build.files), "S": build.writer}
    return re.sub(r"\b[RFS]\b", lambda found: words[found[0]], text)


def expected(row: Row, build: Build, has_lines: bool) -> str:
    """The text of the group."""
    told = f"{PLACED}{filled(row.sentence, build, shown)} [{row.word}]\n"
    if has_lines:
        return f"{told}  add: {filled(row.add, build, ' '.join)}\n"
    files = build.files if re.search(r"\bF\b", row.sentence) else []
    lists = "".join(
        f"  {told}: {' '.join(names)}\n"
        for told, names in (("targets", build.names), ("files", files))
        if len(names) > 2
    )
    return f"{told}  do: {filled(row.do, build, shown)}\n{lists}"


def with_stale(build: Build, command: str) -> Build:
    """The build, and a recipe beside it that reads a source of which the makefile says nothing."""
    goal = "all" if "all:" in build.makefile else "p"
    makefile = f"{build.makefile}both: {goal} z\nz:\n\t{command}\n"
    records: list[Record] = [*build.records, ("z", ["z.h"], ["z"])]
    return Build(makefile, [*build.sources, "z.h"], records, ["z"], ["z.h"])


def checked(mkcheck: str, build: Build, command: str, *goals: str) -> str:
    """What `check -w` prints of a build."""
    with tempfile.TemporaryDirectory() as folder:
        Path(folder, "makefile").write_text(build.makefile, encoding="utf-8")
        Path(folder, "B").write_text(build.book(command), encoding="utf-8")
        done = subprocess.run(
            [mkcheck, "check", "-w", "-b", "B", *goals],
            cwd=folder,
            capture_output=True,
            text=True,
            check=False,
        )
    return done.stdout or done.stderr


def tried(mkcheck: str, rows: list[Row]) -> Iterator[tuple[str, str, str]]:
    """For each build a text that is expected, the text that comes last, and what is printed."""
    of_stale = (row for row in rows if (row.word, row.has_writer) == ("stale", False))
    row_of_stale = next(of_stale, Row("stale", "", "", ""))
    for word, has_writer, has_lines, make in BUILDS:
        command = "other" if word == "commands" else "mk"
        row = next((row for row in rows if (row.word, row.has_writer) == (word, has_writer)), None)
        if row is None or not (row.add if has_lines else row.do):
            lacking = f"a row of `{word}` {'with lines' if has_lines else 'with advice'}"
            yield lacking, "", "nothing\n"
            continue
        is_hiding = word not in ("race", "stale", "race, stale")
        for names in COUNTS:
            for files in COUNTS:
                build = make(numbered("t", names), numbered("f", files))
                text = expected(row, build, has_lines)
                yield text, f"{MORE}\n" if is_hiding else "", checked(mkcheck, build, command)
                if is_hiding:
                    more = with_stale(build, command)
                    last = f"{THEN}\n{expected(row_of_stale, more, True)}{ONE}"
                    yield text, last, checked(mkcheck, more, command, "both")


def unmade(rows: list[Row]) -> Iterator[str]:
    """What the table says and no build makes."""
    made = {(word, has_writer, has_lines) for word, has_writer, has_lines, _ in BUILDS}
    for row in rows:
        for has_lines, cell in ((True, row.add), (False, row.do)):
            if cell and (row.word, row.has_writer, has_lines) not in made:
                yield f"no build tries `{cell}` of `{row.word}`"


def wrong_sentences(mkcheck: str) -> int:
    """Prints where `mkcheck check -w` and docs/COMMANDS.md differ, and tells how many times."""
    page = PAGE.read_text(encoding="utf-8")
    rows = rows_of(page)
    if not rows:
        print("docs/COMMANDS.md: no table of sentences")
        return 1
    wrong, count = list(unmade(rows)), 0
    unsaid = [line for line in (THEN, MORE) if f"`{line}`" not in page.replace("\n", " ")]
    wrong += [f"nothing says when `{line}` comes" for line in unsaid]
    for text, last, printed in tried(mkcheck, rows):
        if UNKNOWN in printed:
            print("pages: this mkcheck has no `check -w`: its sentences weren't compared")
            return 0
        count += 1
        placed = PLACE.sub(PLACED, printed)
        if f"\n{text}" not in f"\n{placed}" or not placed.endswith(last):
            wrong.append(f"`mkcheck check -w` prints\n{printed}and not\n{text}..\n{last}")
    for said in wrong:
        print(f"docs/COMMANDS.md: {said}")
    print(f"pages: {count} groups in sentences as in docs/COMMANDS.md, but for {len(wrong)}")
    return len(wrong)
