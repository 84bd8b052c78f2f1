"""`since`: the files of an old build to remove before the new one is made."""

from __future__ import annotations

from answers import finding_value, refusal_value, shown
from judge import Finding, Subject
from lines import Refused, is_plain_path
from reading import Files, Found
from repair import printed
from request import Request, prepared
from sentences import in_sentences, in_words_with_cause

WORDS = b"words"
OPTIONS = b"options"
BOOK = b"footprint.json"
OLD = b"this is the old build, in %b: begin with a clean build\n"
# Findings with which an old build is taken all the same, by the word that names them. The word
# after that is the recipe that reads.
DOUBTS = (b"race", b"stale")
NOTHING_KEPT = (
    b"there is no makefile of an old build in %b: mkcheck-record --keep DIR keeps one; "
    b"begin with a clean build\n"
)


class Below:
    """The files of a folder, by their names in it."""

    def __init__(self, files: Files, folder: bytes) -> None:
        self.files = files
        self.folder = folder

    def read(self, name: bytes) -> Found:
        return self.files.read(below(self.folder, name))

    def why(self, name: bytes) -> bytes:
        return self.files.why(below(self.folder, name))


def below(folder: bytes, name: bytes) -> bytes:
    """The name of a file of a folder, as seen from outside."""
    return folder + (b"" if folder.endswith(b"/") else b"/") + name


def old_words(files: Files, request: Request) -> list[bytes]:
    """The words of the old build: the lines of its file, or those of now."""
    found = files.read(WORDS)
    if found is None:
        return request.words
    if found == "failed":
        raise Refused(35, WORDS, name="FileReadFailed")
    for number, line in enumerate(found.split(b"\n"), 1):
        try:
            line.decode("utf-8")
        except UnicodeDecodeError:
            raise Refused(27, where=b"words:%d" % number, name="BadGoal")
    return [line for line in found.split(b"\n") if line]


def options_in(text: bytes) -> dict[bytes, bytes]:
    """The options in a text, each with what stands after it."""
    lines = text.split(b"\n")
    found: dict[bytes, bytes] = {}
    while lines:
        number, option = text.count(b"\n") + 2 - len(lines), lines.pop(0)
        name = lines.pop(0) if option == b"-f" and lines else b""
        if option == b"-f" and name and option not in found:
            if name == b"-" or not is_plain_path(name):
                raise bad_option(number + 1, name)
        elif option not in (b"", b"-r"):
            raise bad_option(number, option)
        found[option] = name
    return found


def bad_option(number: int, line: bytes) -> Refused:
    """The refusal of a line of the options."""
    return Refused(27, where=b"%b:%d" % (OPTIONS, number), about=line)


def old_request(files: Files, request: Request) -> Request:
    """What is asked of the old build: by its own words and options, or by those of now."""
    old = Request([request.command, "DIR", "-b", "B"])
    old.take(old_words(files, request))
    found = files.read(OPTIONS)
    if found == "failed":
        raise Refused(35, OPTIONS, name="FileReadFailed")
    old.flags, old.values = set(request.flags), {**request.values, "b": BOOK}
    if found is not None:
        options = options_in(found)
        old.flags = request.flags - {"r"} | ({"r"} if b"-r" in options else set())
        old.values.pop("f", None)
        if b"-f" in options:
            old.values["f"] = options[b"-f"]
    return old


def old_subject(files: Files, request: Request) -> Subject:
    """The old build, which these files hold."""
    old = old_request(files, request)
    graph, book, passed_over = prepared(old, files)
    return Subject(graph, book, passed_over)


def seen_from_outside(fault: Refused, folder: bytes) -> Refused:
    """A refusal of the old build. What is a file there has its folder before it."""
    if fault.name == "BadMakefileName":
        return fault
    words = list(fault.words)
    if fault.number in (32, 35, 37, 38):
        words = [below(folder, name) for name in words]
    where = None if fault.where is None else below(folder, fault.where)
    near = None if fault.shown is None else below(folder, fault.shown)
    return Refused(
        fault.number, *words, where=where, name=fault.name, about=fault.about, near=near
    )


def is_file(subject: Subject, file: bytes) -> bool:
    """Whether a file is one of a build: it is given, or a recipe writes it."""
    return subject.there.is_given(file) or file in subject.writers


def was_file(old: Subject, file: bytes) -> bool:
    """Whether a file is one of the old build."""
    makefile = old.rules.makefile
    return file in old.there.sources or file in makefile.texts or file in old.writers


def doubtful_files(old: Subject, readers: set[bytes]) -> set[bytes]:
    """The files of the old build that may be wrong though all its makes have ended: those that
    these recipes write, and then, as long as there are more, each whose recipe reads one of
    them."""
    doubtful: set[bytes] = set()
    while True:
        more = {
            file
            for file, writers in old.writers.items()
            for writer in writers
            if writer in readers or not doubtful.isdisjoint(old.reads(writer))
        }
        if more == doubtful:
            return doubtful
        doubtful = more


def doubted(old: Subject, found: list[Finding]) -> set[bytes]:
    """The recipes of the old build that are doubted, by its races and stale reads."""
    readers = {finding[1] for finding in found}
    doubtful = doubtful_files(old, readers)
    return readers | {
        recipe for recipe in old.recipes if not doubtful.isdisjoint(old.reads(recipe))
    }


def cant_stay(old: Subject, new: Subject, doubts: set[bytes], recipe: bytes) -> bool:
    """Whether what a recipe of the new build wrote before can't stay. The old build's recipes in
    `doubts` are doubted."""
    return (
        recipe not in old.recipes
        or recipe in doubts
        or old.commands[recipe].texts != new.commands[recipe].texts
        or set(old.writes(recipe)) != set(new.writes(recipe))
        or set(old.reads(recipe)) != set(new.reads(recipe))
        or any(file in new.rules.makefile.texts for file in old.reads(recipe))
    )


def is_always_made(subject: Subject, recipe: bytes) -> bool:
    node = subject.node(recipe)
    return node.phony or any(subject.node(name).phony for name in node.prerequisites)


def named(old: Subject, new: Subject, doubts: set[bytes]) -> list[bytes]:
    """The files to remove, where these recipes of the old build are doubted."""
    found = [file for file in old.writers if not is_file(new, file)]
    for recipe in new.recipes:
        if not is_always_made(new, recipe) and cant_stay(old, new, doubts, recipe):
            found += [file for file in new.writes(recipe) if was_file(old, file)]
    return sorted(set(found))


def refused(request: Request, files: Files, fault: Refused) -> bytes:
    """What is printed where the old build is refused."""
    if request.in_json:
        return shown({**refusal_value(fault, files), "build": "old", "source": None})
    line = in_words_with_cause(fault, files) if request.in_words else fault.line()
    if fault.number == 37:
        return line + b"\n" + NOTHING_KEPT % request.folder
    return line + b"\n" + OLD % request.folder


def told(request: Request, found: list[Finding], build: str) -> bytes:
    """What is printed of a build with findings."""
    if request.in_json:
        findings = [finding_value(0, 0, words) for words in found]
        for finding in findings:
            del finding["number"], finding["group"]
        return shown({"answer": "no", "build": build, "findings": findings, "format": 1})
    return printed(found) + (OLD % request.folder if build == "old" else b"")


def compared(request: Request, files: Files) -> tuple[bytes, int]:
    """What is printed, to whichever stream, and the status."""
    try:
        old = old_subject(Below(files, request.folder), request)
    except Refused as fault:
        return refused(request, files, seen_from_outside(fault, request.folder)), 2
    found = old.findings()
    if any(finding[0] not in DOUBTS for finding in found):
        return told(request, found, "old"), 1
    graph, book, passed_over = prepared(request, files)
    new = Subject(graph, book, passed_over)
    findings = new.findings()
    if findings and request.in_words:
        return in_sentences(new, findings), 1
    if findings:
        return told(request, findings, "new"), 1
    names = named(old, new, doubted(old, found))
    if request.in_json:
        files_named = [name.decode("utf-8") for name in names]
        return shown({"answer": "yes", "files": files_named, "format": 1}), 0
    return b"".join(name + b"\n" for name in names), 0
