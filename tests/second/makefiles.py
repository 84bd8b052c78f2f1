"""Random makefiles: rules with what stands around them, and near misses."""

from __future__ import annotations

import enum
from random import Random
from typing import Literal

from texts import expression, macro_line, near_miss, torn

PLAIN = [b"a", b"b", b"c", b"d", b"e", b"f", b"g", b"h"]
OBJECTS = [b"a.o", b"b.o", b"c.o", b"d/a.o", b"x.tar.o", b"a", b"d/e", b"prog"]
MIXED = [
    b"all",
    b"p",
    b"a.o",
    b"a.c",
    b"b.o",
    b"b.y",
    b"b.c",
    b"h.h",
    b"d/x",
    b"../up",
    b"/opt/t",
    b"run.sh",
    b"run",
    b".hid",
    b"\xc3\xa9.o",
    b"-x",
    b".c",
    b".c.o",
    b"Q.PL",
]
LEAVES = [b"a.c", b"b.c", b"c.c", b"d/a.c", b"h.h", b"b.y", b"b.sh", b"prog.c", b"/usr/k.h"]
SUFFIXES = [b".o", b".c", b".sh", b".y", b".x", b".hid"]
COMMANDS = [
    b"cc -c $<",
    b"touch $@",
    b"$(CC) -o $@ $^",
    b"@echo $(@D) $(@F) $*",
    b"-rm -f $+",
    b"$(CC) $(CFLAGS) -c $(<F) # $$x",
    b"cp $< $@; \\",
    b"#not a comment",
    b"ar r $@ $(?F)",
    b"ld $(^:.o=.x) $(@:%.o=%.z)",
    b"$(X) $(Y) $(Z)",
    b"  spaced  ",
    b"echo '\\#' \\\\",
    b"$(OUT)",
    b"t ${@D}/${*F} $(*D) $(+D) $(<D)",
    b"x \xff y",
    b"mk ${^F} $(+F:a=b)",
]


class Folder(enum.Enum):
    """What stands for a folder, where files have bytes."""

    FOLDER = "folder"


FOLDER = Folder.FOLDER
Contents = bytes | Folder
# A line, with the command lines, comments and empty lines behind it.
Block = list[bytes]


class Project:
    """A makefile in pieces, and the files that it includes."""

    def __init__(self, rng: Random) -> None:
        self.rng = rng
        self.lines: list[bytes] = []
        self.files: dict[bytes, Contents] = {}
        self.targets: list[bytes] = []
        self.names: list[bytes] = []
        self.macros = 0
        self.made: set[bytes] = set()
        self.crossing = False
        self.inferring = False

    def chance(self, share: float) -> bool:
        return self.rng.random() < share

    def add(self, line: bytes) -> None:
        self.lines.append(line)


def readable(files: dict[bytes, Contents]) -> dict[bytes, bytes | Literal["failed"]]:
    """The files, of which folders can't be read."""
    return {name: "failed" if data is FOLDER else data for name, data in files.items()}


class WithoutFolders:
    """A project as the reading sees it."""

    def __init__(self, project: Project) -> None:
        self.files = readable(project.files)
        self.names = project.names
        self.crossing = project.crossing
        self.inferring = project.inferring


def spread(project: Project, names: list[bytes], macros: bool = True) -> bytes:
    """A text that expands to these words, by a macro that is defined before, or as it stands."""
    rng = project.rng
    text = b" ".join(names)
    if not macros or not names or project.chance(0.75):
        return text
    project.macros += 1
    name = b"M%d" % project.macros
    kind = rng.randrange(5)
    if kind == 0 and all(one.endswith(b".o") for one in names):
        project.add(name + b" = " + b" ".join(one[:-2] + b".q" for one in names))
        return b"$(" + name + rng.choice([b":.q=.o)", b":%.q=%.o)"])
    if kind == 1 and all(one.startswith(b"d/") for one in names):
        project.add(name + b" = " + b" ".join(one[2:] for one in names))
        return b"${" + name + b":%=d/%}"
    if kind == 2:
        project.add(name + b"x = " + text)
        project.add(b"K%d = %b" % (project.macros, b"x"))
        return b"$(" + name + b"$(K%d))" % project.macros
    project.add(macro_line(rng, name, rng.choice([b"=", b"::=", b":::=", b"?="]), text))
    return b"$(" + name + b")"


def prerequisites(project: Project, later: list[bytes]) -> list[bytes]:
    """Some words for a rule line."""
    rng = project.rng
    chosen = [rng.choice(later) for _ in range(rng.choice([0, 1, 1, 2, 2, 3, 4]))] if later else []
    out = []
    for name in chosen:
        if project.chance(0.15):
            out.append(b".WAIT")
        out.append(name)
    if project.chance(0.03):
        out.append(b".WAIT")
    return out


def commands(project: Project, line: bytes, targets: list[bytes], share: float = 0.8) -> None:
    """A rule line with its commands behind it."""
    rng = project.rng
    again = any(target in project.made for target in targets)
    if not project.chance(share) or again and project.chance(0.97):
        project.add(line)
        return
    project.made.update(targets)
    body = []
    for _ in range(rng.choice([1, 1, 1, 2, 3])):
        command = expression(rng, 1, safe=True) if project.chance(0.1) else rng.choice(COMMANDS)
        if b"$(?" in command and project.chance(0.7) or b"\xff" in command and project.chance(0.9):
            command = b"touch $@"
        body.append(command)
    if project.chance(0.12):
        line += rng.choice([b";", b" ; ", b" ;\t"]) + (b"" if project.chance(0.2) else body.pop(0))
    project.add(line)
    for command in body:
        if project.chance(0.05):
            project.add(rng.choice([b"", b"# comment", b"\t", b"  # a: b"]))
        project.add(b"\t" + command)


def rules(project: Project) -> None:
    """Rule lines over an ordered list of names, so that most have no cycle."""
    rng = project.rng
    pool = list(rng.choice([PLAIN, OBJECTS, MIXED, OBJECTS + LEAVES[:4], PLAIN + OBJECTS[:3]]))
    if project.chance(0.5):
        rng.shuffle(pool)
    pool = pool[: rng.randint(1, 9)]
    leaves = [name for name in rng.sample(LEAVES, rng.randint(1, 4)) if name not in pool]
    project.names = list(dict.fromkeys(pool + leaves))
    for place, target in enumerate(pool):
        if place and project.chance(0.2):
            continue
        later = pool[place + 1 :] + leaves
        if project.chance(0.01):
            later = project.names
        rule_of(project, target, later)


def rule_of(project: Project, target: bytes, later: list[bytes]) -> None:
    rng = project.rng
    project.targets.append(target)
    targets = [target]
    if later and project.chance(0.05):
        targets.append(rng.choice(later))
    share = 0.8 if not target.startswith(b".") else 0.95
    left = spread(project, targets)
    colon = rng.choice([b":", b":", b":", b" :", b": "])
    words = (
        [] if target in (b".c", b".c.o") and project.chance(0.9) else prerequisites(project, later)
    )
    right = spread(project, words)
    commands(project, left + colon + (b" " + right if right else b""), targets, share)
    if project.chance(0.2):
        more = spread(project, prerequisites(project, later))
        project.add(target + b": " + more)


def special_lines(project: Project) -> None:
    rng = project.rng
    names = project.names or PLAIN
    if project.chance(0.35):
        project.add(b".PHONY: " + b" ".join(rng.sample(names, rng.randint(1, min(3, len(names))))))
    if project.chance(0.08):
        project.add(b".NOTPARALLEL:")
    if project.chance(0.1):
        project.add(
            rng.choice(
                [
                    b".POSIX:",
                    b".IGNORE: a",
                    b".SILENT:",
                    b".PRECIOUS: a.o b",
                    b".WAIT:",
                    b".IGNORE:",
                    b".SILENT: zz",
                    b".PHONY:",
                ]
            )
        )
    if project.chance(0.15):
        if project.chance(0.3):
            project.add(b".SUFFIXES:")
        chosen = rng.sample(SUFFIXES, rng.randint(1, 4))
        project.add(b".SUFFIXES: " + spread(project, chosen))


def inference_rules(project: Project) -> None:
    rng = project.rng
    for _ in range(rng.choice([0, 0, 0, 1, 1, 2, 3])):
        first, second = rng.choice(SUFFIXES), rng.choice(SUFFIXES + [b"", b""])
        if first != second or project.chance(0.05):
            commands(project, first + second + b":", [first + second], 0.9)
    if project.chance(0.1):
        project.add(b".SUFFIXES: " + b" ".join(rng.sample(SUFFIXES, rng.randint(1, 3))))


def macros(project: Project) -> None:
    rng = project.rng
    for name in rng.sample([b"X", b"Y", b"Z", b"OUT", b"CC", b"CFLAGS"], rng.randint(0, 4)):
        text = rng.choice([b"x", b"-O2 -g", b"$(W)", b"a.c b.c", b"$$v", b"$(@F)", b"", b" t "])
        project.add(macro_line(rng, name, None, text))


def shuffled_blocks(project: Project) -> list[Block]:
    """The lines in another order, each with the command lines behind it."""
    blocks: list[Block] = []
    for line in project.lines:
        if line[:1] in (b"\t", b"#", b"", b" ") and blocks:
            blocks[-1].append(line)
        else:
            blocks.append([line])
    return blocks


def included(project: Project, blocks: list[Block]) -> None:
    """Some neighbouring blocks move to a file that is included in their place."""
    rng = project.rng
    for number in range(rng.choice([0, 0, 0, 1, 1, 2])):
        if not blocks:
            break
        start = rng.randrange(len(blocks))
        stop = min(len(blocks), start + rng.randint(0, 3))
        name = b"inc%d.mk" % number
        project.files[name] = b"".join(
            line + b"\n" for block in blocks[start:stop] for line in block
        )
        line = rng.choice([b"include ", b"-include ", b"include  \t", b" include "]) + name
        if project.chance(0.15):
            line += b" " + rng.choice([b"inc0.mk", b"$(EMPTY)", b"inc0.mk"])
        blocks[start:stop] = [[line]]
    if project.chance(0.08):
        missing = [
            rng.choice(
                [
                    b"-include gone.d",
                    b"-include a.d b.d",
                    b"-include $(EMPTY) c.d",
                    b"include gone.mk",
                ]
            )
        ]
        blocks.insert(rng.randint(0, len(blocks)), missing)


def written(project: Project, blocks: list[Block]) -> bytes:
    """The text of the blocks, with comments and joined lines."""
    rng = project.rng
    out = []
    for block in blocks:
        for line in block:
            if project.chance(0.03):
                line += rng.choice(
                    [b" # comment", b"# c", b"#", b" \\# x" if line[:1] == b"\t" else b" #"]
                )
            if project.chance(0.06):
                line = torn(rng, line)
            out.append(line + b"\n")
        if project.chance(0.08):
            out.append(
                rng.choice([b"\n", b"# comment\n", b" \t\n", b"\t\n", b"#\\\nx: y\n", b"\\\n\n"])
            )
    text = b"".join(out)
    return text[:-1] if project.chance(0.03) else text


def structural(rng: Random, valid: bool) -> Project:
    """A makefile of rules; most are without fault, and all of them where `valid`."""
    project = Project(rng)
    macros(project)
    if project.chance(0.5):
        special_lines(project)
        rules(project)
    else:
        rules(project)
        special_lines(project)
    inference_rules(project)
    blocks = shuffled_blocks(project)
    if project.chance(0.3):
        head = blocks[: len(blocks) // 2]
        rng.shuffle(head)
        blocks[: len(blocks) // 2] = head
    included(project, blocks)
    if not valid and project.chance(0.25):
        line = near_miss(rng, project.names)
        blocks.insert(rng.randint(0, len(blocks)), [line])
    project.files[b"makefile"] = written(project, blocks)
    return project


def mutated(rng: Random, project: Project) -> Project:
    """A byte or some of one text changed, left out, doubled or put in."""
    name = rng.choice(sorted(project.files))
    data = project.files[name]
    assert isinstance(data, bytes)
    text = bytearray(data)
    for _ in range(rng.choice([1, 1, 2, 4])):
        place = rng.randint(0, len(text))
        kind = rng.randrange(4)
        if kind == 0:
            text[place:place] = rng.choice(
                [
                    b":",
                    b"=",
                    b";",
                    b"#",
                    b"$",
                    b"(",
                    b")",
                    b"{",
                    b"}",
                    b"\\",
                    b"\n",
                    b"\t",
                    b" ",
                    b"$(",
                    b"${",
                    b"\\\n",
                    b"::",
                    b":=",
                    b"!",
                    b"?",
                    b"+",
                    b"%",
                    b"*",
                    b"\0",
                    b"\xff",
                    b"\r",
                    b"\x0b",
                    b"\xc2\xa0",
                    b"./",
                    b"/",
                    b"..",
                    b".",
                    b"$$",
                    b"$@",
                    b"`",
                    b"|",
                    b"include ",
                    b"\n\t",
                    b".WAIT ",
                    b".PHONY:",
                    b".DEFAULT:",
                    b"\\#",
                    b"\n ",
                    b"~",
                ]
            )
        elif kind == 1:
            del text[place : place + rng.choice([1, 1, 2, 5])]
        elif kind == 2:
            text[place:place] = text[place : place + rng.randint(1, 12)]
        else:
            text[place : place + 1] = bytes([rng.randrange(256)])
    project.files[name] = bytes(text)
    return project
