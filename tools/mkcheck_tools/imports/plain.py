"""Writes a build as a plain POSIX makefile."""

from __future__ import annotations

import re
import shlex
from dataclasses import dataclass

from mkcheck_tools.answers.graphs import goes_on
from mkcheck_tools.gnu.texts import FAILED_RUN_AGAIN
from mkcheck_tools.imports.builds import Build, Command, Kind, Node, Setting
from mkcheck_tools.run.folders import NAME_AT_MOST

# What a name of a makefile can't hold.
UNWRITABLE = re.compile(r"[\x00-\x20\x7f%*?\[\]:;=#$\\\"'`|&<>()]")
# A name that POSIX keeps for special targets.
SPECIAL = re.compile(r"\.[A-Z_]{3,}")
# mkcheck refuses lines of over 65,536 bytes. The rest is for what is put before a command.
LINE_AT_MOST = 60000
USUAL_SHELLS = (("/bin/sh", "-c"), ("sh", "-c"), ("/usr/bin/sh", "-c"))
STRICT_SHELLS = tuple((words[0], flags) for words in USUAL_SHELLS for flags in ("-ec", "-ce"))
# What may stand in a command that one simple command is, so that `-e` changes nothing.
SIMPLE = re.compile(r"[\w ./,:=@%+-]*")


@dataclass(frozen=True)
class Names:
    """The names of nodes in the makefile: their own, or stand-ins where they can't be written."""

    written: dict[str, str]

    def __getitem__(self, name: str) -> str:
        return self.written[name]

    @property
    def stand_ins(self) -> dict[str, str]:
        """The nodes whose names aren't their own."""
        return {name: word for name, word in self.written.items() if name != word}


def names_of(build: Build) -> Names:
    """Finds a name for each node that the goals reach; no two share one."""
    nodes = dict.fromkeys([*build.reached(later=False), *build.reached(later=True)])
    written = {name: name for name in nodes if is_writable(name)}
    taken = set(written)
    for name in nodes:
        if name not in written:
            front = written[name] = unused(stand_in(name), taken)
            taken.add(front)
    for name in list(nodes):
        written[order_name(name)] = unused(f"{written[name]}@order", taken)
        taken.add(written[order_name(name)])
    return Names(written)


def order_name(name: str) -> str:
    """The key of the node that stands for the order-only prerequisites of a node; no node has this
    name."""
    return f"{name}\0order"


def is_writable(name: str) -> bool:
    """Whether a makefile can hold a name: it is one word, and each file has one such spelling."""
    if UNWRITABLE.search(name) or SPECIAL.fullmatch(name):
        return False
    if len(name.encode("utf-8", "replace")) > NAME_AT_MOST:
        return False
    parts = name.removeprefix("/").split("/")
    return name != "-" and name != ".WAIT" and "" not in parts and "." not in parts


def stand_in(name: str) -> str:
    """A writable name that resembles one that isn't."""
    text = UNWRITABLE.sub(lambda found: f"@{ord(found.group()):02x}", name)
    text = re.sub(r"/(?=/|$)|(?<=/)\.(?=/|$)", "@", text)
    if not text.strip("/") or text in (".", "-") or SPECIAL.fullmatch(text):
        text = f"{text.strip('/') or '@root'}@"
    return text[:4000]


def unused(front: str, taken: set[str]) -> str:
    """A name that begins so and isn't taken."""
    number, name = 1, front
    while name in taken:
        number += 1
        name = f"{front}{number}"
    return name


def makefile(build: Build, later: bool, names: Names | None = None) -> str:
    """The makefile of the first build, or of later builds, in which late prerequisites are normal
    ones.

    Its first target is the goal; where there are several goals that is a phony target which needs
    them all.
    """
    names = names or names_of(build)
    reached = build.reached(later)
    tool = build.tool or "a build"
    lines = [f"# Written by mkcheck-import for {tool}. Don't edit it."]
    lines += [FAILED_RUN_AGAIN] if build.runs_failed_again else []
    lines += [".POSIX:", ".SUFFIXES:"]
    phony = [names[name] for name in reached if is_phony(build, name)]
    goal = goal_name(names)
    if len(build.goals) > 1:
        phony.append(goal)
    lines += [f".PHONY: {name}" for name in phony]
    if len(build.goals) > 1:
        lines += rule(goal, [[names[name] for name in build.goals]])
    for name in dict.fromkeys([*build.goals, *reached]):
        node = build.nodes.get(name)
        if node is not None and node.has_rule:
            lines += entry(node, later, names)
        elif names[name] != name:
            lines.append(f"{names[name]}:")  # No such file is there, so it needs a rule.
    return "\n".join(lines) + "\n"


def goal_name(names: Names) -> str:
    """The name of the target that needs all goals, where there are several."""
    return unused("goals@", set(names.written.values()))


def goal_of(build: Build, names: Names) -> str:
    """The goal of the makefile."""
    return names[build.goals[0]] if len(build.goals) == 1 else goal_name(names)


def is_phony(build: Build, name: str) -> bool:
    """Whether a name stands for a phony node."""
    node = build.nodes.get(name)
    return node is not None and node.kind is Kind.PHONY


def entry(node: Node, later: bool, names: Names) -> list[str]:
    """The lines of one target, whose own come first, since the first target is the goal."""
    gone = set(node.first_only) if later else set()
    seen = {node.name}
    groups: list[list[str]] = []
    for group in node.groups:
        groups.append([])
        for name in group:
            if name not in gone and name not in seen:
                seen.add(name)
                groups[-1].append(names[name])
    order = [names[name] for name in dict.fromkeys(node.order_only) if name not in seen]
    word = names[order_name(node.name)]
    if order:
        groups = [[word, *groups[0]], *groups[1:]] if groups else [[word]]
    if later:
        late = [names[name] for name in dict.fromkeys(node.late) if name not in seen]
        groups = [*groups[:-1], [*(groups[-1] if groups else []), *late]]
    lines = rule(names[node.name], groups)
    if node.varies and node.commands:
        lines.append("\t: $?")
    lines += [command_line(command, node.setting) for command in node.commands]
    return [*lines, *(rule(word, [order]) if order else [])]


def rule(name: str, groups: list[list[str]]) -> list[str]:
    """The rule line; a long one as several, whose prerequisites make joins."""
    words: list[str] = []
    for group in groups:
        if group:
            words += [*([".WAIT"] if words else []), *group]
    lines, line = [], f"{name}:"
    for word in words:
        if len(line) + len(word) > LINE_AT_MOST // 4:
            lines.append(line)
            line = f"{name}:"
        line += " " + word
    return [*lines, line]


def command_line(command: Command, setting: Setting) -> str:
    """The line of one command, which runs it from the root as the build tool runs it."""
    text = shell_text(command, setting)
    lines = text.replace("$", "$$").split("\n")
    return "\t" + ("-" if command.ignored else "") + "\n\t".join(lines)


def shell_text(command: Command, setting: Setting) -> str:
    """What `/bin/sh -e` has to run in the root, so that the command runs in its folder, shell and
    environment."""
    front = f"cd {shlex.quote(setting.folder)}; " if setting.folder != "." else ""
    if setting.unset:
        front += f"unset {' '.join(setting.unset)}; "
    if setting.exports:
        exports = " ".join(f"{name}={quoted(value)}" for name, value in setting.exports)
        front += f"export {exports}; "
    text = command.text
    if setting.shell in STRICT_SHELLS and is_one_line(text):
        return front + ("" if not command.ignored else "set -e; ") + text
    if setting.shell in USUAL_SHELLS and is_one_line(text):
        if not command.ignored and not SIMPLE.fullmatch(text):
            front += "set +e; "
        return front + plain_front(text, front)
    return front + "exec " + " ".join(map(quoted, [*setting.shell, text]))


def plain_front(text: str, front: str) -> str:
    """The text, so that its first byte isn't taken for a prefix of make."""
    return text if front or not text.lstrip()[:1] in ("@", "-", "+") else f": ; {text}"


def is_one_line(text: str) -> bool:
    """Whether a text is one line of a makefile: each of its newlines has a backslash that makes it
    go on."""
    *lines, last = text.split("\n")
    return all(map(goes_on, lines)) and not goes_on(last)


def quoted(text: str) -> str:
    """A word of the shell with this value, on one line of a makefile. Newlines at its end are
    lost."""
    if "\n" not in text:
        return shlex.quote(text)
    lines = " ".join(shlex.quote(line) for line in text.split("\n"))
    return f"\"$(printf '%s\\n' {lines})\""


def printf_format(text: str) -> str:
    """A word of the shell by which `printf` writes a text."""
    return shlex.quote(text.replace("\\", "\\\\").replace("%", "%%").replace("\n", "\\n"))
