"""What GNU make says when it is asked again: in a folder that is built, or for another goal.

The commands of a recipe are to be the same each time, since one footprint stands for all its runs.
"""

from __future__ import annotations

import functools
import os
import re
import shlex
import time

from mkcheck_tools.gnu.remade import is_dependency_file
from mkcheck_tools.imports.builds import path_name
from mkcheck_tools.imports.database import Rule
from mkcheck_tools.imports.gnumake import Make, is_harmless, options_of
from mkcheck_tools.imports.own_folders import essential, essential_texts

# By how many nanoseconds files that the build made are older than sources.
OLDER = 1_000_000
# A time that is older than that of any file of a project.
OLD = 1
# What differs where the commands don't.
ENVIRONMENT = "another environment"
# How much of a command is quoted.
SHORT = 80
# What ends the words of a command, as far as a text shows that; a name by which one begins; words
# of the shell that come before one.
OPERATOR = re.compile(r"[;&|<>(){}\n]")
COMMAND = re.compile(r"[\w./+-]+")
KEYWORDS = frozenset("if then else elif while until do time exec in case for".split())
# What hides where a word ends, or that a command hasn't begun; and words that are handed on as they
# are, but for quotes.
HIDING = re.compile(r"`|\$\(|<<|[<>]&?[^;&|<>(){}\n]*$")
UNEXPANDED = re.compile(r"[\w ./,:=@%+'\"-]*")


def touch_sources(root: str, folder: str, makes: list[Make], made: set[str]) -> None:
    """Gives a new time to all files in a folder that targets need and that no rule makes.

    `root` is the path at which the makes saw the folder, and `made` has the files that the build
    made: these are older than sources, and newer than all else. What a makefile is remade from
    keeps its time, unless that makefile is a dependency file. A target that needs nothing which was
    touched gets an old time.
    """
    left = {name for make in makes for name in for_makefiles(root, folder, make)}
    names: dict[str, None] = {}
    for make in makes:
        rules = (rule for rules in make.base.rules.values() for rule in rules)
        for word in dict.fromkeys(word for rule in rules for word in rule.needs):
            if not any(is_made(rule) for rule in make.base.rules.get(word, [])):
                names.setdefault(path_name(root, make.folder, word))

    @functools.cache
    def is_real(path: str) -> bool:
        return os.path.realpath(path) == path

    def is_inside(name: str) -> bool:
        """Whether a name is that of a file in the folder, which no link leads to."""
        path = os.path.join(folder, name)
        is_own = not name.startswith("/") and is_real(os.path.dirname(path))
        return is_own and not os.path.islink(path) and os.path.isfile(path)

    now = time.time_ns()
    touched = {name for name in names if name not in left and is_inside(name)}
    for name in touched:
        stamp = now - OLDER if name in made else now
        os.utime(os.path.join(folder, name), ns=(stamp, stamp))
    left.update(path_name(root, make.folder, text) for make in makes for text in make.makefiles)
    for make in makes:
        for name in untouched(root, make, touched):
            if name not in left and is_inside(name):
                os.utime(os.path.join(folder, name), (OLD, OLD))


def untouched(root: str, make: Make, touched: set[str]) -> list[str]:
    """The files that a make made from prerequisites, and that stay up to date when the files
    `touched` get new times."""
    users: dict[str, list[str]] = {}
    for name, rules in make.base.rules.items():
        for word in (word for rule in rules for word in rule.needs):
            users.setdefault(word, []).append(name)
    waiting = [
        name
        for name in {*users, *make.base.rules}
        if path_name(root, make.folder, name) in touched
        or any(rule.is_phony for rule in make.base.rules.get(name, []))
    ]
    reached = set(waiting)
    while waiting:
        more = [name for name in users.get(waiting.pop(), []) if name not in reached]
        reached.update(more)
        waiting += more
    return [
        path_name(root, make.folder, name)
        for name, rules in make.base.rules.items()
        if name not in reached and any(rule.ran and rule.needs for rule in rules)
    ]


def is_made(rule: Rule) -> bool:
    """Whether a rule makes its target, or has prerequisites for it."""
    return rule.recipe is not None or rule.ran or bool(rule.needs)


def for_makefiles(root: str, folder: str, make: Make) -> set[str]:
    """What a make needs for the makefiles that it makes anew, but for dependency files."""
    found: set[str] = set()
    waiting = [
        name
        for name in make.makefiles
        if any(rule.has_recipe for rule in make.base.rules.get(name, []))
        and not is_dependency_file(os.path.join(folder, path_name(root, make.folder, name)))
    ]
    while waiting:
        for rule in make.base.rules.get(waiting.pop(), []):
            for word in [*rule.needs, *rule.order_only]:
                name = path_name(root, make.folder, word)
                if name not in found:
                    found.add(name)
                    waiting.append(word)
    return found


def changed(used: list[Make], asked: list[Make]) -> list[tuple[Make, Rule, str]]:
    """The rules whose commands are others in makes that were asked again: the make, the rule as it
    was used, and what differs."""
    ran: dict[tuple[object, ...], list[Rule]] = {}
    for make in used:
        for name, rules in make.base.rules.items():
            if any(rule.ran for rule in rules):
                ran.setdefault((make.key, name), rules)
    found: dict[tuple[str, str], tuple[Make, Rule, str]] = {}
    for make, old in paired(used, asked):
        for name, rules in make.base.rules.items():
            before = ran.get((old.key, name), [])
            what = difference(before, rules, old.transcript.is_one_shell)
            if not what and old.key != make.key and before and any(rule.ran for rule in rules):
                what = ENVIRONMENT
            if what:
                found.setdefault((make.folder, name), (old, before[0], what))
    return list(found.values())


def paired(used: list[Make], asked: list[Make]) -> list[tuple[Make, Make]]:
    """The makes that were asked again, each with the one that it stands for: the one that is
    started in the same way, else that in another environment, else that with other values of its
    macros, in the order in which they are started."""
    known = {make.key: make for make in reversed(used)}
    alike = {make.key[:2]: make for make in reversed(used)}
    counted = {key: make for key, make in zip(counted_keys(used), used)}
    found = []
    for key, make in zip(counted_keys(asked), asked):
        old = known.get(make.key) or alike.get(make.key[:2]) or counted.get(key)
        if old is not None:
            found.append((make, old))
    return found


def counted_keys(makes: list[Make]) -> list[tuple[object, ...]]:
    """For each make its folder, its options and macros without their values, and how many such
    makes came before."""
    counts: dict[tuple[object, ...], int] = {}
    found: list[tuple[object, ...]] = []
    for make in makes:
        options = (word for word in options_of(make.words) if not is_harmless(word))
        named = (word if word[0] == "-" else word.partition("=")[0] for word in options)
        key = (make.folder, *sorted(named))
        counts[key] = counts.get(key, 0) + 1
        found.append((*key, counts[key]))
    return found


def difference(used: list[Rule], asked: list[Rule], one_shell: bool = False) -> str:
    """What differs in the commands of a file that was made both times; empty where nothing does.

    Where a recipe is one command, the output of a build may stand behind its text.
    """
    if not any(rule.ran for rule in used) or not any(rule.ran for rule in asked):
        return ""
    if any(rule.varies for rule in used):
        return ""
    old = [command for rule in used for command in essential(rule)]
    new = [command for rule in asked for command in essential(rule)]
    for (one, shown), (other, shown_again) in zip(old, new):
        is_cut = one_shell and one.startswith(other + "\n")
        if not (is_cut or is_same_to_shell(one, other)):
            return " and not ".join(f"`{text}`" for text in contrasted(other, one))
        if shown.watched != shown_again.watched:
            return ENVIRONMENT
    return "" if len(old) == len(new) else f"{len(new)} and not {len(old)}"


def other_needs(used: list[Make], asked: list[Make]) -> list[tuple[Make, Rule, str]]:
    """The rules with the same commands and other prerequisites in makes that were asked again: the
    make, the rule, and the prerequisites that differ."""
    found = []
    for make, old in paired(used, asked):
        for name, rules in make.base.rules.items():
            before = old.base.rules.get(name, [])
            for one, other in zip(before, rules):
                is_run = one.ran and other.ran and not one.is_phony and not one.varies
                texts = [essential_texts([rule]) for rule in (one, other)]
                if is_run and texts[0] == texts[1] and set(one.needs) != set(other.needs):
                    words = sorted(set(one.needs) ^ set(other.needs))
                    found.append((old, one, short(" ".join(words))))
    return found


def place_of(root: str, make: Make, rule: Rule) -> tuple[str, str]:
    """Where a rule of a make stands, and the file that it makes, from the root."""
    makefile = rule.makefile or next(iter(make.makefiles), "the makefile")
    where = path_name(root, make.folder, makefile)
    name = path_name(root, make.folder, rule.name)
    return (where if rule.line is None else f"{where}:{rule.line}"), name


def is_same_to_shell(one: str, other: str) -> bool:
    """Whether two commands are one, or only quote some of their words otherwise, as `-DX=''` and
    `-DX=`: those words hold nothing that the shell expands, and are none by which a command
    begins."""
    if one == other:
        return True
    words, others = one.split(" "), other.split(" ")
    front = len(os.path.commonprefix([words, others]))
    rest = len(os.path.commonprefix([words[front:][::-1], others[front:][::-1]]))
    middles = [" ".join(own[front : len(own) - rest]) for own in (words, others)]
    text = " ".join(words[:front])
    begun = OPERATOR.split(text)[-1].split()
    if not begun or not COMMAND.fullmatch(begun[0]) or begun[0] in KEYWORDS:
        return False
    if HIDING.search(text) or not all(map(UNEXPANDED.fullmatch, middles)):
        return False
    try:
        shlex.split(text)
        first, second = map(shlex.split, middles)
    except ValueError:
        return False
    return first == second


def contrasted(one: str, other: str) -> tuple[str, str]:
    """Two commands that differ; long ones from the first word that differs."""
    lists = [one.split(), other.split()]
    if max(len(" ".join(words)) for words in lists) > SHORT:
        pairs = enumerate(zip(*lists))
        at = next((at for at, (mine, its) in pairs if mine != its), min(map(len, lists)))
        lists = [["..", *words[at:]] if at else words for words in lists]
    return short(" ".join(lists[0])), short(" ".join(lists[1]))


def short(text: str) -> str:
    """The beginning of a command."""
    text = " ".join(text.split())
    return text if len(text) <= SHORT else f"{text[: SHORT - 3]}.."
