"""What a recipe asks for that no file holds and that is another one another time: servers, what
processes hand to each other without files, what the kernel counts or tells of the machine, random
numbers, and the order in which processes of one recipe go on."""

from __future__ import annotations

import os
import re
import shutil
import stat
from collections.abc import Iterator

from mkcheck_tools.answers.graphs import Recipe
from mkcheck_tools.judge.notes import Kind, Note
from mkcheck_tools.judge.refusals import listed
from mkcheck_tools.trace.accesses import Accesses

# What the kernel counts or draws anew, and no replay can find otherwise.
COUNTED = re.compile(
    r"/proc/(?:loadavg|uptime|meminfo|stat|vmstat|diskstats|interrupts|schedstat|zoneinfo"
    r"|pressure/\w+|sys/kernel/random/\w+|sys/fs/file-nr|net/dev)"
)
# What tells of the machine.
OF_MACHINE = re.compile(
    r"/proc/(?:cpuinfo|version|sys/kernel/(?:osrelease|ostype|version|hostname))"
)
LOOPBACK = re.compile(r"(?:127\.[0-9.]+|::1), port (\d+)")
# Random numbers of few values, which two runs may have in common.
RANDOM = re.compile(
    r"(\bsrand\(\s*\)|\bshuf\b|\bsort\s+(?:-\S+\s+)*(?:-\w*R\w*|--random-sort))"
)
OF_BASH = re.compile(r"(\$\{?S?RANDOM\b|\(\(.*\bS?RANDOM\b)")
SEED = "--random-source"
# The clock of bash, which asks the kernel itself.
CLOCK = re.compile(r"(\$\{?EPOCH(?:SECONDS|REALTIME)\b|\bEPOCHSECONDS\b|%\([^()]*\)T\b)")
# Options by which compilers write code for the processor that is here, and the programs that do.
NATIVE = re.compile(r"(?<!\S)-m(?:arch|tune|cpu)=native(?!\S)|(?<!\S)target-cpu=native(?!\S)")
COMPILERS = re.compile(
    r"cc1\w*|f951|lto1|gnat1|d21|rust1|(?:.+-)?clang(?:\+\+)?(?:-[0-9.]+)?|rustc|icp?x|nvc.*"
)
# Commands that take away what they may not write.
FORCED = re.compile(
    r"\bcp\b(?:\s+\S+)*?\s+(?:-[a-zA-Z]*f|--force|--remove-destination)|\bg?install\b"
)
# The command that tells the umask.
UMASK = re.compile(r"(?:^|[;&|({`]|\bdo|\bthen|\belse)\s*umask(?:\s+-[Sp]+)*\s*(?=[;&|)}`>]|$)")
# The shell that has no variable of that name.
PLAIN_SHELL = "dash"


def unsteady(recipe: Recipe, accesses: Accesses) -> Iterator[Note]:
    """Notes on a recipe that asks for such things."""
    target = recipe.target
    front = f"the recipe of {target}"
    for server in servers(accesses):
        text = (
            f"{front} asks {server}: what that does or answers isn't recorded, so no make notices"
            " where it changes; let the recipe do without it"
        )
        yield Note(target, Kind.SERVER, text)
    for channel in accesses.channels:
        text = (
            f"{front} uses {channel}, which is no file: what it finds or leaves there isn't"
            " recorded, so no make notices where it changes; let recipes hand on files"
        )
        yield Note(target, Kind.CHANNEL, text)
    counted = [path for path in accesses.reads if COUNTED.fullmatch(path)]
    if counted:
        text = (
            f"{front} reads {listed(counted)}, which the kernel counts: if what it writes goes by"
            " that, it is another one each time; let the recipe do without it"
        )
        yield Note(target, Kind.COUNTED, text)
    told = [path for path in accesses.reads if OF_MACHINE.fullmatch(path)]
    if told:
        text = (
            f"{front} reads {listed(told)}, which tells of this machine: no make notices when that"
            " changes; let it take what it needs from a file"
        )
        yield Note(target, Kind.MACHINE, text)
    root = accesses.tree.root
    beside = [path[len(root) + 1 :] for path in accesses.beside if accesses.tree.has(path)]
    if beside:
        text = (
            f"processes of the recipe of {target} write {listed(beside)} side by side: which of"
            " them comes first may be another one each time, which two runs needn't show; let each"
            " write a file of its own, and join these in a fixed order"
        )
        yield Note(target, Kind.BESIDE, text)
    yield from of_unwaited(recipe, accesses)
    yield from of_read_only(recipe, accesses)
    yield from of_machine(recipe, accesses)
    asked = words_of_bash(recipe, CLOCK)
    if asked:
        text = (
            f"{front} asks for the time ({asked}), which no run shows where it is coarse: no make"
            " notices when that changes; let it take what it needs from a file"
        )
        yield Note(target, Kind.CLOCK, text)
    drawn = drawing(recipe)
    if drawn:
        text = (
            f"{front} draws random numbers ({drawn}): what it writes may be another one each time,"
            " which two runs needn't show; let it begin with a fixed seed"
        )
        yield Note(target, Kind.RANDOM, text)


def of_unwaited(recipe: Recipe, accesses: Accesses) -> Iterator[Note]:
    """A note on a recipe for whose processes nobody waits, though they write files that stay, or
    take away some. What processes write side by side has a note already."""
    root = accesses.tree.root
    lasting = {*accesses.writes, *accesses.lost} - accesses.beside.keys()
    names = [path[len(root) + 1 :] for path in accesses.unwaited if path in lasting]
    if names:
        text = (
            f"the recipe of {recipe.target} doesn't wait for the process that writes"
            f" {listed(names)}: it ended in time here, and may still write in another make when"
            " the recipe has ended; let the shell wait for it (`wait`), or start it without `&`"
        )
        yield Note(recipe.target, Kind.UNWAITED, text)


def of_read_only(recipe: Recipe, accesses: Accesses) -> Iterator[Note]:
    """A note on a recipe that opens a file to write it, and leaves it read-only: root may do so
    again, and no other user. Those see it fail in its replay."""
    if os.geteuid() != 0 or any(FORCED.search(command.text) for command in recipe.commands):
        return
    anew = {*accesses.moved, *accesses.missed, *accesses.lost}
    for path in accesses.made:
        owner = accesses.tree.owners.get(path)
        if path in accesses.writes and path not in anew and accesses.tree.has(path):
            if owner is not None and not owner.mode & stat.S_IWUSR:
                name = path[len(accesses.tree.root) + 1 :]
                text = (
                    f"the recipe of {recipe.target} leaves {name} read-only, and opens it to write"
                    " it: a second time that fails for any user but root; let it begin with rm -f"
                    f" {name}"
                )
                yield Note(recipe.target, Kind.READ_ONLY, text)


def of_machine(recipe: Recipe, accesses: Accesses) -> Iterator[Note]:
    """Notes on a recipe that goes by the processor, or by the umask."""
    target, texts = recipe.target, [command.text for command in recipe.commands]
    programs = (os.path.basename(path) for path in accesses.reads)
    native = next((found[0] for text in texts if (found := NATIVE.search(text))), None)
    if native is not None and any(map(COMPILERS.fullmatch, programs)):
        text = (
            f"the recipe of {target} compiles for the processor that is here ({native}): on another"
            " machine it writes something else, and no make notices that; name a processor"
        )
        yield Note(target, Kind.MACHINE, text)
    if any(map(UMASK.search, texts)):
        text = (
            f"the recipe of {target} asks for the umask: no make notices when that changes; let it"
            " set the umask itself (umask 022)"
        )
        yield Note(target, Kind.VARIABLES, text)


def servers(accesses: Accesses) -> Iterator[str]:
    """The servers that a recipe asked, but for those of its own processes."""
    for server in accesses.servers:
        found = LOOPBACK.fullmatch(server)
        if found is None or f"the port {found[1]}" not in accesses.ports:
            yield server


def drawing(recipe: Recipe) -> str:
    """The word of a recipe's commands by which it draws random numbers; nothing where none does."""
    own = words_of_bash(recipe, OF_BASH)
    for command in recipe.commands:
        for match in RANDOM.finditer(command.text):
            if SEED not in command.text:
                return match[1]
    return own


def words_of_bash(recipe: Recipe, wanted: re.Pattern[str]) -> str:
    """A word of a recipe's commands that a plain shell doesn't know; nothing where there is none,
    or only such a shell runs them."""
    shell = os.path.basename(os.path.realpath(shutil.which(recipe.shell.split()[0]) or ""))
    for command in recipe.commands:
        found = wanted.search(command.text)
        if found is not None and (shell != PLAIN_SHELL or "bash" in command.text):
            return found[1]
    return ""
