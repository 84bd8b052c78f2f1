"""What a refusal of mkcheck means, in a sentence that says what to do.

docs/FAULTS.md has more of each.
"""

from __future__ import annotations

import os

from mkcheck_tools.run.folders import is_plain_path

IMPORT = "mkcheck-import judges a makefile as GNU make reads it"
# By the number of the refusal. No sentence stands for 41, which has one by what the folder holds.
MEANINGS = {
    1: "the line holds byte 0; save the file again as UTF-8",
    2: "the line is over 65,536 bytes; write several rule lines for the same targets, which add up",
    3: "the makefile has over 65,536 lines; put parts of it into files that it includes",
    11: "the line has no macro name of POSIX: functions such as $(shell ..) are GNU make's",
    12: "the macro stands in its own value; give one of the two another name, or write ::=",
    13: "a reference to a macro has no end; close it by its bracket",
    14: "the line refers to macros too often, or too deep; split the list into several macros",
    15: "a value gets over 1,048,576 bytes; split the list into several macros",
    16: "a $ stands alone; a $ for the shell is written as $$",
    17: "mkcheck doesn't judge members of archives; make the archive anew from its objects",
    21: "mkcheck doesn't judge !=, whose value comes from a shell; let the recipe ask",
    22: "mkcheck doesn't judge :=, which makes read differently; write ::=",
    23: "mkcheck doesn't judge rules with two colons; write one rule for the target",
    24: "mkcheck doesn't judge macros of some targets alone; write the value into their recipes",
    25: (
        "the line is no rule, macro or include of POSIX; commands begin with a tab, not with"
        " spaces; ifeq, define and so on are GNU make's"
    ),
    26: "the command stands below no rule",
    27: "a word of the line is no name: a pattern with %, a * or the like, or a line end CR LF",
    28: "mkcheck doesn't judge members of archives; make the archive anew from its objects",
    29: "mkcheck doesn't judge this special target",
    30: "the special target stands in a form that POSIX doesn't give it",
    31: "a second rule has commands for the target, and makes differ in which they run",
    32: "the makefile includes a file that isn't there; make it first, or write -include",
    33: "files include each other over 15 deep; does one include itself?",
    34: "include stands without a name",
    35: "the file can't be read: a folder, no permission, or over 16,777,216 bytes",
    36: "the makefile includes over 1,024 files; write fewer and longer ones",
    37: "there is no makefile; -f names it, and -C its folder",
    42: "the names need each other in a circle; take out the prerequisite that closes it",
    43: "the goals reach over 4,096 names; record fewer goals at a time",
    44: "the makefile has no target that could be the goal; name one",
    45: "a rule such as .c.o: has prerequisites; give them to the objects by name (a.o b.o: all.h)",
}
# Bytes that names in makefiles can't have, but for those of patterns and quotes.
UNNAMED = ":;=#$\\`|&<>()"
# Language of other makes than POSIX's.
LANGUAGE = (11, *range(21, 32))
WORDS = {
    "goal": "the word is no name of a goal",
    "operand": "the word with = sets no macro",
}


def meaning(number: int, kind: str | None, name: str) -> str:
    """The sentence for a refusal with this number, or nothing. `kind` is what the word of the
    command line is that was refused, if it is one, and `name` the word of the makefile that is no
    name, if that is why."""
    if kind is not None:
        return WORDS[kind]
    sentence = why_no_name(name) if name else MEANINGS.get(number, "")
    return f"{sentence}; {IMPORT}" if number in LANGUAGE else sentence


def why_no_name(word: str) -> str:
    """What is said of a word that is no name of a file."""
    shown = word if word.isprintable() else ascii(word)[1:-1]
    plain = os.path.normpath(word)
    if "\r" in word:
        cause = "the line ends in CR LF; let it end in LF"
    elif word == "|":
        cause = "order-only prerequisites are GNU make's; let recipes make their folders (mkdir -p)"
    elif word == "&":
        cause = "&: is GNU make's; give one target the recipe, and let the others need it"
    elif "%" in word:
        cause = "pattern rules are GNU make's; write a rule such as .c.o:, or one for each target"
    elif any(byte in word for byte in "*?[]"):
        cause = "names in a makefile are no patterns; write the names of the files"
    elif any(byte in word for byte in "\"'"):
        cause = "a makefile has no quotes, and names have no blanks"
    elif plain != word and is_plain_path(plain) and not any(byte in word for byte in UNNAMED):
        cause = f"a file has one spelling; write {plain}"
    else:
        return f"{shown} is no name of a file"
    return f"{shown} is no name of a file: {cause}"
