"""The rule to which a line of a makefile belongs."""

from __future__ import annotations

import re

from mkcheck_tools.answers.graphs import goes_on

# What may stand between the lines of a recipe: comments, and conditionals of GNU make.
BETWEEN = re.compile(r"\s*(?:#|(?:ifeq|ifneq|ifdef|ifndef|else|endif)\b)")


def rule_line(lines: list[str], line: int | None) -> int | None:
    """The line that begins the rule whose recipe, or whose rule line, a line is."""
    if line is None or not 1 <= line <= len(lines):
        return line
    number = line
    while number > 1 and is_within(lines, number):
        number -= 1
    return line if is_within(lines, number) or ":" not in lines[number - 1] else number


def is_within(lines: list[str], number: int) -> bool:
    """Whether a line doesn't begin a rule: one of a recipe, an empty one, a comment, a line of a
    conditional, or one that goes on with the line before it."""
    text = lines[number - 1]
    goes = number > 1 and goes_on(lines[number - 2])
    return goes or text.startswith("\t") or not text.strip() or bool(BETWEEN.match(text))


def pattern_rule(lines: list[str], line: int | None) -> str:
    """The pattern rule whose recipe, or whose rule line, a line is, as its makefile spells it;
    nothing where that is another rule."""
    number = rule_line(lines, line)
    if number is None or not 1 <= number <= len(lines):
        return ""
    parts = [lines[number - 1]]
    while goes_on(parts[-1]) and number < len(lines):
        parts.append(lines[number])
        number += 1
    rule = " ".join(" ".join(part.removesuffix("\\") for part in parts).split())
    rule = rule.partition(";")[0].partition("#")[0].strip()
    return rule if "%" in rule.partition(":")[0] and ":" in rule else ""
