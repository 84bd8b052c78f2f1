"""Where lines can be added to a makefile so that make reads them as rules of their own."""

from __future__ import annotations

import re
from dataclasses import dataclass

from mkcheck_tools.answers.graphs import goes_on

OPENS = re.compile(r"\s*(?:ifeq|ifneq|ifdef|ifndef)\b")
ELSE = re.compile(r"\s*else\b")
CLOSES = re.compile(r"\s*endif\b")
DEFINES = re.compile(r"\s*(?:(?:override|export)\s+)*define\b(?!\s*[:?+]*=)")
ENDS_DEFINE = re.compile(r"\s*endef\b")
OTHER_PREFIX = re.compile(r"\s*\.RECIPEPREFIX\b")
# What isn't a rule though it may hold a colon: assignments, and directives.
NO_RULE = re.compile(
    r"[^:=]*=|[^:]*:{1,3}=|\s*(?:-?include|sinclude|(?:un)?export|override|private|vpath)\b"
)


@dataclass(frozen=True)
class Layout:
    """The lines of a makefile, without their ends: how deep each stands in conditionals and
    definitions when it ends, and which belong to recipes."""

    lines: list[str]
    depths: list[int]
    recipes: frozenset[int]
    """The numbers of lines of recipes, and of lines that go on with them."""

    has_other_prefix: bool
    """Whether the makefile sets the character that begins commands."""

    @classmethod
    def of(cls, lines: list[str]) -> Layout:
        """The layout of some lines."""
        depths: list[int] = []
        recipes: set[int] = set()
        depth, defining, goes = 0, 0, False
        for number, line in enumerate(lines, 1):
            if goes:
                if number - 1 in recipes:
                    recipes.add(number)
            elif defining:
                defining += bool(DEFINES.match(line)) - bool(ENDS_DEFINE.match(line))
            elif line.startswith("\t"):
                recipes.add(number)
            elif DEFINES.match(line):
                defining = 1
            else:
                depth += bool(OPENS.match(line)) - bool(CLOSES.match(line))
                depth = max(depth, 0)
            goes = goes_on(line)
            depths.append(depth + defining)
        return cls(lines, depths, frozenset(recipes), any(map(OTHER_PREFIX.match, lines)))

    def place_after(self, rule: int | None) -> int | None:
        """The number of the line behind which a line can be added that extends a rule: where its
        recipe ends, and outside of conditionals. None where that is the end of the file, or would
        let the line be the first rule."""
        if rule is None or not 1 <= rule <= len(self.lines) or self.has_other_prefix:
            return None
        if self.first_goal is None or ":" not in self.lines[rule - 1]:
            return None
        place = max(rule, self.first_goal)
        while place < len(self.lines) and not self.is_free(place):
            place += 1
        return place if place < len(self.lines) else None

    def is_free(self, place: int) -> bool:
        """Whether a line can be added behind a line."""
        return (
            self.depths[place - 1] == 0
            and not goes_on(self.lines[place - 1])
            and not self.is_recipe_next(place)
        )

    def is_recipe_next(self, place: int) -> bool:
        """Whether a recipe goes on behind a line, over empty lines, comments and conditionals."""
        for number in range(place + 1, len(self.lines) + 1):
            line = self.lines[number - 1]
            if number in self.recipes:
                return True
            between = (OPENS, ELSE, CLOSES)
            if line.strip() and not line.startswith("#") and not any(map_of(between, line)):
                return False
        return False

    @property
    def first_goal(self) -> int | None:
        """The first line that is the rule of a target that can be the default goal, in each
        reading; None without one."""
        goes = False
        for number, line in enumerate(self.lines, 1):
            is_own = not goes and number not in self.recipes and self.depths[number - 1] == 0
            goes = goes_on(line)
            if is_own and is_goal_rule(line):
                return number
        return None


def map_of(patterns: tuple[re.Pattern[str], ...], line: str) -> list[bool]:
    """Which patterns a line begins with."""
    return [pattern.match(line) is not None for pattern in patterns]


def is_goal_rule(line: str) -> bool:
    """Whether a line begins a rule whose first target can be a goal: no special target, no
    inference rule, no pattern."""
    if ":" not in line or line.startswith("#") or NO_RULE.match(line):
        return False
    target = (line.partition(":")[0].split() or [""])[0]
    is_special = target.startswith(".") and "/" not in target
    return bool(target) and not is_special and "%" not in target
