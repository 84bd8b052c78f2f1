"""The commands of recipes as they are run: their shell, their folder and their environment."""

from __future__ import annotations

import os
import re

from mkcheck_tools.imports.builds import Command, Node, Setting
from mkcheck_tools.imports.cmake import is_beside
from mkcheck_tools.imports.database import OwnMacro, Shown
from mkcheck_tools.imports.gnumake import own_environment
from mkcheck_tools.imports.views import Knowledge, View

NAME = re.compile(r"[A-Za-z_]\w*")


class Commands(Knowledge):
    """Turns commands that make showed into those of nodes."""

    def commands(self, view: View, node: Node, shown: list[Shown]) -> tuple[list[Command], Setting]:
        """The commands as they are run, and how."""
        beside = [command for command in shown if is_beside(command.text)]
        if beside:
            self.build.note(
                "commands of CMake that show progress, touch links, or write makefiles are left out"
            )
            shown = [command for command in shown if not is_beside(command.text)]
        if not shown:
            return [], Setting()
        shells = {(command.shell, command.flags) for command in shown}
        if len(shells) > 1:
            self.build.problem(
                f"{self.place_of(node)}: the commands of {node.name} use several shells, which"
                " isn't translated; use one",
                node.name,
            )
        shell = (shown[0].shell.split() or ["/bin/sh"]) + (shown[0].flags.split() or ["-c"])
        exports, unset = self.environment(view, shown[0])
        setting = Setting(self.short(view.folder), tuple(shell), exports, unset)
        all_ignored = view.make.ignores_failures
        texts = [(self.without_wrapper(one.text), one.ignored or all_ignored) for one in shown]
        return [Command(text, ignored) for text, ignored in texts], setting

    def without_wrapper(self, text: str) -> str:
        """A command in which make goes by its own name."""
        return text.replace(self.wrapper, "make")

    def environment(
        self, view: View, command: Shown
    ) -> tuple[tuple[tuple[str, str], ...], tuple[str, ...]]:
        """The variables of the environment that a make changes for its commands, and those that it
        takes away."""
        inside = own_environment(view.make.environment)
        if not inside:
            return (), ()
        changed = {name: value for name, value in inside.items() if self.outside.get(name) != value}
        for name, value in command.watched:
            if name in inside or name in view.exported:
                changed[name] = value
        gone = (name for name in self.outside if name not in inside)
        exports = ((name, value) for name, value in changed.items() if NAME.fullmatch(name))
        return tuple(sorted(exports)), tuple(sorted(filter(NAME.fullmatch, gone)))


def is_export(macro: OwnMacro, folder: str) -> bool:
    """Whether the line that sets a macro for a target exports it."""
    try:
        with open(os.path.join(folder, macro.makefile), encoding="utf-8", errors="replace") as file:
            line = next((text for number, text in enumerate(file, 1) if number == macro.line), "")
    except OSError:
        return False
    return re.search(rf":.*\bexport\s+.*\b{re.escape(macro.name)}\b", line) is not None
