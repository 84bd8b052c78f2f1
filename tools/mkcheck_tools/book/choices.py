"""What is recorded, as it is asked for: it stands in the state too, for the next update."""

from __future__ import annotations

from dataclasses import dataclass

from mkcheck_tools.judge.trust import Trust
from mkcheck_tools.run.toolchains import fixed_prefixes


@dataclass(frozen=True)
class Choice:
    """What is recorded: the makefile and its reading, prefixes, goals and macros, exceptions.

    An update takes what isn't given anew from the recording before.
    """

    makefile: str | None = None
    bare: bool = False
    """Whether the default text is left out."""

    prefixes: tuple[str, ...] = ()
    words: tuple[str, ...] = ()
    """Goals and macro operands."""

    trusted: tuple[str, ...] = ()
    opaque: tuple[str, ...] = ()
    steady: tuple[str, ...] = ()
    """Single files that never change."""

    @property
    def trust(self) -> Trust:
        """The trusted targets."""
        return Trust.of(self.trusted)

    @property
    def options(self) -> tuple[str, ...]:
        """The options of mkcheck and of make."""
        named = ("-f", self.makefile) if self.makefile is not None else ()
        return (*named, *(("-r",) if self.bare else ()))

    @property
    def operands(self) -> dict[str, str]:
        """The macros that are given."""
        return dict(operand(word) for word in self.words if "=" in word)

    @property
    def goals(self) -> tuple[str, ...]:
        """The goals that are given."""
        return tuple(word for word in self.words if "=" not in word)

    @property
    def fixed(self) -> tuple[str, ...]:
        """All fixed prefixes, with those that needn't be asked for."""
        return tuple(dict.fromkeys([*fixed_prefixes(), *self.prefixes]))

    def over(self, before: Choice) -> Choice:
        """This choice, with what it leaves open as it was before."""
        macros = tuple(word for word in self.words if "=" in word)
        old = tuple(word for word in before.words if "=" in word)
        return Choice(
            self.makefile if self.makefile is not None else before.makefile,
            self.bare or before.bare,
            self.prefixes if self.prefixes or self.steady else before.prefixes,
            (*(macros or old), *(self.goals or before.goals)),
            self.trusted or before.trusted,
            self.opaque or before.opaque,
            self.steady if self.prefixes or self.steady else before.steady,
        )

    def given(self) -> list[str]:
        """The words that ask for it."""
        return [
            *self.options,
            *(word for one in (*self.prefixes, *self.steady) for word in ("--fixed", one)),
            *(word for target in self.trusted for word in ("--trust", target)),
            *(word for target in self.opaque for word in ("--opaque", target)),
            *self.words,
        ]


def operand(word: str) -> tuple[str, str]:
    """The name and the value of a macro operand."""
    name, _, value = word.partition("=")
    return name.rstrip(": \t"), value.lstrip(" \t")
