"""What a trace can't show, and so ends a recording: makes, processes that go on, other roots."""

from __future__ import annotations

import os
from collections.abc import Iterable
from pathlib import Path
from typing import Protocol

from mkcheck_tools.answers.graphs import Recipe
from mkcheck_tools.faults import Fault, MakeFault, RecipeFault
from mkcheck_tools.run.places import Place
from mkcheck_tools.trace.accesses import Accesses

MAKE_BUILDS = "its build isn't judged here"


class Shop(Protocol):
    """What is asked of a workshop."""

    @property
    def folder(self) -> str:
        """The project's folder."""

    @property
    def place(self) -> Place:
        """Where the recipes run."""

    @property
    def absent(self) -> frozenset[str]:
        """The targets that aren't copied."""

    @property
    def opaque(self) -> frozenset[str]:
        """The targets whose recipes may start makes."""


def refuse_unseen(recipe: Recipe, accesses: Accesses, left: tuple[str, ...], shop: Shop) -> None:
    """Refuses a recipe of which not all can be seen, or whose work is another make's."""
    target = recipe.target
    if left:
        raise RecipeFault(
            f"the recipe of {target} leaves {listed(left)} running when its command has ended: make"
            " doesn't wait for that, so nothing tells when its files are whole; let the command"
            " wait for it"
        )
    if accesses.strange:
        raise RecipeFault(
            f"the recipe of {target} calls {listed(accesses.strange)}: after that its paths may"
            " lead to other files, which a trace can't tell"
        )
    for name, folder in accesses.makes:
        if target not in shop.opaque:
            raise started_make(target, name, shop.place.real(folder), shop.place)


def refuse_unmade(recipe: Recipe, shop: Shop) -> None:
    """Refuses a target that was there before, and whose content its recipe doesn't make."""
    target = recipe.target
    if target not in shop.absent or shop.place.folder == shop.folder:
        return
    before, after = size_of(os.path.join(shop.folder, target)), size_of(
        os.path.join(shop.place.folder, target)
    )
    if before and not after:
        verb = "doesn't write it" if after is None else "leaves it empty"
        raise RecipeFault(
            f"{target} was there before, and its recipe {verb}, so its content is made by no"
            f" recipe, and a build from nothing lacks it; let the recipe write {target}, or leave"
            " out the rule's commands"
        )


def refuse_pipe(recipe: Recipe, shop: Shop) -> None:
    """Refuses a target that is a pipe or a socket when its recipe has ended."""
    target = recipe.target
    path = Path(shop.place.folder, target)
    what = "a pipe" if path.is_fifo() else "a socket" if path.is_socket() else ""
    if what and target in shop.absent:
        raise RecipeFault(
            f"the recipe of {target} leaves {what} as {target}, which holds nothing that stays, so"
            f" no footprint can name it: let the recipes that use it make it themselves, or let"
            f" {target} be a file beside it (touch {target})"
        )


def size_of(path: str) -> int | None:
    """The size of a file; None where there is none."""
    try:
        return os.stat(path).st_size if os.path.isfile(path) else None
    except OSError:
        return None


def started_make(target: str, name: str, folder: str, place: Place) -> MakeFault:
    """The refusal of a recipe that starts a make."""
    inner = os.path.relpath(folder, place.folder)
    if inner == ".":
        way = "name its goals on the command line of mkcheck-record"
        where = "the folder itself"
    else:
        way = f"record that folder by itself (mkcheck-record -C {inner})"
        where = inner
    fact = f"the recipe of {target} starts {name} in {where}: {MAKE_BUILDS}"
    return MakeFault(fact, f"{way}, or give --opaque {target} to take it as one recipe", inner)


def check_opaque(opaque: Iterable[str], recipes: Iterable[Recipe]) -> None:
    """Refuses an opaque name that is no recipe's: a slip of the keyboard would allow nothing."""
    targets = {recipe.target for recipe in recipes}
    for name in opaque:
        if name not in targets:
            raise Fault(f"--opaque {name}: the goals reach no recipe of that name")


def listed(names: Iterable[str]) -> str:
    """Names in a sentence, of many the first three."""
    texts = list(names)
    more = len(texts) - 3
    return ", ".join(texts[:3]) + (f" and {more} more" if more > 0 else "")
