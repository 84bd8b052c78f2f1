"""Replays recipes while others are still recorded.

Such a replay takes what is known by then of the other recipes, and a guess of the rest: that each
recipe writes its target, and what another one with the same commands wrote, as those of a rule with
several targets do. In the end it is compared with what is known then, and a replay for which
anything differs counts for nothing. So the outcomes are those of replays that begin when all is
recorded.

The recording has to find what a make would find, and a replay is another process. So recipes that
have to do with other processes, as by locks, are replayed in the end, and so are those that use
names of their own choice in folders for temporary files, where replays can't be kept apart. Other
names there are random. Where a recipe that is recorded uses such a name all the same, all is
recorded once more, without replays beside it.
"""

from __future__ import annotations

import contextlib
import functools
import os
import tempfile
import threading
from collections.abc import Callable, Iterable, Iterator, Mapping
from concurrent import futures
from concurrent.futures import Future, ThreadPoolExecutor
from dataclasses import dataclass, field
from typing import Any

from mkcheck_tools.replay.alike import Way, way_of
from mkcheck_tools.replay.halves import size_of_target
from mkcheck_tools.replay.replays import WAITING, Begun, Replay, Started, processors
from mkcheck_tools.replay.runs import Ahead, Lookahead, wait_for_clock
from mkcheck_tools.replay.worlds import Trial, World
from mkcheck_tools.run import places
from mkcheck_tools.run.memory import Memory, memory
from mkcheck_tools.run.paths import Name, RealPath, SeenPath, seen_in, unbound
from mkcheck_tools.run.places import DEVICES, TEMPORARY
from mkcheck_tools.run.progress import Progress
from mkcheck_tools.trace.accesses import Accesses

PROCESSES = "/proc"
# What is said of replays that are waited for.
EARLY = "a replay that began early"
# How long a wait goes on before signals are looked for, in seconds.
MOMENT = 0.2
Writers = Mapping[Name, list[str]]


class Disturbed(Exception):
    """A recipe that was recorded may have met a replay."""


@dataclass
class Early:
    """Starts replays of recipes as they are recorded. `replay` makes one of a world. `firsts` has
    the files that recipes make, in serial order, each with the first that has the same commands."""

    replay: Callable[[World, Writers, Early], Replay]
    firsts: Mapping[Name, str]
    pool: ThreadPoolExecutor
    found: Future[Memory | None]
    """The file system in memory for replays, which is made while the first recipe runs."""

    slots: threading.Semaphore
    is_failing: bool
    """Whether recipes are run where writes fail."""

    stopped: threading.Event = field(default_factory=threading.Event)
    changing: threading.Lock = field(default_factory=threading.Lock)
    """Held while the world of the recording changes, and while a replay takes a copy of it."""

    started: dict[int, Future[Started]] = field(default_factory=dict)
    """Replays that began, by the place of the recipe among those that were recorded."""

    writers: dict[Name, list[str]] = field(default_factory=dict)
    """The targets whose recipes wrote a file so far, by its name."""

    recorded: dict[str, tuple[Name, ...]] = field(default_factory=dict)
    """The targets of these recipes, and of those that wrote nothing, each with what it wrote."""

    failing: dict[int, Future[Ahead]] = field(default_factory=dict)
    """Runs of recipes where writes fail that began, of those whose target is the largest so far of
    all that are made alike; by the place of the recipe."""

    looking: dict[int, Future[Ahead]] = field(default_factory=dict)
    """What recipes show ahead of their replays, and beside these."""

    largest: dict[Way, tuple[int, int]] = field(default_factory=dict)
    """The largest target so far, by the way in which recipes make it: its size, and the place of
    its recipe."""

    alike: set[int] = field(default_factory=set)
    """The places of recipes whose target an assembler alone writes and asks for, and of whose other
    outputs no process learns what stands there."""

    used: set[SeenPath] = field(default_factory=set)
    """Files outside of the project that these recipes used."""

    is_off: bool = False
    """Whether none is started any more."""

    @functools.cached_property
    def targets(self) -> frozenset[Name]:
        """The files that recipes make."""
        return frozenset(self.firsts)

    @property
    def memory(self) -> Memory | None:
        """The file system in memory, where there is one."""
        return self.found.result()

    @property
    def begun(self) -> Begun:
        """What began, for the replays in the end."""
        return Begun(self.started, self.failing, frozenset(self.alike))

    def begin(self) -> None:
        """The recording begins, for the first time or anew."""
        begun: list[Future[Any]] = [*self.started.values(), *self.failing.values()]
        begun += self.looking.values()
        left = {one for one in begun if not one.cancel()}
        with Progress(len(left), title="early") as progress:
            while left:
                done, left = futures.wait(left, MOMENT, futures.FIRST_COMPLETED)
                for _ in done:
                    progress.ended(EARLY)
                if left:
                    progress.goes_on(EARLY)
        self.started.clear()
        self.failing.clear()
        self.looking.clear()
        self.largest.clear()
        self.alike.clear()
        self.writers.clear()
        self.recorded.clear()
        self.used.clear()

    def wrote(self, target: str, writes: Iterable[Name]) -> None:
        """A recipe is recorded, or kept, that writes these files."""
        self.recorded[target] = tuple(writes)
        for name in self.recorded[target]:
            self.writers.setdefault(name, []).append(target)

    def start(self, world: World, accesses: Accesses) -> None:
        """Starts the replay of the recipe that was recorded last, unless that has to be alone."""
        if self.is_off or has_to_be_alone(accesses):
            return
        trial, number = world.trials[-1], len(world.trials) - 1
        self.used.update(outside(accesses, [*accesses.touched, *accesses.folders]))
        is_largest = self.is_largest(world, trial, number)
        if is_largest and self.is_failing:
            self.failing[number] = self.pool.submit(self.failed, world, trial, number)
        if asks_alone(accesses, trial):
            self.alike.add(number)
        lean = number in self.alike and not is_largest
        if not lean:
            self.looking[number] = Future()
            self.pool.submit(self.look_ahead, world, trial, number, self.looking[number])
        self.started[number] = self.pool.submit(self.replayed, world, trial, number, lean)

    def is_largest(self, world: World, trial: Trial, number: int) -> bool:
        """Whether a recipe's target is larger than all that recipes before made alike. The largest
        one of all has each run, also where writes fail, and takes longest. So these runs begin now,
        and that of the one before doesn't any more."""
        way = way_of(trial)
        if way is None:
            return False
        size = size_of_target(world, trial)
        largest, before = self.largest.get(way, (-1, -1))
        if size <= largest:
            return False
        self.largest[way] = (size, number)
        if before in self.failing:
            self.failing[before].cancel()
        return True

    def failed(self, world: World, trial: Trial, number: int) -> Ahead:
        """What a recipe leaves where a write to its target fails, by the world as it is then."""
        with self.slots:
            own = self.replay_of(world)
            premises = own.layout.premises(trial)
            return Ahead(premises, half=own.halves.half(trial, number, frozenset()))

    def look_ahead(
        self, world: World, trial: Trial, number: int, found: Future[Ahead]
    ) -> None:
        """Makes the runs that needn't wait for the clock, unless the replay is done by then."""
        with self.slots:
            if found.set_running_or_notify_cancel():
                try:
                    found.set_result(self.replay_of(world).look_ahead(trial, number))
                except BaseException as error:
                    found.set_exception(error)

    def replayed(self, world: World, trial: Trial, number: int, lean: bool) -> Started:
        """A replay, which waits for the clock and a free processor, and takes the world as it is
        then. What needn't wait for the clock is run before, or beside it. The processor is free
        while it waits: no replay holds a turn then, since those that take turns begin in the end.
        """
        ahead = self.looking.get(number)
        try:
            wait_for_clock(trial)
            with self.slots:
                own = self.replay_of(world)
                own.lean = lean
                premises = own.layout.premises(trial)
                own.ahead = None if ahead is None else Lookahead(premises, ahead)
                return Started(premises, own.replay_safely(trial, number, frozenset()))
        finally:
            # Nothing of it goes on when it has ended.
            if ahead is not None and not ahead.cancel():
                futures.wait([ahead])

    def replay_of(self, world: World) -> Replay:
        """What replays a recipe in the world as it is now."""
        with self.changing:
            now, writers = world.as_now(), self.guessed()
        return self.replay(now, writers, self)

    def guessed(self) -> dict[Name, list[str]]:
        """The targets whose recipes write a file, by its name, with a guess of those that aren't
        recorded yet. One that is recorded may have written another file than its target, or none,
        as where it makes a folder."""
        found = {name: [*targets] for name, targets in self.writers.items()}
        for target, first in self.firsts.items():
            if target not in self.recorded:
                for name in dict.fromkeys([target, *self.recorded.get(first, ())]):
                    found.setdefault(name, []).append(target)
        return found

    def refuse_disturbed(self, accesses: Accesses) -> None:
        """Raises Disturbed where a recipe that was recorded may have met a replay."""
        if not self.started:
            return
        paths = outside(accesses, {**accesses.touched, **accesses.reads, **accesses.looked})
        places_used = {os.path.dirname(path) for path in self.used}
        if (
            PROCESSES in accesses.listed
            or not self.used.isdisjoint(paths)
            or not places_used.isdisjoint(accesses.listed)
        ):
            raise Disturbed


@contextlib.contextmanager
def early_replays(
    replay: Callable[[World, Writers, Early], Replay],
    firsts: Mapping[Name, str],
    scratch: RealPath,
    failing: bool,
) -> Iterator[Early]:
    """What starts replays early, also where writes fail, if these are wanted (`failing`); one
    processor is left for the recording."""
    os.makedirs(scratch, exist_ok=True)
    jobs = processors()
    with contextlib.ExitStack() as stack, ThreadPoolExecutor(WAITING * jobs) as pool:
        found = pool.submit(lambda: stack.enter_context(memory(unbound(scratch))))
        slots = threading.Semaphore(jobs - 1)
        early = Early(replay, firsts, pool, found, slots, failing)
        try:
            yield early
        except BaseException:
            early.stopped.set()
            places.end_all()
            pool.shutdown(wait=True, cancel_futures=True)
            raise


def outside(accesses: Accesses, paths: Iterable[SeenPath]) -> list[SeenPath]:
    """Those of some paths that lie in folders for temporary files, and not in the project."""
    folders = (*TEMPORARY, os.path.realpath(tempfile.gettempdir()), f"{DEVICES}/shm")
    fronts = tuple(f"{folder}/" for folder in folders)
    return [path for path in paths if path.startswith(fronts) and not accesses.tree.has(path)]


def asks_alone(accesses: Accesses, trial: Trial) -> bool:
    """Whether a recipe writes its target by an assembler, and no other of its processes learnt what
    stands there; and whether none learnt what stands at its other outputs, such as a dependency
    file."""
    target, root = Name(trial.recipe.target), accesses.tree.root
    others = (seen_in(root, name) for name in trial.writes if name != target)
    return (
        way_of(trial) is not None
        and accesses.is_asked_for_alone(seen_in(root, target))
        and all(map(accesses.is_written_blindly, others))
    )


def has_to_be_alone(accesses: Accesses) -> bool:
    """Whether a recipe has to do with other processes than its own, so that its replay might
    disturb a recording."""
    met = (
        *(accesses.sockets, accesses.ports, accesses.servers, accesses.channels),
        *(accesses.locked, accesses.tried, accesses.strange, accesses.makes),
    )
    chosen = (
        path
        for path in outside(accesses, accesses.touched)
        if path not in accesses.fresh and os.path.dirname(path) not in accesses.folders
    )
    return any(met) or PROCESSES in accesses.listed or any(chosen)
