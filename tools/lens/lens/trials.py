"""Tries runs whose first events are those of stretches, several at once, and keeps the best that is found."""
from __future__ import annotations

import os
from collections import deque
from collections.abc import Callable, Iterable
from concurrent.futures import Future, ThreadPoolExecutor
from dataclasses import dataclass
from itertools import islice

from .foresight import Foresight
from .machine import Machine
from .output import DRAIN, Outline
from .place import HartPlace
from .progress import Progress
from .stopping import Stop
from .stretches import KEPT, NEEDED, Cost, Piece, Stretches, cost_of, script_of, split_at

MENDINGS = 16
"""So often a trial may be mended: one that goes so far from the run that is known is given up."""
AT_ONCE = 4


@dataclass(frozen=True)
class Run:
    """The events of stretches with the drains that they need, and the run that begins with them."""

    stretches: Stretches
    pieces: list[Piece]
    outline: Outline

    def cost(self) -> Cost:
        """What the events cost."""
        return cost_of(self.pieces)


class Player:
    """Has the program make the events of stretches, with the drains that they need, and the rest by the rule.
    """

    def __init__(self, machine: Machine, foresight: Foresight, calm: int, stop: Stop):
        self.machine = machine
        self.foresight = foresight
        self.calm = calm
        self.stop = stop

    def run(self, stretches: Stretches) -> Run | None:
        """The run that begins with stretches. What isn't allowed is left out, and so is the rest of its
        stretch. None where it had to be mended too often."""
        pieces = self.foresight.pieces(enumerate(stretches))
        spins: set[int] = set()
        for _ in range(MENDINGS):
            self.stop.check()
            answer = self.machine.finish_outline(script_of(pieces), self.calm)
            if isinstance(answer, int):
                bad = answer - 1
            else:
                early = self.foresight.first_early(pieces, answer.lines)
                if early is None:
                    return Run(stretches, pieces, answer)
                bad = early
            pieces = self.mended(pieces, bad, stretches, spins)
        return None

    def mended(self, pieces: list[Piece], bad: int, stretches: Stretches, spins: set[int]) -> list[Piece]:
        """The same, but that the event that is refused gets the drains that it needs before it, or is left
        out with the rest of its stretch; a drain that was foreseen wrong is left out. `spins` are the threads
        that were seen to spin."""
        before, refused = split_at(pieces, bad)
        place = self.machine.inspect_script(script_of(before))
        if place.is_over:
            return before
        standing = self.foresight.standing_at(place, before)
        self.foresight.note_spin(refused, place, spins)
        standing.spins = spins
        first = refused.stretch
        if refused.origin == KEPT:
            drains = place.harts.get(refused.hart, HartPlace()).drains_for(refused.kind)
            if drains:
                before.append(refused._replace(kind=DRAIN, count=drains, origin=NEEDED))
                standing.waiting[refused.hart] -= drains
            else:
                first += 1
        left = list(enumerate(stretches))[first:]
        if first == refused.stretch:
            done = sum(piece.count for piece in before if piece.stretch == first and piece.origin == KEPT)
            left[0] = (first, stretches[first]._replace(count=stretches[first].count - done))
        return before + self.foresight.pieces(left, standing)


Attempt = Callable[[Stretches], Run | None]
"""Makes a run of stretches; None where it doesn't end as is wanted."""


class Trials:
    """Tries stretches, and keeps the last that hold. Those that are tried at once count as tried only up to
    the first that holds, so that how many are tried at once changes no answer."""

    def __init__(self, attempt: Attempt, stop: Stop, progress: Progress, at_once: int = 1):
        self.attempt = attempt
        self.stop = stop
        self.progress = progress
        self.at_once = at_once
        self.pool = ThreadPoolExecutor(at_once)
        self.known: dict[Stretches, bool] = {}
        self.count = 0
        self.best: Run | None = None

    def holds(self, stretches: Stretches) -> bool:
        """Whether the run of the stretches ends as is wanted."""
        return self.first([(0, stretches)]) is not None

    def first(self, candidates: Iterable[tuple[int, Stretches]]) -> tuple[int, Stretches] | None:
        """The first of some numbered candidates whose run ends as is wanted."""
        begun: deque[tuple[int, Stretches, Future[Run | None] | None]] = deque()
        left = iter(candidates)
        try:
            while True:
                for number, candidate in islice(left, self.at_once - len(begun)):
                    begun.append((number, candidate, self.begin(candidate)))
                if not begun:
                    return None
                number, candidate, trial = begun.popleft()
                if self.settle(candidate, trial):
                    return number, candidate
        finally:
            for _, _, trial in begun:
                if trial is not None:
                    trial.cancel()

    def begin(self, candidate: Stretches) -> Future[Run | None] | None:
        """Begins a trial; None where it was made before."""
        return None if candidate in self.known else self.pool.submit(self.attempt, candidate)

    def settle(self, candidate: Stretches, trial: Future[Run | None] | None) -> bool:
        """Waits for a trial, and notes what came of it: whether it holds."""
        if trial is not None and candidate not in self.known:
            self.stop.check(self.count)
            run = trial.result()
            self.count += 1
            self.known[candidate] = run is not None
            if run is not None:
                self.best = run
            self.tell()
        return self.known[candidate]

    def run_of(self, stretches: Stretches) -> Run:
        """The run of stretches that hold."""
        run = self.best if self.best and self.best.stretches == stretches else self.attempt(stretches)
        assert run is not None
        return run

    def tell(self) -> None:
        """Says how far the search is."""
        cost = self.best.cost().words() if self.best else 'none'
        self.progress.say(f'{self.stop.elapsed():.0f} s, {self.count} trials; the best so far: {cost}')


def processors() -> int:
    """How many trials are made at once."""
    return max(1, min(AT_ONCE, len(os.sched_getaffinity(0))))
