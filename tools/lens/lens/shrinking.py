"""Makes a short steer from a run, with the same end (or the same console and end).

The run is cut into stretches: instructions of one hart up to the next event of another kind, and those
events. Stores enter memory where the next event of their hart needs it, and a drain of the run counts only
where it is kept. What is left of the run after a script is made by the rule of `draw`. Then stretches are left
out and put together (`reducing`), and the events of those that are left are written as orders (`telling`).
"""
from __future__ import annotations

from dataclasses import dataclass

from .faults import Interrupted, LensFault
from .foresight import Foresight
from .history import make_history
from .machine import CALM, MOST_CALM, Machine, TimedMachine
from .output import DRAIN, Outline, Output
from .place import OPEN
from .program import Program
from .progress import Progress
from .reducing import Reducing
from .steering import Steering, read_lines_of
from .stopping import Stop, Stopped
from .stretches import Cost, Stretch, Stretches, cost_of, stretch_numbers, stretches_of
from .telling import Telling
from .trials import Player, Run, Trials, processors

TRIES = 2_000
TRYING, TRYING_STOPPED = 10, 2
"""So many seconds are given to try a steer before it is given away, and to one of a search that was stopped."""


@dataclass(frozen=True)
class Shrunk:
    """The steer, what the run cost, and what the orders in front of `finish` cost."""

    steer: str
    before: Cost
    after: Cost
    unfinished: str | None
    """What is to be said of a search that was stopped before its end."""


def calm_for(steps: int) -> int:
    """After how many events of the rule the rest of a run goes on fairly: a power of two that the run that is
    known doesn't exceed, so that what matters isn't left to chance."""
    calm = CALM
    while calm < steps and 2 * calm <= MOST_CALM:
        calm *= 2
    return calm


class Shrinking:
    """Looks for a short steer for one run."""

    def __init__(self, output: Output, program: Program, machine: Machine, by_end: bool):
        if output.end == OPEN:
            raise LensFault(f'{output.name} has no end (end open), to which a shorter script could lead')
        self.output = output
        self.program = program
        self.machine = machine
        self.by_end = by_end
        self.calm = calm_for(len(output.steps))
        self.foresight = Foresight(make_history(output, program))

    def is_wanted(self, found: Outline | Output) -> bool:
        return found.end == self.output.end and (self.by_end or found.console == self.output.console)

    def shrink(self, stop: Stop, progress: Progress) -> Shrunk:
        """A short steer whose run ends as this one does; the shortest that is found until the search is to
        stop."""
        player = Player(self.machine, self.foresight, self.calm, stop)

        def attempt(stretches: Stretches) -> Run | None:
            run = player.run(stretches)
            return run if run and self.is_wanted(run.outline) else None

        trials = Trials(attempt, stop, progress, processors())
        is_over = True
        try:
            self.search(trials)
        except Stopped:
            is_over = False
        progress.clear()
        if trials.best is None:
            raise self.nothing(stop)
        return self.told(trials.best, None if is_over else unfinished(stop, trials))

    def search(self, trials: Trials) -> None:
        """Looks for the shortest; what is best is kept by the trials."""
        reducing = Reducing(trials)
        whole = stretches_of(self.output.steps)
        if not trials.holds(whole) and not trials.holds(()):
            return
        kept = reducing.shrink(whole if trials.holds(whole) else ())
        reducing.with_early_drains(kept, lambda stretches, at: self.waiting(trials.run_of(stretches), at))

    def waiting(self, run: Run, at: int) -> Stretch:
        """A drain of all stores that wait after a stretch of a run, on the hart of its last event."""
        pieces = [piece for piece in run.pieces if piece.stretch <= at]
        waiting = self.foresight.waiting(pieces, run.outline.lines)
        hart, thread = (pieces[-1].hart, pieces[-1].thread) if pieces else (0, 0)
        return Stretch(hart, DRAIN, thread, waiting[hart])

    def nothing(self, stop: Stop) -> LensFault:
        """Why there is no steer."""
        if stop.reason:
            return Interrupted(f'{stop.reason} came before anything was found', stop.status)
        return LensFault(f'{self.output.name}, played again, doesn\'t end as it says')

    def told(self, run: Run, unfinished: str | None) -> Shrunk:
        """The steer of a run, made from its log. It is tried before it is given away, as far as that takes
        some seconds; where it leads elsewhere, its orders count events, and make the very script that was
        tried."""
        parts = list(stretch_numbers(run.pieces))
        history = make_history(run.outline.output(), self.program)
        telling = Telling(history, parts, self.machine, self.by_end, self.calm, unfinished)
        lines, is_wrong = telling.steer(), False
        try:
            is_wrong = not self.leads_there(lines, TRYING_STOPPED if unfinished else TRYING)
        except Stopped:
            pass  # (the orders were made from the log of the run)
        if is_wrong:
            lines = telling.steer(is_counted=True)
        before = cost_of(stretches_of(self.output.steps))
        return Shrunk(''.join(f'{line}\n' for line in lines), before, run.cost(), unfinished)

    def leads_there(self, lines: list[str], seconds: int) -> bool:
        """Whether a steer leads to the end that is wanted. Raises Stopped where that isn't known in so many
        seconds."""
        machine = TimedMachine(self.machine.program, self.machine.elf, self.machine.options, Stop(seconds))
        try:
            made = Steering('the steer', self.program, machine).follow(read_lines_of('the steer', lines))
            again = machine.play_outline(made.lines)
        except LensFault:
            return False
        return not isinstance(again, int) and self.is_wanted(again)


def unfinished(stop: Stop, trials: Trials) -> str:
    """What is to be said of a search that was stopped."""
    return f'It may be shortened further: {stop.reason} came after {trials.count} trials'
