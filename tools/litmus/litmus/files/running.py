"""Runs a test's program: all of its runs by `outcomes`, or some by `explore`."""
from __future__ import annotations

from dataclasses import dataclass
from pathlib import Path

from lens.faults import LensFault
from lens.output import outline
from sweep.explored import Found, read_explored

from ..comparing import answered
from ..searching import Ended, Searcher
from .layout import Layout, State, state

STEPS = 8000
"""More than any drawn run has of a test without a loop."""
ENDED = 'exit 0'


@dataclass(frozen=True)
class Seen:
    """A state, in how many runs it came (1 where all runs were looked at), and the script of a run that comes
    to it, where it was asked for."""

    state: State
    runs: int
    script: bytes | None


@dataclass(frozen=True)
class Observation:
    """The states that were seen, in order; whether there is no other; and what else is to be said."""

    seen: list[Seen]
    is_complete: bool
    remarks: list[str]


@dataclass(frozen=True)
class Runner:
    """How tests are run: the program, how many places a search visits at most, of runs with how many
    preemptions at most, how many runs are drawn where it isn't a search, and whether a script of each state
    is wanted."""

    program: str
    places: int
    preemptions: int | None = None
    runs: int | None = None
    has_scripts: bool = False

    def observe(self, elf: Path, layout: Layout, harts: int) -> Observation:
        return self.searched(elf, layout, harts) if self.runs is None else self.drawn(elf, layout, harts)

    def searched(self, elf: Path, layout: Layout, harts: int) -> Observation:
        """What `outcomes` finds."""
        searcher = Searcher(self.program, self.places)
        search = searcher.search(elf, harts, self.has_scripts, preemptions=self.preemptions)
        seen = [Seen(shown_state(layout, it), 1, it.script) for it in search.ended]
        remarks = []
        if not search.is_complete:
            remarks.append(
                f'not all runs were looked at ({search.closing}, {search.places} places): '
                'there may be other states'
            )
        if search.hopeless:
            remarks.append('some runs never end, and have no state')
        return Observation(in_order(seen), search.is_complete, remarks)

    def drawn(self, elf: Path, layout: Layout, harts: int) -> Observation:
        """What `explore` finds."""
        words = [f'--runs={self.runs}', f'--harts={harts}', f'--steps={STEPS}']
        explored = read_explored('explore', answered([self.program, 'explore', str(elf), *words]))
        ended = [it for it in explored.found if it.end != 'limit']
        others = explored.others + sum(it.runs for it in explored.found if it.end == 'limit')
        seen = [Seen(found_state(layout, it), it.runs, self.draw(elf, harts, it)) for it in ended]
        remarks = [f'{self.runs} runs were looked at: there may be other states']
        if others:
            remarks.append(f'{others} of them have no state, or one beyond the first 64')
        return Observation(in_order(seen), False, remarks)

    def draw(self, elf: Path, harts: int, found: Found) -> bytes | None:
        """The script of the first run of an outcome."""
        if not self.has_scripts:
            return None
        words = [f'--seed={found.seed}', f'--harts={harts}', f'--steps={STEPS}']
        return outline('draw', answered([self.program, 'draw', str(elf), *words])).log


def shown_state(layout: Layout, ended: Ended) -> State:
    return state_of(layout, ended.shown.console, ended.shown.end)


def found_state(layout: Layout, found: Found) -> State:
    return state_of(layout, found.console, found.end)


def state_of(layout: Layout, console: bytes, end: str) -> State:
    """The state of an outcome; a fault where the program ended in another way."""
    found = state(layout, console) if end == ENDED else None
    if found is None:
        raise LensFault(f'a run ends with {end}, and has no state: does each address stand for a variable?')
    return found


def in_order(seen: list[Seen]) -> list[Seen]:
    return sorted(seen, key=lambda it: it.state.values)
