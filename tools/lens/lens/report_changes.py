"""What changes at each place of a run that a page shows: registers, threads, harts, and what is watched.

Each thing that can change has a key. A place has the keys whose value isn't that of the place shown before.
"""
from __future__ import annotations

from bisect import bisect_left
from collections.abc import Callable, Iterator
from typing import NamedTuple

from .calls import NAMES_OF
from .faults import LensFault
from .memory_history import Series
from .output import HARTS
from .program import Program
from .thread_list import thread_words
from .timeline import REGISTERS, RUNNING, SLEEPING, HartHistory, ThreadHistory, Timeline
from .watching import Range, watched

WORD = 8
MOST_WATCHED = 1_024
"""So many bytes of one name are watched at most."""
NONE, NO_PAGE = 'none', 'no page'
IDLE = 'idle'
SIGNALS = 64
Changes = dict[str, str]


class Watched(NamedTuple):
    """A name that is watched: its bytes, and the variables and members in them, by name, address and size."""

    name: str
    range: Range
    parts: list[tuple[str, int, int]]


def watch_names(program: Program, names: list[str]) -> list[Watched]:
    """What some names stand for, as `lens watch` takes them."""
    return [watch_name(program, name) for name in dict.fromkeys(names)]


def watch_name(program: Program, name: str) -> Watched:
    range_ = watched(program, name)
    if range_.size > MOST_WATCHED:
        most = f'{MOST_WATCHED} at most can be watched: NAME+OFF:SIZE names some'
        raise LensFault(f'{name} has {range_.size} bytes, and {most}')
    return Watched(name, range_, list(small_parts(program, range_)))


def small_parts(program: Program, range_: Range) -> Iterator[tuple[str, int, int]]:
    """The variables and members in some bytes; of what is longer than a number, each 8 bytes."""
    end = range_.at + range_.size
    for name, at, size in program.parts(range_.at, end):
        if size <= WORD:
            yield name, at, size
            continue
        for start in range(at, at + size, WORD):
            length = min(WORD, at + size - start)
            yield program.bytes_of(start, length), start, length


class PlaceChanges:
    """Collects what changes, by the index of a place."""

    def __init__(self, program: Program, timeline: Timeline, places: list[int]):
        self.program = program
        self.timeline = timeline
        self.places = places
        self.changes: list[Changes] = [{} for _ in places]
        self.newest: Changes = {}

    def note(self, index: int, key: str, value: str) -> None:
        """A key has this value at a place, which isn't before that of its last value."""
        if self.newest.get(key) != value:
            self.newest[key] = self.changes[index][key] = value

    def note_series(
        self, key: str, series: Series, words: Callable[[int], str], first: int = 0, since: int = 0
    ) -> None:
        """A number, in words, from the place on at which there is one."""
        lines = [since, *series.places]
        for index in sorted({bisect_left(self.places, line) for line in lines}):
            if index < len(self.places):
                self.note(index, key, words(series.at(self.places[index], first)))

    def note_all(self, harts: list[int], watches: list[Watched]) -> None:
        for number, thread in sorted(self.timeline.threads.items()):
            self.note_thread(number, thread)
        for hart in harts:
            self.note_hart(hart, self.timeline.harts[hart])
        for watch in watches:
            self.note_watched(watch, harts)
        self.note_states(harts)

    def note_thread(self, number: int, thread: ThreadHistory) -> None:
        for register in range(REGISTERS):
            series, first = thread.registers[register], thread.first[register]
            self.note_series(f't{number}.x{register}', series, hex, first, thread.since)
        self.note_series(f't{number}.pending', thread.pending, signal_words, 0, thread.since)

    def note_hart(self, hart: int, history: HartHistory) -> None:
        self.note_series(f'h{hart}.requests', history.requests, hart_words)
        self.note_series(f'h{hart}.restart', history.restarts, yes_or_no)
        self.note_series(f'h{hart}.reservation', history.reservations, reservation_words)

    def note_states(self, harts: list[int]) -> None:
        """What each thread does, where it goes on, and which of them is on which hart."""
        threads = sorted(self.timeline.threads)
        for index, place in enumerate(self.places):
            on = dict.fromkeys(harts, IDLE)
            for number in threads:
                self.note(index, f't{number}.state', self.state_words(number, place))
                if self.timeline.threads[number].since <= place:
                    self.note(index, f't{number}.pc', hex(self.timeline.pc(number, place)))
                state = self.timeline.threads[number].state(place)
                if state.name == RUNNING and state.hart is not None:
                    on[state.hart] = f'thread {number}'
            for hart, words in on.items():
                self.note(index, f'h{hart}.thread', words)

    def state_words(self, number: int, place: int) -> str:
        """What a thread is at; of one that sleeps also the variable that its word is."""
        words, state = thread_words(self.timeline, number, place), self.timeline.threads[number].state(place)
        is_named = state.name == SLEEPING and state.word is not None and self.program.variable_at(state.word)
        return f'{words}, {self.program.target(state.word)}' if is_named else words

    def note_watched(self, watch: Watched, harts: list[int]) -> None:
        """What memory holds in some bytes, and what harts see there whose own stores wait."""
        views: list[int | None] = [None, *harts]
        before: list[bytes | None] = [None] * len(views)
        for index, place in enumerate(self.places):
            for at, view in enumerate(views):
                found = self.timeline.memory.bytes_at(watch.range.at, watch.range.size, place, view)
                if found != before[at]:
                    before[at] = found
                    self.note_parts(index, watch, view, found)

    def note_parts(self, index: int, watch: Watched, view: int | None, found: bytes) -> None:
        whose = 'm' if view is None else f'v{view}'
        for name, start, size in watch.parts:
            part = found[start - watch.range.at :][:size]
            words = self.program.number(int.from_bytes(part, 'little'), size) if len(part) == size else NO_PAGE
            self.note(index, f'{whose}.{name}', words)


def hart_words(mask: int) -> str:
    """Harts, whose numbers are the bits of a mask."""
    return ' '.join(str(hart) for hart in range(HARTS) if mask >> hart & 1) or NONE


def yes_or_no(value: int) -> str:
    return 'yes' if value else 'no'


def reservation_words(value: int) -> str:
    """The reserved address, as a hart's history has it."""
    return hex(value - 1) if value else NONE


def signal_words(mask: int) -> str:
    """Signals by their names: bit S - 1 of a mask is signal S."""
    return ' '.join(NAMES_OF['signal'](at + 1) for at in range(SIGNALS) if mask >> at & 1) or NONE


def changes_of(
    program: Program, timeline: Timeline, places: list[int], harts: list[int], watches: list[Watched]
) -> list[Changes]:
    """What changes at each of some places, in rising order. The first has all that is there."""
    made = PlaceChanges(program, timeline, places)
    made.note_all(harts, watches)
    return made.changes
