"""A whole run as sorted histories: what a register, a byte or a thread was at any place is one bisection.

Nothing is replayed, and no state is kept. A place is a number from 0 on: so many steps were made, and the
next step is that number and 1.
"""
from __future__ import annotations

from array import array
from bisect import bisect_right
from collections.abc import Iterator
from typing import NamedTuple

from .memory_history import FirstMemory, MemoryHistory, Series
from .output import DONE, EXEC, HARTS, Step, line_of

REGISTERS = 32
RUNNING, READY, SLEEPING, ENDED = 'running', 'ready', 'sleeping', 'ended'
LEFT = 'left'


class Event(NamedTuple):
    """A line of the log without its number. A run has the same ones again and again."""

    hart: int
    kind: str
    thread: int
    """0 where an idle hart makes it."""
    pc: int


NOTHING = Event(0, '', 0, 0)
"""Stands in the place of line 0."""


class State(NamedTuple):
    """What a thread does: it is `running` on a hart, `ready`, `sleeping` at a word, or has `ended`."""

    name: str
    hart: int | None = None
    word: int | None = None


class CallMade(NamedTuple):
    """A system call: its line, its thread, its name and its arguments; what it answered, in the words of
    `trace` (empty where nothing came of it)."""

    line: int
    thread: int
    name: str
    arguments: tuple[int, ...]
    answer: str


class SequenceMade(NamedTuple):
    """A restartable sequence: its first and last line, the line by which its end is known, where its abort
    handler is, and how it ended, in the words of `acts`."""

    first: int
    last: int
    known: int
    abort: int
    form: str


class Notice(NamedTuple):
    """A signal of which a debugger is to know: the line that brings it, its thread, and its number."""

    line: int
    thread: int
    signal: int


class Printing(NamedTuple):
    """A call that writes to the console: its line, and how many bytes."""

    line: int
    length: int


class HartHistory:
    """What a hart keeps beside its waiting stores, as numbers that change."""

    def __init__(self) -> None:
        self.requests = Series()
        """Bit G says that a request of hart G's barrier is pending on it."""
        self.restarts = Series()
        """1 where one of these asks for a restart."""
        self.reservations = Series()
        """Where the 8 bytes begin that it reserved, and 1; 0 where it has no reservation."""


class ThreadHistory:
    """What a thread was and did."""

    def __init__(self, since: int, registers: list[int]):
        self.since = since
        """The place at which it is there first."""
        self.first = registers
        self.registers = [Series() for _ in range(REGISTERS)]
        self.lines = array('I')
        self.moves = array('I')
        """Those of its lines by which its pc moves: an instruction that doesn't fault, the entry of a
        handler, and an interruption that sends it to an abort handler."""
        self.restarts = array('I')
        """Those by which it is sent to an abort handler, since it was interrupted in a sequence."""
        self.changes = array('I', [since])
        self.states = [State(READY)]
        self.sequences: list[SequenceMade] = []
        self.pending = Series()
        """The signals that are pending for it: bit S - 1 is signal S."""

    def state(self, place: int) -> State:
        return self.states[max(0, bisect_right(self.changes, place) - 1)]

    def register(self, number: int, place: int) -> int:
        return self.registers[number].at(place, self.first[number])

    def newest(self) -> list[int]:
        """Its registers after all that was noted."""
        return [
            series.values[-1] if series.values else first
            for series, first in zip(self.registers, self.first)
        ]

    def change(self, place: int, state: State) -> None:
        self.changes.append(place)
        self.states.append(state)

    def is_live(self, place: int) -> bool:
        return self.since <= place and self.state(place).name != ENDED

    def sequence(self, place: int) -> SequenceMade | None:
        """The sequence that isn't over at a place, as far as is known there."""
        index = bisect_right(self.sequences, place, key=lambda sequence: sequence.first)
        last = self.sequences[index - 1] if index else None
        return last if last and place < last.known else None


class Timeline:
    """The histories of a run. Lines count from 1; what has an entry for each line has one for 0 too."""

    def __init__(self, entry: int, first: FirstMemory, registers: list[int]):
        self.entry = entry
        self.memory = MemoryHistory(first, HARTS)
        self.events = [NOTHING]
        """Each event that there is."""
        self.lines = array('I', [0])
        """By line which of them it is."""
        self.harts = [HartHistory() for _ in range(HARTS)]
        self.threads = {1: ThreadHistory(0, registers)}
        self.executions: dict[int, array[int]] = {}
        """By pc the lines that execute there, but for those that fault once more while the signal of the same
        fault is pending."""
        self.notices: list[Notice] = []
        self.printings: list[Printing] = []
        self.calls: list[CallMade] = []
        self.last_pcs: dict[int, int] = {}
        """Where each live thread is after the last line."""
        self.end = ''

    @property
    def size(self) -> int:
        """How many lines there are, which is the last place."""
        return len(self.lines) - 1

    def event(self, line: int) -> Event:
        return self.events[self.lines[line]]

    def script(self, place: int) -> bytes:
        """The lines up to a place, as a script."""
        texts = [f'{line_of(*event)}\n' for event in self.events[1:]]
        return ''.join(texts[number - 1] for number in self.lines[1 : place + 1]).encode()

    def steps(self) -> Iterator[Step]:
        for line in range(1, self.size + 1):
            yield Step(line, *self.event(line))

    # threads at a place

    def register(self, thread: int, number: int, place: int) -> int:
        """A register of a thread; 0 before the thread is there."""
        history = self.threads[thread]
        return history.register(number, place) if history.since <= place else 0

    def pc(self, thread: int, place: int) -> int:
        """Where a thread goes on; 0 before it is there."""
        history = self.threads[thread]
        if history.since > place:
            return 0
        lines = history.lines
        index = bisect_right(lines, place)
        if index < len(lines):
            return self.event(lines[index]).pc
        return self.last_pcs.get(thread, self.event(lines[-1]).pc if lines else self.entry)

    def hart(self, thread: int, place: int) -> int | None:
        """The hart on which a thread is."""
        return self.threads[thread].state(place).hart

    def live(self, place: int) -> list[int]:
        """The threads that live at a place; at the last one those that did before the last line."""
        place = min(place, max(self.size - 1, 0))
        return [number for number, thread in self.threads.items() if thread.is_live(place)]

    def is_in_barrier(self, thread: int, place: int) -> bool:
        """Whether a thread waits in membarrier."""
        lines = self.threads[thread].lines
        index = bisect_right(lines, place) - 1
        while index >= 0 and self.event(lines[index]).kind != EXEC:
            if self.event(lines[index]).kind == DONE:
                return False
            index -= 1
        call = self.call(lines[index]) if index >= 0 else None
        return call is not None and call.name == 'membarrier' and call.answer == 'later'

    def call(self, line: int) -> CallMade | None:
        """The call that a line makes."""
        index = bisect_right(self.calls, line, key=lambda call: call.line) - 1
        return self.calls[index] if index >= 0 and self.calls[index].line == line else None

    # what comes next

    def next_execution(self, pc: int, after: int) -> Iterator[int]:
        """The lines past one that execute at a pc, in their order."""
        lines = self.executions.get(pc)
        if lines:
            yield from (lines[index] for index in range(bisect_right(lines, after), len(lines)))

    def last_execution(self, pc: int, up_to: int) -> Iterator[int]:
        """The lines up to one that execute at a pc, the last one first."""
        lines = self.executions.get(pc)
        if lines:
            yield from (lines[index] for index in range(bisect_right(lines, up_to) - 1, -1, -1))

    def next_move(self, thread: int, after: int) -> Iterator[int]:
        """The lines past one by which the pc of a thread moves."""
        moves = self.threads[thread].moves
        yield from (moves[index] for index in range(bisect_right(moves, after), len(moves)))

    def last_move(self, thread: int, up_to: int) -> int | None:
        """The last line up to one by which it does."""
        moves = self.threads[thread].moves
        index = bisect_right(moves, up_to)
        return moves[index - 1] if index else None
