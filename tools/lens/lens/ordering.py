"""Which accesses of a run are ordered: what tools/lens/README.md says under "races", by vector clocks.

A clock has two numbers for each hart: up to which step its instructions, and up to which its stores that
entered memory, come before. They are two, since a store enters later than loads behind it in program order.
"""
from __future__ import annotations

from collections import defaultdict
from collections.abc import Iterator
from typing import NamedTuple

from .calls import MEMBARRIER, NAMES
from .facts import (
    CREATED,
    ENDED,
    MEMORY,
    READY,
    SLEEPS,
    WOKEN,
    Answer,
    BarrierBegins,
    BarrierReturns,
    Called,
    Read,
    Reservation,
    Signal,
    Taken,
    ThreadState,
    Waits,
    Wrote,
    Zeroed,
)
from .output import DRAIN, EXEC, RUN, Step
from .trace_text import Record
from .values import Values, joined

LOAD, STORE, RESERVING, CONDITIONAL, ATOMIC, KERNEL = 'load', 'store', 'LR', 'SC', 'AMO', 'kernel'
RESERVED = 'reserved'
BARRIERS = (1, 2, 8, 128)
"""The commands of membarrier that are barriers, and no registrations (linux/membarrier.h)."""
Clock = list[int]


class Access(NamedTuple):
    """An access in the order of memory: of a store when it enters. `clock` has what comes before it, and
    `store` is the step in which a store was executed."""

    step: Step
    kind: str
    at: int
    size: int
    pc: int
    store: int | None
    clock: Clock


def later(one: Clock, other: Clock) -> Clock:
    """What comes before either."""
    return [a if a > b else b for a, b in zip(one, other)]


class Orders:
    """Goes through a run, and knows for each hart what comes before its next instruction (`front`) and before
    the next of its stores that enters (`entered`)."""

    def __init__(self, values: Values):
        self.values = values
        self.steps = values.history.output.steps
        self.harts = max((step.hart for step in self.steps), default=0) + 1
        zero = [0] * (2 * self.harts)
        self.front = [zero] * self.harts
        self.entered = [zero] * self.harts
        self.issued: dict[int, Clock] = {}
        """What came before a store that waits when it was executed, by its step."""
        self.behind: dict[int, Clock] = {}
        """What comes before those that read from a step that wrote into memory."""
        self.threads: dict[int, Clock] = defaultdict(lambda: zero)
        self.posted: dict[tuple[int, int], Clock] = defaultdict(lambda: zero)
        self.begun = [zero] * self.harts
        """What came before the barrier that a hart began."""
        self.replies = [zero] * self.harts
        """What comes before its return."""
        self.every_begun, self.departed = zero, zero

    def accesses(self) -> Iterator[Access]:
        """Each access of the run, in the order of memory."""
        for record in self.values.trace.records:
            self.arrive(record)
            yield from self.access(record)
            self.leave(record)

    def join(self, hart: int, clock: Clock) -> None:
        self.front[hart] = later(self.front[hart], clock)

    def arrive(self, record: Record) -> None:
        """What comes before an event by its kind."""
        step, hart = record.step, record.step.hart
        instruction = self.values.history.instructions.get(step.number)
        if step.kind == DRAIN or (step.kind == EXEC and not (instruction and instruction.waits_for_stores)):
            return
        self.join(hart, self.entered[hart])
        if step.kind == RUN:
            self.join(hart, later(self.threads[step.thread], self.every_begun))
        for fact in record.facts:
            match fact:
                case Taken(harts):
                    for other in harts:
                        self.replies[other] = later(self.replies[other], self.front[hart])
                    for other in harts:
                        self.join(hart, self.begun[other])
                case BarrierReturns():
                    self.join(hart, self.replies[hart])
                case Signal(number, 'delivered'):
                    self.join(hart, self.posted[step.thread, number])

    def access(self, record: Record) -> Iterator[Access]:
        step, facts = record.step, record.facts
        reads = [fact for fact in facts if type(fact) is Read]
        writes = [fact for fact in facts if type(fact) is Wrote]
        if reads:
            yield from self.read(record, reads, bool(writes))
        elif writes and step.kind != DRAIN:
            kind = CONDITIONAL if self.values.is_own(step) else KERNEL
            yield from (self.at_once(step, kind, wrote.at, wrote.size) for wrote in writes)
        for wrote in writes:
            if step.kind == DRAIN:
                yield self.enter(step, wrote)
        if any(type(fact) is Waits for fact in facts):
            self.issued[step.number] = self.front[step.hart]
        if step.kind != DRAIN:
            self.publish(step)

    def read(self, record: Record, reads: list[Read], is_atomic: bool) -> Iterator[Access]:
        """A load, an LR or an AMO: behind the writes of other harts from which it read."""
        step, hart = record.step, record.step.hart
        for fact in reads:
            if fact.source == MEMORY and fact.line and self.steps[fact.line - 1].hart != hart:
                self.join(hart, self.behind[fact.line])
        whole = joined(reads)
        is_reserving = any(fact.word == RESERVED for fact in record.of_kind(Reservation))
        kind = ATOMIC if is_atomic else RESERVING if is_reserving else LOAD
        yield self.at_once(step, kind, whole.at, whole.size)

    def at_once(self, step: Step, kind: str, at: int, size: int) -> Access:
        """An access that acts on memory when its instruction is executed."""
        self.front[step.hart] = clock = self.front[step.hart].copy()
        clock[step.hart] = step.number
        return Access(step, kind, at, size, step.pc, None, clock)

    def enter(self, step: Step, wrote: Wrote) -> Access:
        """A store that waited enters memory, behind those of its hart before it."""
        hart = step.hart
        clock = later(self.entered[hart], self.issued.pop(wrote.line))
        clock[self.harts + hart] = step.number
        self.entered[hart] = self.behind[step.number] = clock
        pc = self.steps[wrote.line - 1].pc
        return Access(step, STORE, wrote.at, wrote.size, pc, wrote.line, clock)

    def publish(self, step: Step) -> None:
        """What was written at once comes behind what came before the event. (No store waits there.)"""
        if any(type(fact) in (Wrote, Zeroed) for fact in self.values.record(step).facts):
            self.entered[step.hart] = self.behind[step.number] = self.front[step.hart]

    def leave(self, record: Record) -> None:
        """What an event comes before by what it does to threads, signals and barriers."""
        step, hart = record.step, record.step.hart
        here = self.front[hart]
        for fact in record.facts:
            match fact:
                case ThreadState(thread, 'sleeps') if thread != step.thread:
                    pass  # it slept already, and sleeps at another word from now on: it does nothing by that
                case ThreadState(thread, state):
                    if state in (CREATED, WOKEN, READY, SLEEPS, ENDED):
                        self.threads[thread] = later(self.threads[thread], here)
                    if state in (READY, SLEEPS, ENDED):
                        self.departed = later(self.departed, here)
                case Signal(number, 'posted', int(thread)):
                    self.posted[thread, number] = later(self.posted[thread, number], here)
                case Called(name, (command, *_)) if name == NAMES[MEMBARRIER] and command in BARRIERS:
                    self.begin(record)

    def begin(self, record: Record) -> None:
        """A barrier begins, and returns at once where it has nobody to wait for."""
        hart, answer = record.step.hart, record.first(Answer)
        if answer is None or answer.error:
            return
        self.begun[hart] = self.front[hart]
        self.every_begun = later(self.every_begun, self.front[hart])
        self.replies[hart] = self.departed
        if not record.first(BarrierBegins):
            self.join(hart, self.replies[hart])
