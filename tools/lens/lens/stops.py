"""Where a debugger's resumption of a recorded run ends, forwards or backwards: at a breakpoint, before an
access to what is watched, before a signal, after a step of one thread, or where the run begins or ends."""
from __future__ import annotations

from bisect import bisect_left
from collections.abc import Iterator
from dataclasses import dataclass, field
from enum import Enum
from typing import NamedTuple

from .agent import Expression, Unknown
from .memory_history import Index
from .timeline import Notice, Timeline

MADE, ENTERS, BOTH = 'made', 'enters', 'both'
HART, MEMORY = 'hart', 'memory'
SOFTWARE, HARDWARE = 0, 1
WRITE, READ, ACCESS = 2, 3, 4
"""gdb's kinds of breakpoints and watchpoints, as in its packets Z0 to Z4."""
PC = 32
"""The number of the pc among registers."""


class Reason(Enum):
    """Why a resumption ends."""

    STEP, BREAK, SIGNAL, WATCH, EDGE = range(5)


class Watchpoint(NamedTuple):
    """Bytes that are watched, and for what."""

    kind: int
    at: int
    size: int


class Stop(NamedTuple):
    """Where a resumption ends, and why: the line that it is about and its thread (None at an edge); the
    address of the breakpoint, or the number of the signal; and the watchpoint."""

    place: int
    reason: Reason
    line: int | None = None
    thread: int | None = None
    number: int = 0
    watch: Watchpoint | None = None


@dataclass
class Points:
    """What a debugger wants to be stopped at."""

    breaks: dict[int, tuple[int, list[Expression]]] = field(default_factory=dict)
    """By pc the kind of a breakpoint, and its conditions, of which one has to hold where there are any."""
    watches: set[Watchpoint] = field(default_factory=set)
    passed: set[int] = field(default_factory=set)
    """The signals, by their numbers in gdb, at which only a thread stops that makes a step."""
    written: set[tuple[int, int]] = field(default_factory=set)
    """Places and sizes of which a watchpoint for accesses is about writes alone."""
    moment: str = MADE
    """When a store counts: where it is executed, where it enters memory, or both."""
    view: str = HART
    """What memory is: as the thread's hart sees it, or memory itself."""


class Resume(NamedTuple):
    """How a debugger resumes: `stepping` is the thread that makes a step, `span` the addresses in which it
    goes on, and `only` the one thread of which a stop is taken. (gdb ends by an assertion where a thread
    stops that it hasn't resumed.)"""

    stepping: int | None = None
    span: tuple[int, int] | None = None
    only: int | None = None


@dataclass
class Spot:
    """The place at which a debugger is; `is_told`: a breakpoint or a signal there was the last thing told;
    `watched`: the line of the access that was told, over which gdb makes one step."""

    place: int = 0
    is_told: bool = False
    watched: int | None = None


@dataclass(frozen=True)
class AtPlace:
    """What a condition sees: the registers of a thread at a place, and memory as it sees it."""

    timeline: Timeline
    thread: int
    place: int
    view: str

    def register(self, number: int) -> int:
        if number == PC:
            return self.timeline.pc(self.thread, self.place)
        if number > PC:
            raise Unknown('there is no such register')
        return self.timeline.register(self.thread, number, self.place)

    def memory(self, at: int, size: int) -> bytes:
        hart = self.timeline.hart(self.thread, self.place) if self.view == HART else None
        return self.timeline.memory.bytes_at(at, size, self.place, hart)


class Stops:
    """Finds stops in a timeline."""

    def __init__(self, timeline: Timeline, points: Points):
        self.timeline = timeline
        self.points = points

    # forwards

    def forwards(self, spot: Spot, resume: Resume) -> Stop:
        """Where a resumption forwards ends."""
        watched, place = spot.watched, spot.place
        if resume.stepping is not None and watched == place + 1:
            return Stop(place + 1, Reason.STEP, watched, self.timeline.event(place + 1).thread)
        best = self.first_hit(spot, resume)
        step = self.step_forwards(place, best.place, resume)
        return step or best

    def step_forwards(self, place: int, most: int, resume: Resume) -> Stop | None:
        """Behind the first line that moves the pc of the thread that steps, out of the span where there is
        one; None where that is further than a place."""
        thread = resume.stepping
        if thread is None or thread not in self.timeline.threads:
            return None
        for line in self.timeline.next_move(thread, place):
            if line > most:
                return None
            low, high = resume.span or (0, 0)
            if not low <= self.timeline.pc(thread, line) < high:
                return Stop(line, Reason.STEP, line, thread)
        return None

    def first_hit(self, spot: Spot, resume: Resume) -> Stop:
        """The first breakpoint, signal or watchpoint that is met, or the end."""
        best = Stop(self.timeline.size + 1, Reason.EDGE)
        for at, (_, conditions) in self.points.breaks.items():
            line = self.first_break(at, conditions, spot, resume.only, best.place)
            if line is not None:
                best = Stop(line - 1, Reason.BREAK, line, self.timeline.event(line).thread, at)
        notice = self.first_notice(spot, resume)
        if notice and notice.line - 1 < best.place:
            best = Stop(notice.line - 1, Reason.SIGNAL, notice.line, notice.thread, notice.signal)
        for watch in self.points.watches:
            line = self.first_access(watch, spot.place, resume.only)
            if line is not None and line - 1 <= best.place:
                best = Stop(line - 1, Reason.WATCH, line, self.timeline.event(line).thread, watch=watch)
        return best

    def first_break(
        self, at: int, conditions: list[Expression], spot: Spot, only: int | None, most: int
    ) -> int | None:
        """The first line at a breakpoint, where that is before a place. It is met right before the
        line; also at the place where the debugger is, unless it was the last thing told there."""
        for line in self.timeline.next_execution(at, spot.place + spot.is_told):
            if line > most:
                return None
            if only in (None, self.timeline.event(line).thread) and self.holds(conditions, line):
                return line
        return None

    def first_notice(self, spot: Spot, resume: Resume) -> Notice | None:
        """The first signal that is told. One that is only passed on is told all the same of the thread that
        steps, so that gdb goes over its handler."""
        notices = self.timeline.notices
        for index in range(bisect_left(notices, (spot.place + 1 + spot.is_told,)), len(notices)):
            notice = notices[index]
            is_told = notice.thread == resume.stepping or gdb_signal(notice.signal) not in self.points.passed
            if is_told and resume.only in (None, notice.thread):
                return notice
        return None

    def first_access(self, watch: Watchpoint, after: int, only: int | None) -> int | None:
        """The first line past one that touches what is watched."""
        line: int | None = after
        while line is not None:
            found = [index.next(watch.at, watch.size, line) for index in self.indexes(watch)]
            line = min(filter(None, found), default=None)
            if line is not None and only in (None, self.timeline.event(line).thread):
                break
        return line

    # backwards

    def backwards(self, spot: Spot, resume: Resume) -> Stop:
        """Where a resumption backwards ends."""
        watched = spot.watched
        if watched is not None and resume.stepping is not None and watched == spot.place:
            return Stop(watched - 1, Reason.STEP, watched, self.timeline.event(watched).thread)
        best = self.last_hit(spot.place, resume.only)
        if resume.stepping not in self.timeline.threads:
            return best
        line = self.timeline.last_move(resume.stepping, spot.place)
        if line is None or line - 1 < best.place or line - 1 == best.place and best.reason is Reason.BREAK:
            return best
        return Stop(line - 1, Reason.STEP, line, resume.stepping)

    def last_hit(self, place: int, only: int | None) -> Stop:
        """The last breakpoint or watchpoint that is met before a place, or the beginning. An access that is
        watched isn't undone yet where it is told."""
        best = Stop(-1, Reason.EDGE)
        for at, (_, conditions) in self.points.breaks.items():
            line = self.last_break(at, conditions, place, only, best.place)
            if line is not None:
                best = Stop(line - 1, Reason.BREAK, line, self.timeline.event(line).thread, at)
        for watch in self.points.watches:
            line = self.last_access(watch, place, only)
            if line is not None and line > best.place:
                best = Stop(line, Reason.WATCH, line, self.timeline.event(line).thread, watch=watch)
        return best

    def last_break(
        self, at: int, conditions: list[Expression], place: int, only: int | None, least: int
    ) -> int | None:
        """The last line up to a place that is at a breakpoint, where it is met after another place."""
        for line in self.timeline.last_execution(at, place):
            if line - 1 <= least:
                return None
            if only in (None, self.timeline.event(line).thread) and self.holds(conditions, line):
                return line
        return None

    def last_access(self, watch: Watchpoint, place: int, only: int | None) -> int | None:
        """The last line up to a place that touches what is watched."""
        line: int | None = place + 1
        while line is not None:
            found = [index.last(watch.at, watch.size, line - 1) for index in self.indexes(watch)]
            line = max(filter(None, found), default=None)
            if line is not None and only in (None, self.timeline.event(line).thread):
                break
        return line

    # what counts

    def indexes(self, watch: Watchpoint) -> Iterator[Index]:
        """Which lines a watchpoint is about."""
        memory, moment = self.timeline.memory, self.points.moment
        if watch.kind != READ and moment in (MADE, BOTH):
            yield memory.made
        if watch.kind != READ and moment in (ENTERS, BOTH):
            yield memory.entering
        if watch.kind == READ or watch.kind == ACCESS and not self.is_for_writes(watch):
            yield memory.reads

    def is_for_writes(self, watch: Watchpoint) -> bool:
        return any(at <= watch.at and watch.at + watch.size <= at + size for at, size in self.points.written)

    def holds(self, conditions: list[Expression], line: int) -> bool:
        """Whether a breakpoint is met at a line: one of its conditions holds, or can't be worked out here, so
        that gdb has to; or there are none."""
        if not conditions:
            return True
        sight = AtPlace(self.timeline, self.timeline.event(line).thread, line - 1, self.points.view)
        return any(has_value(condition, sight) for condition in conditions)


def has_value(condition: Expression, sight: AtPlace) -> bool:
    """Whether a condition isn't 0."""
    try:
        return condition.value(sight) != 0
    except Unknown:
        return True


GDB_SIGNALS = {7: 10, 10: 30, 12: 31, 16: 143, 17: 20, 18: 19, 19: 17, 20: 18, 23: 16, 29: 23, 30: 32, 31: 12}
"""gdb's own numbers of signals (include/gdb/signals.def of its source) by Linux's, where they differ."""


def gdb_signal(signal: int) -> int:
    """gdb's number of a signal of Linux."""
    return GDB_SIGNALS.get(signal, signal)
