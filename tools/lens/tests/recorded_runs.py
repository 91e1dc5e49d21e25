"""Recorded runs for tests, and what is found out about one without an index: by a scan of its records."""
from __future__ import annotations

import shutil
import unittest
from dataclasses import dataclass, field
from functools import cache
from pathlib import Path

from lens.facts import Faulted, Interrupted, Read, Signal, Waits, Wrote
from lens.machine import Machine
from lens.memory_history import FirstMemory
from lens.output import DRAIN, EXEC, SIGNAL, read_output
from lens.program import Program
from lens.recorded import Recorded
from lens.stops import ACCESS, BOTH, ENTERS, MADE, READ, WRITE, Points, Reason, Resume, Spot, Stop, gdb_signal
from lens.timeline import REGISTERS, Timeline
from lens.timeline_reading import TimelineReader
from lens.trace_text import Record, Trace, parse_trace

from .common import FOUND, PETERSON, PROGRAM, TRACES

STACK_POINTER, AT_START = 2, 0x3F_FFF3_FF30
"""What sp is at the start of the kept run; all other registers are 0."""


@cache
def kept_timeline() -> Timeline:
    """The timeline of a kept text, for which no built program is needed."""
    registers = [AT_START if number == STACK_POINTER else 0 for number in range(REGISTERS)]
    program = Program(str(PETERSON))
    timeline = Timeline(program.entry, FirstMemory(program, {}), registers)
    with open(TRACES / 'found.trace', 'rb') as lines:
        TimelineReader(timeline).read(lines)
    return timeline


@cache
def kept_trace() -> Trace:
    return parse_trace('found.trace', (TRACES / 'found.trace').read_bytes())


def kept_recorded() -> Recorded:
    """The run of the kept text as a debugger sees it; the machine isn't asked."""
    console = read_output(str(FOUND)).console
    return Recorded('found', Program(str(PETERSON)), Machine('no program', str(PETERSON), ()), kept_timeline(), console)


def machine_of(run: Path, elf: Path, harts: int) -> Machine:
    """The built program with as many harts as a run has."""
    return Machine(str(PROGRAM), str(elf), (f'--harts={harts}',))


def harts_of(run: Path) -> int:
    """How many harts a run has at least, and no fewer than the program takes by itself."""
    return max(2, *(hart + 1 for hart in read_output(str(run)).harts))


@dataclass
class Scanned:
    """What one line of a run does: which pc moves, what it touches, and which signal it brings."""

    record: Record
    moves: int | None = None
    is_executed: bool = False
    signal: int | None = None
    reads: set[int] = field(default_factory=set)
    made: set[int] = field(default_factory=set)
    entering: set[int] = field(default_factory=set)


class Scan:
    """A run line by line, as its records say it."""

    def __init__(self, trace: Trace):
        self.faulting: set[tuple[int, int]] = set()
        self.lines = [self.scanned(record) for record in trace.records]

    def scanned(self, record: Record) -> Scanned:
        line, step = Scanned(record), record.step
        fault = record.first(Faulted)
        restart = any(fact.word == 'aborted' for fact in record.of_kind(Interrupted))
        if step.kind == EXEC and not fault or step.kind == SIGNAL or restart:
            line.moves = step.thread
        line.is_executed = step.kind == EXEC
        if fault:
            line.is_executed = (step.thread, fault.signal) not in self.faulting
            line.signal = fault.signal if line.is_executed else None
            self.faulting.add((step.thread, fault.signal))
        self.note_signals(line)
        self.note_accesses(line)
        return line

    def note_signals(self, line: Scanned) -> None:
        step = line.record.step
        for fact in line.record.of_kind(Signal):
            key = fact.thread or step.thread, fact.number
            if fact.word == 'delivered' and key not in self.faulting:
                line.signal = fact.number
            if fact.word != 'posted':
                self.faulting.discard(key)
        if any(fact.word == 'killed' for fact in line.record.of_kind(Interrupted)):
            line.signal = 11

    def note_accesses(self, line: Scanned) -> None:
        for fact in line.record.facts:
            if type(fact) in (Read, Waits, Wrote):
                bytes_ = set(range(fact.at, fact.at + fact.size))
                if type(fact) is Read:
                    line.reads |= bytes_
                if type(fact) is Waits or type(fact) is Wrote and line.record.step.kind != DRAIN:
                    line.made |= bytes_
                if type(fact) is Wrote:
                    line.entering |= bytes_

    def pc(self, thread: int, place: int) -> int | None:
        """Where a thread goes on; None where it doesn't."""
        later = (line.record.step for line in self.lines[place:])
        return next((step.pc for step in later if step.thread == thread), None)

    def touches(self, line: Scanned, points: Points) -> bool:
        return any(self.is_touched(line, *watch, points.moment) for watch in points.watches)

    def is_touched(self, line: Scanned, kind: int, at: int, size: int, moment: str) -> bool:
        bytes_ = set(range(at, at + size))
        is_made = kind != READ and moment in (MADE, BOTH) and bytes_ & line.made
        is_entering = kind != READ and moment in (ENTERS, BOTH) and bytes_ & line.entering
        return bool(is_made or is_entering or kind in (READ, ACCESS) and bytes_ & line.reads)

    # stops

    def forwards(self, spot: Spot, points: Points, resume: Resume) -> Stop:
        if resume.stepping is not None and spot.watched == spot.place + 1:
            return Stop(spot.place + 1, Reason.STEP, spot.place + 1)
        for place in range(spot.place, len(self.lines)):
            line, number = self.lines[place], place + 1
            thread = line.record.step.thread
            reason = self.reason(line, points, resume, spot.is_told and place == spot.place)
            if place > spot.place and self.is_stepped(place, resume):
                return Stop(place, Reason.STEP, place, resume.stepping)
            if reason and resume.only in (None, thread):
                return Stop(place, reason, number, thread)
        if spot.place < len(self.lines) and self.is_stepped(len(self.lines), resume):
            return Stop(len(self.lines), Reason.STEP, len(self.lines), resume.stepping)
        return Stop(len(self.lines) + 1, Reason.EDGE)

    def reason(self, line: Scanned, points: Points, resume: Resume, is_told: bool) -> Reason | None:
        """Why one stops before a line."""
        step = line.record.step
        if self.touches(line, points):
            return Reason.WATCH
        if line.is_executed and step.pc in points.breaks and not is_told:
            return Reason.BREAK
        if line.signal is not None and not is_told:
            if step.thread == resume.stepping or gdb_signal(line.signal) not in points.passed:
                return Reason.SIGNAL
        return None

    def is_stepped(self, place: int, resume: Resume) -> bool:
        """Whether the last line before a place is a step of the thread that steps, out of its span."""
        if resume.stepping is None or self.lines[place - 1].moves != resume.stepping:
            return False
        pc = self.pc(resume.stepping, place)
        low, high = resume.span or (0, 0)
        return pc is None or not low <= pc < high

    def backwards(self, spot: Spot, points: Points, resume: Resume) -> Stop:
        if resume.stepping is not None and spot.watched == spot.place:
            return Stop(spot.place - 1, Reason.STEP, spot.place)
        for number in range(spot.place, 0, -1):
            line = self.lines[number - 1]
            thread = line.record.step.thread
            is_wanted = resume.only in (None, thread)
            if is_wanted and self.touches(line, points):
                return Stop(number, Reason.WATCH, number, thread)
            if is_wanted and line.is_executed and line.record.step.pc in points.breaks:
                return Stop(number - 1, Reason.BREAK, number, thread)
            if resume.stepping is not None and line.moves == resume.stepping:
                return Stop(number - 1, Reason.STEP, number, thread)
        return Stop(-1, Reason.EDGE)


KINDS_OF_WATCH = (WRITE, READ, ACCESS)
MOMENTS = (MADE, ENTERS, BOTH)

GDB = 'gdb-multiarch'
needs_gdb = unittest.skipUnless(shutil.which(GDB), f'there is no {GDB}')
