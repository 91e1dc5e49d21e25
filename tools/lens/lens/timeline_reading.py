"""Makes the timeline of a run: reads what `trace` prints while it comes, a line at a time."""
from __future__ import annotations

from array import array
from collections.abc import Callable, Iterable, Iterator
from typing import Any

from .facts import (
    CREATED,
    ENDED as IS_ENDED,
    RUNS,
    SLEEPS,
    Answer,
    BarrierBegins,
    Called,
    Fact,
    Faulted,
    Interrupted,
    Lost,
    Read,
    Register,
    Reservation,
    SequenceBegins,
    SequenceEnds,
    Signal,
    Taken,
    ThreadState,
    Waits,
    Wrote,
    Zeroed,
    read_fact,
)
from .faults import LensFault
from .machine import LineRefused, Machine
from .memory_history import FILLED, PAGE, FirstMemory
from .output import DRAIN, EXEC, SIGNAL
from .place import Place
from .program import Program
from .timeline import (
    ENDED,
    NOTHING,
    READY,
    REGISTERS,
    RUNNING,
    SLEEPING,
    CallMade,
    Event,
    Notice,
    Printing,
    SequenceMade,
    State,
    ThreadHistory,
    Timeline,
)
from .trace_text import END, NotATrace, of_line

PRINTS = ('write', 'writev')
LATER = 'later'
SIGSEGV = 11
WITH_RESTART = 128
"""The command of membarrier whose requests ask for a restart (MEMBARRIER_CMD_PRIVATE_EXPEDITED_RSEQ)."""
FACTS = 1 << 14
"""So many facts are kept, since a run tells the same again and again."""
NUMBER = '  line '
"""How the line begins that stands below each log line, and numbers it."""
NOBODY = ThreadHistory(0, [0] * REGISTERS)
"""Stands in the place of the thread of an idle hart."""


def make_timeline(name: str, log: bytes, program: Program, machine: Machine) -> Timeline:
    """The timeline of a log; a fault where it isn't a run of the program under the machine's limits."""
    first_line, _, _ = log.partition(b'\n')
    if not first_line:
        raise LensFault(f'{name} has no steps')
    try:
        start = machine.place_of(first_line + b'\n', (f'--memory={FILLED:x}:{PAGE}',))
        registers = next((hart.registers for hart in start.harts.values() if hart.registers), [0] * REGISTERS)
        timeline = Timeline(program.entry, FirstMemory(program, start.memory), registers)
        with machine.stream('trace', log) as lines:
            TimelineReader(timeline).read(lines)
        timeline.last_pcs = last_pcs(machine.place_of(log))
    except LineRefused as refused:
        words = f'{name} isn\'t a run of {program.path} under these limits'
        raise LensFault(f'{words}: step {refused.line} can\'t come there') from None
    if not timeline.end:
        raise NotATrace(f'{name}: what {machine.program} traces has no line "end REASON" where it ends')
    return timeline


def last_pcs(place: Place) -> dict[int, int]:
    """Where each live thread goes on."""
    pcs = [(number, thread.pc) for number, thread in place.threads.items()]
    pcs += [(hart.thread, hart.pc) for hart in place.harts.values() if hart.thread is not None]
    return {thread: pc for thread, pc in pcs if pc is not None}


Append = Callable[[int], None]


class TimelineReader:
    """Notes each line of a trace and each fact below it."""

    def __init__(self, timeline: Timeline):
        self.timeline = timeline
        self.memory = timeline.memory
        self.number = 0
        self.event, self.history = NOTHING, NOBODY
        """The line of the log to which the facts belong, and its thread."""
        self.seen: dict[bytes, tuple[int, Event, ThreadHistory, tuple[Append, ...]]] = {}
        """Of each log line that came its event, with its number, its thread, and where the line has to be
        noted."""
        self.noted: dict[bytes, tuple[Callable[[Any], None], Any]] = {}
        """Facts that came, as many as FACTS, and what notes each."""
        self.called: Called | None = None
        self.brk: int | None = None
        self.faulting: set[tuple[int, int]] = set()
        """The threads for which the signal of a fault is pending, with the signal."""
        self.begun: dict[int, tuple[int, int]] = {}
        """The thread and the abort handler of each sequence that isn't over, by its first line."""
        self.notes: dict[type, Callable[[Any], None]] = {
            Register: self.note_register,
            Read: self.note_read,
            Waits: self.note_store,
            Wrote: self.note_write,
            Zeroed: self.note_zeroed,
            ThreadState: self.note_state,
            Called: self.note_call,
            Answer: self.note_answer,
            Interrupted: self.note_interruption,
            Faulted: self.note_fault,
            Signal: self.note_signal,
            SequenceBegins: self.note_begin,
            SequenceEnds: self.note_end,
            Reservation: self.note_reservation,
            Lost: self.note_loss,
            BarrierBegins: self.note_barrier,
            Taken: self.note_taken,
        }

    def read(self, lines: Iterable[bytes]) -> None:
        """Reads a trace to its end."""
        left, seen, noted = iter(lines), self.seen, self.noted
        add = self.timeline.lines.append
        for line in left:
            step = seen.get(line)
            if step is not None:
                number, self.event, self.history, appends = step
                self.number += 1
                add(number)
                for append in appends:
                    append(self.number)
                next(left)  # (`  line N`, which is known)
            else:
                note, fact = noted.get(line) or self.first(line)
                note(fact)

    def first(self, line: bytes) -> tuple[Callable[[Any], None], Any]:
        """What a line comes to that isn't known: a fact and what notes it, or a log line."""
        text = line.decode('ascii', 'replace').rstrip('\n')
        if not text.startswith('  '):
            return self.note_event, text
        if text.startswith(NUMBER):
            return pass_over, None
        fact = read_fact(text[2:])
        found = self.notes.get(type(fact), pass_over), fact
        if type(fact) is not Wrote:  # (which names a line, and so comes once)
            if len(self.noted) >= FACTS:
                self.noted.clear()
            self.noted[line] = found
        return found

    def note_event(self, text: str) -> None:
        """Notes a log line that comes for the first time, or one after the log."""
        fields = of_line(text)
        if fields is None:
            if text.startswith(END):
                self.timeline.end = text.removeprefix(END)
            return
        self.event = Event(*fields)
        self.history = self.timeline.threads.get(self.event.thread, NOBODY)
        self.number += 1
        self.timeline.events.append(self.event)
        number = len(self.timeline.events) - 1
        self.timeline.lines.append(number)
        appends = tuple(self.appends(self.event))
        for append in appends:
            append(self.number)
        self.seen[f'{text}\n'.encode()] = number, self.event, self.history, appends

    def appends(self, event: Event) -> Iterator[Append]:
        """Where the lines of an event are noted."""
        if event.thread:
            yield self.timeline.threads[event.thread].lines.append
        if event.kind in (EXEC, SIGNAL):
            yield self.timeline.threads[event.thread].moves.append
        if event.kind == EXEC:
            yield self.timeline.executions.setdefault(event.pc, array('I')).append
        elif event.kind == DRAIN:
            yield self.memory.buffers[event.hart].entered.append

    # registers and memory

    def note_register(self, fact: Register) -> None:
        history = self.history if fact.thread is None else self.timeline.threads[fact.thread]
        series = history.registers[fact.number]
        series.places.append(self.number)
        series.values.append(fact.value)

    def note_read(self, fact: Read) -> None:
        self.memory.reads.note(self.number, fact.at, fact.size)

    def note_store(self, fact: Waits) -> None:
        self.memory.buffers[self.event.hart].execute(self.number, fact.at, fact.size, fact.value)
        self.memory.made.note(self.number, fact.at, fact.size)

    def note_write(self, fact: Wrote) -> None:
        if self.event.kind != DRAIN:
            self.memory.made.note(self.number, fact.at, fact.size)
        self.memory.write(self.number, fact.at, fact.size, fact.value)

    def note_zeroed(self, fact: Zeroed) -> None:
        self.memory.map(self.number, fact.at, fact.length)

    # threads

    def note_state(self, fact: ThreadState) -> None:
        threads = self.timeline.threads
        if fact.state == CREATED:
            threads[fact.thread] = ThreadHistory(self.number, self.history.newest())
        elif fact.state == RUNS:
            threads[fact.thread].change(self.number, State(RUNNING, hart=self.event.hart))
        elif fact.state == SLEEPS:
            threads[fact.thread].change(self.number, State(SLEEPING, word=fact.at))
        else:
            name = ENDED if fact.state == IS_ENDED else READY
            threads[fact.thread].change(self.number, State(name))

    def note_interruption(self, fact: Interrupted) -> None:
        if fact.word == 'aborted':
            if self.event.kind != SIGNAL:
                self.history.moves.append(self.number)
            self.history.restarts.append(self.number)
        elif fact.word == 'killed':
            self.notice(SIGSEGV)

    def note_fault(self, fact: Faulted) -> None:
        """A fault posts its signal. Where that is pending already, as while a store waits, the instruction is
        only tried once more."""
        key = self.event.thread, fact.signal
        if key in self.faulting:
            self.timeline.executions[self.event.pc].pop()
        else:
            self.notice(fact.signal)
            self.faulting.add(key)
        self.history.moves.pop()

    def note_signal(self, fact: Signal) -> None:
        self.note_pending(fact)
        if fact.word == 'posted':
            return
        key = fact.thread or self.event.thread, fact.number
        if fact.word == 'delivered' and key not in self.faulting:
            self.notice(fact.number)
        self.faulting.discard(key)

    def note_pending(self, fact: Signal) -> None:
        """A signal is pending for a thread, or is so no longer."""
        pending = self.timeline.threads[fact.thread or self.event.thread].pending
        bit = 1 << fact.number - 1
        pending.note(self.number, pending.newest() | bit if fact.word == 'posted' else pending.newest() & ~bit)

    def notice(self, signal: int) -> None:
        self.timeline.notices.append(Notice(self.number, self.event.thread, signal))

    def note_begin(self, fact: SequenceBegins) -> None:
        self.begun[self.number] = self.event.thread, fact.abort

    def note_end(self, fact: SequenceEnds) -> None:
        thread, abort = self.begun.pop(fact.first)
        made = SequenceMade(fact.first, fact.last, self.number, abort, fact.form)
        self.timeline.threads[thread].sequences.append(made)

    # harts

    def note_reservation(self, fact: Reservation) -> None:
        """An SC that failed says nothing itself: that a reservation ended is told apart."""
        if fact.word != 'failed':
            value = fact.at + 1 if fact.word == 'reserved' else 0
            self.timeline.harts[self.event.hart].reservations.note(self.number, value)

    def note_loss(self, fact: Lost) -> None:
        self.timeline.harts[fact.hart].reservations.note(self.number, 0)

    def note_barrier(self, fact: BarrierBegins) -> None:
        """The call that begins a barrier was noted just before."""
        command = self.timeline.calls[-1].arguments[0]
        for hart in fact.harts:
            history = self.timeline.harts[hart]
            history.requests.note(self.number, history.requests.newest() | 1 << self.event.hart)
            if command == WITH_RESTART:
                history.restarts.note(self.number, 1)

    def note_taken(self, fact: Taken) -> None:
        """A hart takes all requests that are pending on it."""
        history = self.timeline.harts[self.event.hart]
        history.requests.note(self.number, 0)
        history.restarts.note(self.number, 0)

    # calls

    def note_call(self, fact: Called) -> None:
        self.called = fact

    def note_answer(self, fact: Answer) -> None:
        called = self.called
        if called is None:
            return
        answer = fact.error or (LATER if fact.is_later else '' if fact.value is None else f'{fact.value:#x}')
        made = CallMade(self.number, self.event.thread, called.name, called.arguments, answer)
        self.timeline.calls.append(made)
        if fact.value is not None:
            self.note_effect(called, fact.value)
        self.called = None

    def note_effect(self, called: Called, value: int) -> None:
        """What the facts of a call don't say: that it printed, or that it took pages away."""
        if called.name in PRINTS and value:
            self.timeline.printings.append(Printing(self.number, value))
        elif called.name == 'munmap':
            start, length, *_ = called.arguments
            self.memory.unmap(self.number, start, start + length)
        elif called.name == 'brk':
            if self.brk is not None and value < self.brk:
                self.memory.unmap(self.number, up(value), up(self.brk))
            self.brk = value


def pass_over(_: Fact | None) -> None:
    """Notes nothing of a fact."""


def up(address: int) -> int:
    """The first page boundary from an address on."""
    return -(-address // PAGE) * PAGE
