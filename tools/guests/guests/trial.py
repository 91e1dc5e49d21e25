"""A trial of the guest `counter` by the rule of rounds, apart from the program: its console and its summary.

It knows the calls, the instructions and the events of that guest alone. Any page can be written.
"""
from __future__ import annotations

import struct
from dataclasses import dataclass, field
from enum import IntEnum
from typing import NamedTuple, Sequence

from .choosing import Generator, Pick, Sight, pick
from .instructions import WORD, Step, step_of

# struct rseq: the processor twice, and the pointer. struct rseq_cs: start, length, abort (rseq(2)).
CPU_START, CPU, POINTER, RANGE = 0, 4, 8, 8
MOST_STORES = 8
EAGAIN = 11
SP, TP, A0, A1, A2, A3, A4, A7 = 2, 4, 10, 11, 12, 13, 14, 17

Store = tuple[int, bytes]


class Call(IntEnum):
    """The calls of the guest; any other number is a fault."""

    WRITE = 64
    EXIT = 93
    EXIT_GROUP = 94
    FUTEX = 98
    CLONE = 220
    RSEQ = 293


@dataclass
class Thread:
    pc: int
    x: list[int]
    area: int | None = None
    clear: int = 0


@dataclass
class Hart:
    number: int
    generator: Generator
    thread: int | None = None
    stores: list[Store] = field(default_factory=list)
    ran: int = 0
    credit: int = 0


class Range(NamedTuple):
    start: int
    length: int
    abort: int

    def has(self, pc: int) -> bool:
        return (pc - self.start) & WORD < self.length


@dataclass
class Tally:
    """How many acts of each form a hart made."""

    step: int = 0
    left: int = 0
    cut: int = 0
    kernel: int = 0


class Trial:
    """The machine, with the program of a file in it."""

    def __init__(self, file: bytes, harts: int, seed: int) -> None:
        self.memory: dict[int, int] = {}
        (entry,) = struct.unpack_from('<Q', file, 24)
        for k in range(2):
            _, _, place, at, _, held, _, _ = struct.unpack_from('<IIQQQQQQ', file, 64 + 56 * k)
            self.memory.update(enumerate(file[place : place + held], at))
        self.threads = {1: Thread(entry, [0] * 32)}
        self.ready: list[int] = [1]
        self.waiting: list[tuple[int, int]] = []
        self.harts = [Hart(h, Generator((seed + h) & WORD)) for h in range(harts)]
        self.tallies = [Tally() for _ in range(harts)]
        # Of each thread that is in a sequence: on which hart it began it.
        self.begun: dict[int, int] = {}
        self.console = b''
        self.ended: int | None = None
        self.given = 1

    # MEMORY

    def read(self, at: int, size: int, stores: Sequence[Store] = ()) -> int:
        """A number as a hart sees it behind these stores, or as memory has it."""
        seen = {a: self.memory.get(a, 0) for a in range(at, at + size)}
        for place, held in stores:
            seen.update((a, byte) for a, byte in enumerate(held, place) if a in seen)
        return int.from_bytes(bytes(seen[a] for a in range(at, at + size)), 'little')

    def write(self, at: int, size: int, value: int) -> None:
        self.memory.update(enumerate((value & (1 << 8 * size) - 1).to_bytes(size, 'little'), at))

    def named(self, thread: Thread, stores: Sequence[Store] = ()) -> Range | None:
        """The sequence that the area of a thread names."""
        pointer = self.read(thread.area + POINTER, 8, stores) if thread.area is not None else 0
        words = (self.read(pointer + RANGE + 8 * k, 8, stores) for k in range(3))
        return Range(*words) if pointer else None

    def is_inside(self, thread: Thread, stores: Sequence[Store]) -> bool:
        sequence = self.named(thread, stores)
        return sequence is not None and sequence.has(thread.pc)

    # CHOICES

    def next_step(self, thread: Thread) -> Step:
        return step_of(self.read(thread.pc, 4), thread.pc, thread.x)

    def sight(self, hart: Hart) -> Sight:
        if hart.thread is None:
            return Sight(True, bool(self.ready), 0, False, False, 0, 0)
        step = self.next_step(self.threads[hart.thread])
        full = step.store is not None and len(hart.stores) == MOST_STORES
        held = step.is_call and bool(hart.stores)
        may = not (full or held)
        return Sight(False, bool(self.ready), len(hart.stores), may, step.is_local, hart.ran, hart.credit)

    def turn(self, hart: Hart) -> None:
        """A hart makes its event, where it has one."""
        chosen = pick(self.sight(hart), hart.generator)
        if chosen is not None:
            self.make(hart, chosen)
            hart.credit = chosen.credit

    # EVENTS

    def make(self, hart: Hart, chosen: Pick) -> None:
        tally = self.tallies[hart.number]
        if chosen.event == 'run':
            tally.kernel += 1
            self.run(hart)
            return
        thread = self.threads[hart.thread]
        was_inside = self.is_inside(thread, hart.stores)
        if chosen.event == 'preempt':
            tally.kernel += 1
            self.ready.append(hart.thread)
            hart.thread = None
            return
        if chosen.event == 'drain':
            at, held = hart.stores.pop(0)
            self.memory.update(enumerate(held, at))
        else:
            self.execute(hart, thread)
        # A sequence begins with an instruction: a store that enters memory before that is no act of it.
        if not was_inside or (chosen.event == 'drain' and hart.thread not in self.begun):
            tally.step += 1
        else:
            self.goes_on(hart, thread)

    def goes_on(self, hart: Hart, thread: Thread) -> None:
        """After an event inside its sequence a thread is in it, or has left it."""
        if self.is_inside(thread, hart.stores):
            self.begun[hart.thread] = hart.number
        else:
            self.begun.pop(hart.thread, None)
            self.tallies[hart.number].left += 1

    def run(self, hart: Hart) -> None:
        """The first ready thread is interrupted, and begins to run."""
        number = self.ready.pop(0)
        thread = self.threads[number]
        sequence = self.named(thread)
        if sequence is not None:
            if sequence.has(thread.pc):
                thread.pc = sequence.abort
                if number in self.begun:
                    self.tallies[self.begun.pop(number)].cut += 1
            self.write(thread.area + POINTER, 8, 0)
        self.tell_processor(hart, thread)
        hart.thread, hart.ran = number, 0

    def tell_processor(self, hart: Hart, thread: Thread) -> None:
        if thread.area is not None:
            self.write(thread.area + CPU_START, 4, hart.number)
            self.write(thread.area + CPU, 4, hart.number)

    def execute(self, hart: Hart, thread: Thread) -> None:
        step = self.next_step(thread)
        hart.ran += 1
        thread.pc = step.pc
        value = step.value
        if step.load is not None:
            value = loaded(self.read(*step.load, hart.stores), step.load[1])
        if step.store is not None:
            at, size, stored = step.store
            hart.stores.append((at, (stored & (1 << 8 * size) - 1).to_bytes(size, 'little')))
        if step.is_call:
            self.call(hart, thread)
        elif step.register:
            thread.x[step.register] = value

    # CALLS

    def call(self, hart: Hart, thread: Thread) -> None:
        x = thread.x
        match Call(x[A7]):
            case Call.WRITE:
                self.console += bytes(self.memory.get(a, 0) for a in range(x[A1], x[A1] + x[A2]))
                x[A0] = x[A2]
            case Call.RSEQ:
                thread.area, x[A0] = x[A0], 0
                self.tell_processor(hart, thread)
            case Call.CLONE:
                self.clone(thread)
            case Call.FUTEX:
                self.wait(hart, thread)
            case Call.EXIT:
                self.exit(hart, thread)
            case Call.EXIT_GROUP:
                self.ended = x[A0] & 0xFF

    def wait(self, hart: Hart, thread: Thread) -> None:
        """futex(2): the thread waits where the word is the one that it expects."""
        at, expected = thread.x[A0], thread.x[A2] & 0xFFFFFFFF
        if self.read(at, 4) != expected:
            thread.x[A0] = -EAGAIN & WORD
            return
        thread.x[A0] = 0
        self.waiting.append((at, hart.thread))
        hart.thread = None

    def clone(self, thread: Thread) -> None:
        """clone(2) with CLONE_SETTLS, CLONE_PARENT_SETTID and CLONE_CHILD_CLEARTID."""
        self.given += 1
        child = Thread(thread.pc, list(thread.x), clear=thread.x[A4])
        child.x[SP], child.x[TP], child.x[A0] = thread.x[A1], thread.x[A3], 0
        self.threads[self.given] = child
        self.ready.append(self.given)
        self.write(thread.x[A2], 4, self.given)
        thread.x[A0] = self.given

    def exit(self, hart: Hart, thread: Thread) -> None:
        """The word at the thread's clear address becomes 0, and whoever waits there longest is woken."""
        del self.threads[hart.thread]
        hart.thread = None
        self.write(thread.clear, 4, 0)
        woken = next((pair for pair in self.waiting if pair[0] == thread.clear), None)
        if woken is not None:
            self.waiting.remove(woken)
            self.ready.append(woken[1])

    # THE WHOLE

    def text(self) -> bytes:
        """What `trial` prints once the run has ended."""
        while self.ended is None:
            for hart in self.harts:
                if self.ended is None:
                    self.turn(hart)
        acts = ''.join(
            f'hart {h} step {t.step} left {t.left} cut {t.cut} dropped 0 dead 0 open 0 kernel {t.kernel}\n'
            for h, t in enumerate(self.tallies)
        )
        head = f'console {len(self.console)}\n'.encode() + self.console + b'\n'
        return head + f'{acts}barriers 0\nend exit {self.ended}\n'.encode()


def loaded(value: int, size: int) -> int:
    """What LW or LD puts into a register."""
    return (value | -(value >> 31 & 1) << 32) & WORD if size == 4 else value
