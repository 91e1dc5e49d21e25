"""Replays the log of a run on its program: what each line made of its thread's registers, which store it
executed, and what entered memory.

It knows the instructions and the calls of the guest `urcu` and a few more; whatever else a log has is a
fault, and so is a line whose pc isn't the one that the replay has come to. It leaves out what nothing here
looks at: the concurrency id in an area, the abort of a sequence, and whether a futex answers EAGAIN.
"""
from __future__ import annotations

import struct
from collections import deque
from functools import cache
from operator import add, eq, floordiv, lt, mod, ne, sub
from typing import NamedTuple

from lens import calls
from lens.instructions import A7, ECALL, SIZE, Opcode, bits, branch_distance, jump_distance, signed
from lens.output import DONE, DRAIN, EXEC, HARTS, RUN, SIGNAL, Step

RA, SP, TP, A0, A1, A2 = 1, 2, 4, 10, 11, 12
WORD = (1 << 64) - 1
PAGE, STACK_PAGES, START_SP = 0x1000, range(0x3FF_FF00, 0x3FF_FF40), 0x3F_FFF3_FF30
HANDLER_RETURN, LI_A7_SIGRETURN, FRAME, SIGUSR1 = 0x3F_FFFF_0000, 0x08B00893, 272, 10
QUERY, PRIVATE, REGISTER_PRIVATE, QUERY_ANSWER, EPERM, ESRCH = 0, 8, 16, 927, 1, 3
BRANCHES = {0: eq, 1: ne, 6: lt}
SUMS = {(0, 0): add, (0, 0x20): sub, (5, 1): floordiv, (7, 1): mod}


class ReplayFault(Exception):
    """What a log has that its program doesn't do, or that this replay doesn't know."""


class File(NamedTuple):
    """The pc and the registers of a thread."""

    pc: int
    registers: tuple[int, ...]

    def going(self, pc: int, register: int = 0, value: int = 0) -> File:
        """The same at another pc, with another value in a register."""
        x = self.registers
        return File(pc & WORD, (*x[:register], value & WORD, *x[register + 1 :]) if register else x)


class Store(NamedTuple):
    at: int
    size: int
    value: int

    def touches(self, at: int, size: int) -> bool:
        return self.at < at + size and at < self.at + self.size


class Deed(NamedTuple):
    """The file of its thread after a line, the stores that were executed, and what entered memory."""

    after: File
    executed: list[Store] = []
    entered: list[Store] = []


class Event(NamedTuple):
    """A line with what it did; what could be used, and whether the process was registered, before it."""

    step: Step
    before: File
    deed: Deed
    usable: frozenset[int]
    is_registered: bool


class Replay:
    """Where a log has come to: threads by number, the waiting stores of each hart, memory by bytes."""

    def __init__(self, elf: bytes):
        self.entry = int.from_bytes(elf[24:32], 'little')
        self.memory: dict[int, int] = {}
        self.code = {HANDLER_RETURN: LI_A7_SIGRETURN, HANDLER_RETURN + SIZE: ECALL}
        self.usable = frozenset(STACK_PAGES)
        for _, flags, offset, at, _, length, size, _ in segments(elf):
            self.memory.update(enumerate(elf[offset : offset + length], at))
            if flags & 1:
                words = struct.iter_unpack('<I', elf[offset : offset + length])
                self.code.update((at + SIZE * number, word) for number, (word,) in enumerate(words))
            elif flags & 2:
                self.usable |= pages(at, size)
        self.files = {1: File(self.entry, (0, 0, START_SP, *[0] * 29))}
        self.waiting: list[deque[Store]] = [deque() for _ in range(HARTS)]
        self.ended: set[int] = set()
        self.areas: dict[int, int] = {}
        self.clears: dict[int, int] = {}
        self.handler = 0
        self.is_registered = False

    def view(self, hart: int, at: int, size: int = 8) -> int:
        """A number as a hart sees it: each byte its youngest waiting store's that has it, else memory's."""
        return int.from_bytes(bytes(self.byte(hart, a & WORD) for a in range(at, at + size)), 'little')

    def byte(self, hart: int, at: int) -> int:
        for store in reversed(self.waiting[hart]):
            if store.touches(at, 1):
                return store.value >> 8 * (at - store.at) & 0xFF
        return self.memory.get(at, 0)

    def event(self, step: Step) -> Event:
        """What the next line of the log did."""
        before = self.files.get(step.thread, File(step.pc, ()))
        if before.pc != step.pc:
            raise ReplayFault(f'line {step.number}: thread {step.thread} has come to {before.pc:#x}')
        usable, is_registered = self.usable, self.is_registered
        deed = self.deed(step, before)
        for store in deed.entered:
            self.memory.update(enumerate(store.value.to_bytes(store.size, 'little'), store.at))
        if deed.after is not before:
            self.files[step.thread] = deed.after
        return Event(step, before, deed, usable, is_registered)

    def deed(self, step: Step, file: File) -> Deed:
        if step.kind == DRAIN:
            return Deed(file, entered=[self.waiting[step.hart].popleft()])
        if step.kind == RUN:
            return Deed(file, entered=self.area_words(step))
        if step.kind == DONE:
            return Deed(file.going(file.pc, A0, 0))
        if step.kind == SIGNAL:
            return self.handled(file)
        if step.kind != EXEC:
            return Deed(file)
        return self.called(step, file) if self.code.get(file.pc) == ECALL else self.executed(step, file)

    def area_words(self, step: Step) -> list[Store]:
        """What the kernel writes in the area of a thread: the hart twice, node and id (rseq(2))."""
        at = self.areas.get(step.thread)
        return [] if at is None else [Store(at, 8, step.hart << 32 | step.hart), Store(at + 20, 8, 0)]

    def handled(self, file: File) -> Deed:
        """A handler begins, with the file in a frame on its stack."""
        frame, x = (file.registers[SP] - FRAME) // 16 * 16, list(file.registers)
        words = [file.pc, *x[1:], 0, 0]
        x[RA], x[SP], x[A0], x[A1], x[A2] = HANDLER_RETURN, frame, SIGUSR1, 0, frame
        stores = [Store(frame + 8 * number, 8, word) for number, word in enumerate(words)]
        return Deed(File(self.handler, tuple(x)), entered=stores)

    def executed(self, step: Step, file: File) -> Deed:
        """An instruction that is no call."""
        word = self.code.get(step.pc, 0)
        to, kind, more = bits(word, 11, 7), bits(word, 14, 12), bits(word, 31, 25)
        a, b = file.registers[bits(word, 19, 15)], file.registers[bits(word, 24, 20)]
        near, past = signed(bits(word, 31, 20), 12), step.pc + SIZE
        match bits(word, 6, 0):
            case Opcode.LUI:
                return Deed(file.going(past, to, signed(word & 0xFFFF_F000, 32)))
            case Opcode.JAL:
                return Deed(file.going(step.pc + jump_distance(word), to, past))
            case Opcode.JALR:
                return Deed(file.going(a + near & ~1, to, past))
            case Opcode.BRANCH if kind in BRANCHES:
                return Deed(file.going(step.pc + branch_distance(word) if BRANCHES[kind](a, b) else past))
            case Opcode.LOAD if kind < 4:
                loaded = signed(self.view(step.hart, a + near, 1 << kind), 8 << kind)
                return Deed(file.going(past, to, loaded))
            case Opcode.STORE:
                at, size = a + signed(more << 5 | to, 12) & WORD, 1 << kind
                return self.stored(step, file, Store(at, size, b & (1 << 8 * size) - 1))
            case Opcode.OP_IMM if kind == 0:
                return Deed(file.going(past, to, a + near))
            case Opcode.OP_IMM if kind == 5 and not more >> 1:
                return Deed(file.going(past, to, a >> bits(word, 25, 20)))
            case Opcode.OP if (kind, more) in SUMS:
                return Deed(file.going(past, to, SUMS[kind, more](a, b)))
        raise ReplayFault(f'line {step.number}: the instruction {word:#010x} isn\'t known here')

    def stored(self, step: Step, file: File, store: Store) -> Deed:
        """A store waits, unless it faults."""
        if not pages(store.at, store.size) <= self.usable:
            return Deed(file)
        self.waiting[step.hart].append(store)
        return Deed(file.going(file.pc + SIZE), executed=[store])

    def called(self, step: Step, file: File) -> Deed:
        """A call: what it answers, and what the kernel writes."""
        a0, a1, a2, a3, a4 = file.registers[A0 : A0 + 5]
        past, answer, entered = file.pc + SIZE, 0, []
        match file.registers[A7]:
            case calls.FUTEX | calls.EXIT_GROUP:
                pass
            case calls.TKILL:
                answer = -ESRCH if a0 in self.ended else 0
            case calls.WRITE:
                answer = a2
            case calls.EXIT:
                self.ended.add(step.thread)
                entered = [Store(self.clears[step.thread], 4, 0)] if step.thread in self.clears else []
            case calls.RT_SIGACTION:
                self.handler = self.view(step.hart, a1)
            case calls.RT_SIGRETURN:
                frame = [self.view(step.hart, file.registers[SP] + 8 * number) for number in range(32)]
                return Deed(File(frame[0], (0, *frame[1:])))
            case calls.CLONE:
                answer = len(self.files) + 1
                self.files[answer] = file.going(past, SP, a1).going(past, TP, a3).going(past, A0, 0)
                self.clears[answer], entered = a4, [Store(a2, 4, answer)]
            case calls.MPROTECT:
                self.usable = self.usable - pages(a0, a1) | (pages(a0, a1) if a2 & 3 == 3 else frozenset())
            case calls.MEMBARRIER if a0 in (QUERY, PRIVATE, REGISTER_PRIVATE):
                answer = self.barrier(a0)
            case calls.RSEQ:
                self.areas[step.thread] = a0
                entered = self.area_words(step)
            case number:
                raise ReplayFault(f'line {step.number}: the call {number} isn\'t known here')
        return Deed(file.going(past, A0, answer), entered=entered)

    def barrier(self, command: int) -> int:
        """The answer of membarrier, also of a barrier that returns by a `done`."""
        self.is_registered |= command == REGISTER_PRIVATE
        if command == QUERY:
            return QUERY_ANSWER
        return -EPERM if command == PRIVATE and not self.is_registered else 0


@cache
def pages(at: int, size: int) -> frozenset[int]:
    """The pages of some bytes."""
    return frozenset(range(at // PAGE, (at + size - 1) // PAGE + 1))


def segments(elf: bytes):
    """The rows of the program header table (System V ABI, "Program Header")."""
    return struct.iter_unpack('<IIQQQQQQ', elf[64 : 64 + 56 * int.from_bytes(elf[56:58], 'little')])
