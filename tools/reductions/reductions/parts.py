"""What programs are put together from: calls with their arguments, and sequences."""
from __future__ import annotations

from collections.abc import Iterator
from dataclasses import dataclass

from .program import (
    ACTION, AREAS, BASE, CALL_RSEQ, DESCRIPTOR_BYTES, DESCRIPTORS, RUNNING, SCRATCH, SIGNATURE, Lines, called,
)

AREA_BYTES = 32
CPU_ID_START, CPU_ID, RSEQ_CS, NODE_ID, MM_CID = 0, 4, 8, 20, 24
"""The words of an area (linux/rseq.h)."""
SIGNAL = 10
CALL_FUTEX, CALL_SCHED_YIELD, CALL_TKILL, CALL_RT_SIGACTION, CALL_GETCPU = 98, 124, 130, 134, 168
CALL_MEMBARRIER = 283
FUTEX_WAIT, FUTEX_WAKE = 0, 1
PRIVATE_EXPEDITED, REGISTER_PRIVATE_EXPEDITED = 8, 16
PRIVATE_EXPEDITED_RSEQ, REGISTER_PRIVATE_EXPEDITED_RSEQ = 128, 256


def registered(thread: int) -> Lines:
    """A thread, 0 or 1, registers its area."""
    place = (f'addi a0, {BASE}, {AREAS[thread]}', f'li a1, {AREA_BYTES}', 'li a2, 0')
    return (*place, f'li a3, {SIGNATURE:#x}', *called(CALL_RSEQ))


def barrier(command: int) -> Lines:
    """A command of membarrier(2)."""
    return (f'li a0, {command}', 'li a1, 0', *called(CALL_MEMBARRIER))


def handled() -> Lines:
    """The signal gets its handler."""
    action = f'addi a1, {BASE}, {ACTION}'
    return (f'li a0, {SIGNAL}', action, 'li a2, 0', 'li a3, 8', *called(CALL_RT_SIGACTION))


def sent(tid: int, signal: int) -> Lines:
    """A signal is sent to a thread."""
    return (f'li a0, {tid}', f'li a1, {signal}', *called(CALL_TKILL))


def yielded() -> Lines:
    return called(CALL_SCHED_YIELD)


def asked_cpu(into: str) -> Lines:
    """On which hart the thread runs, by getcpu(2)."""
    word = f'addi a0, {BASE}, {SCRATCH}'
    return (word, 'li a1, 0', *called(CALL_GETCPU), f'lw {into}, {SCRATCH}({BASE})')


def waited(word: int, value: int) -> Lines:
    """The thread waits while a word has a value, for a wake or a signal."""
    place = f'addi a0, {BASE}, {word}'
    return (place, f'li a1, {FUTEX_WAIT}', f'li a2, {value}', 'li a3, 0', *called(CALL_FUTEX))


def woken(word: int) -> Lines:
    """One thread that waits there is woken."""
    return (f'addi a0, {BASE}, {word}', f'li a1, {FUTEX_WAKE}', 'li a2, 1', *called(CALL_FUTEX))


def has_ended() -> Lines:
    """Thread 1 waits until the other one has ended."""
    return ('ended:', f'lw a5, {RUNNING}({BASE})', 'bnez a5, ended')


@dataclass(frozen=True)
class Sequence:
    """A restartable sequence of a thread (0 or 1) with a number: what it executes before the last
    instruction, which is the commit; what stands between the store of its descriptor's address and its first
    instruction; where it goes on after an abort: at its start (`is_retried`), or past it, by way of some
    lines of the abort handler; and whether it asks first on which hart it runs, and looks again inside."""

    number: int
    thread: int
    inside: Lines
    commit: str
    gap: Lines = ()
    handler: Lines = ()
    is_retried: bool = False
    is_checked: bool = False
    is_cleared: bool = False

    def lines(self) -> Iterator[str]:
        number, area = self.number, AREAS[self.thread]
        yield f'retry{number}:'
        if self.is_checked:
            yield f'lw t5, {area + CPU_ID_START}({BASE})'
        yield f'addi t4, {BASE}, {DESCRIPTORS + DESCRIPTOR_BYTES * number}'
        yield from (f'sd t4, {area + RSEQ_CS}({BASE})', *self.gap, f'start{number}:')
        if self.is_checked:
            yield from (f'lw t4, {area + CPU_ID}({BASE})', f'bne t4, t5, abort{number}')
        yield from (*self.inside, self.commit, f'end{number}:')
        if self.is_cleared:
            yield f'sd zero, {area + RSEQ_CS}({BASE})'
        yield from (f'j past{number}', f'.word {SIGNATURE:#x}', f'abort{number}:', *self.handler)
        if self.is_retried:
            yield f'j retry{number}'
        yield f'past{number}:'
