"""The exact set of outcomes of a litmus test, by walking through every state. Nothing of `rseq_run` is used
here.

The memory model is that of the RISC-V Unprivileged ISA with Ztso, as store buffers (docs/reference/KERNEL.md,
"Fidelity"): a store waits in the buffer of its hart, first in, first out, and then enters memory; a load has
the value of the youngest store to its word that waits there, else that of memory; AMO, LR, SC and the fences
of WAITING_FENCES wait until the buffer is empty, and act on memory.

A thread leaves its hart only where no store waits there, so what waits in a hart's buffer is of the thread
that runs on it: buffers are of threads here. Being preempted and moved adds no order of loads and stores. It
ends a reservation, so an SC may always fail. And it lets more threads than harts go on: a thread that has no
store and no reservation may give its hart away for nothing; one that has one of these holds its hart. So a
thread makes an instruction where fewer others hold a hart than there are harts. On as many harts as threads
that is always so, and on one hart no store is ever seen late.
"""
from __future__ import annotations

from collections.abc import Iterator
from typing import NamedTuple, Optional

from .instructions import (
    WAITING_FENCES, Amo, Fence, Instruction, Litmus, Load, LoadReserved, Store, StoreConditional, has_result,
)

WAITING_STORES = 8
"""So many stores may wait on a hart."""
RESERVED_BYTES = 8


class Thread(NamedTuple):
    """How far a thread is: its next instruction, its results, the stores that wait (word and value, the
    oldest first), and which 8 bytes are reserved."""

    at: int = 0
    results: tuple[int, ...] = ()
    waiting: tuple[tuple[int, int], ...] = ()
    reserved: Optional[int] = None

    @property
    def holds_hart(self) -> bool:
        """Whether it can't leave its hart as it is."""
        return bool(self.waiting) or self.reserved is not None


class State(NamedTuple):
    """All threads, and the words of memory."""

    threads: tuple[Thread, ...]
    memory: tuple[int, ...]


class Outcome(NamedTuple):
    """The results of each thread, and what the words have when all is over."""

    results: tuple[tuple[int, ...], ...]
    memory: tuple[int, ...]


def computed(kind: str, before: int, value: int) -> int:
    """What an AMO leaves in a word."""
    made = {
        'swap': value,
        'add': before + value,
        'and': before & value,
        'or': before | value,
        'xor': before ^ value,
        'max': max(before, value),
        'min': min(before, value),
    }
    return made[kind]


def set_at(values: tuple[int, ...], at: int, value: int) -> tuple[int, ...]:
    return (*values[:at], value, *values[at + 1 :])


class Enumeration:
    """All states of a test on so many harts."""

    def __init__(self, litmus: Litmus, harts: int):
        self.litmus = litmus
        self.harts = harts

    def outcomes(self) -> frozenset[Outcome]:
        """What each way through comes to."""
        start = State(tuple(Thread() for _ in self.litmus.threads), (0,) * self.litmus.words)
        seen, left, found = {start}, [start], set()
        while left:
            state = left.pop()
            if self.is_over(state):
                found.add(Outcome(tuple(thread.results for thread in state.threads), state.memory))
            new = [after for after in self.after(state) if after not in seen]
            seen.update(new)
            left.extend(new)
        return frozenset(found)

    def is_over(self, state: State) -> bool:
        """Whether each thread has executed all it has, and no store waits."""
        ended = zip(state.threads, self.litmus.threads)
        return all(thread.at == len(body) and not thread.waiting for thread, body in ended)

    def after(self, state: State) -> Iterator[State]:
        """The states that may come next."""
        for number, thread in enumerate(state.threads):
            if thread.waiting:
                yield self.drained(state, number)
            elif thread.reserved is not None:
                yield self.with_thread(state, number, thread._replace(reserved=None))
            if thread.at < len(self.litmus.threads[number]) and self.has_hart(state, number):
                instruction = self.litmus.threads[number][thread.at]
                if self.may_execute(thread, instruction):
                    yield self.executed(state, number, instruction)

    def has_hart(self, state: State, number: int) -> bool:
        """Whether the other threads leave it a hart."""
        others = (thread for at, thread in enumerate(state.threads) if at != number)
        return sum(thread.holds_hart for thread in others) < self.harts

    def may_execute(self, thread: Thread, instruction: Instruction) -> bool:
        """Whether the buffer is as the instruction wants it."""
        if isinstance(instruction, Store):
            return len(thread.waiting) < WAITING_STORES
        if isinstance(instruction, Fence):
            return not thread.waiting or instruction.orders not in WAITING_FENCES
        return isinstance(instruction, Load) or not thread.waiting

    def executed(self, state: State, number: int, instruction: Instruction) -> State:
        """The state after an instruction of a thread."""
        thread = state.threads[number]
        if isinstance(instruction, Fence):
            return self.with_thread(state, number, self.further(thread))
        if isinstance(instruction, Store):
            waiting = (*thread.waiting, (instruction.word, instruction.value))
            return self.with_thread(state, number, self.further(thread)._replace(waiting=waiting))
        if isinstance(instruction, Load):
            value = self.seen(state, number, instruction.word)
            return self.with_thread(state, number, self.further(thread, value))
        before = state.memory[instruction.word]
        if isinstance(instruction, LoadReserved):
            reserving = self.further(thread, before)._replace(reserved=self.bytes_of(instruction.word))
            return self.with_thread(state, number, reserving)
        if isinstance(instruction, StoreConditional):
            return self.stored_or_failed(state, number, instruction)
        kept = (before,) if has_result(instruction) else ()
        state = self.with_thread(state, number, self.further(thread, *kept))
        after = computed(instruction.kind, before, instruction.value)
        return self.entered(state, number, instruction.word, after)

    def stored_or_failed(self, state: State, number: int, instruction: StoreConditional) -> State:
        """SC stores exactly where its word lies in the reserved bytes; the reservation ends."""
        thread = state.threads[number]
        has_failed = thread.reserved != self.bytes_of(instruction.word)
        after = self.further(thread, int(has_failed))._replace(reserved=None)
        state = self.with_thread(state, number, after)
        return state if has_failed else self.entered(state, number, instruction.word, instruction.value)

    def drained(self, state: State, number: int) -> State:
        """The state after a thread's oldest waiting store has entered memory."""
        thread = state.threads[number]
        (word, value), *rest = thread.waiting
        state = self.with_thread(state, number, thread._replace(waiting=tuple(rest)))
        return self.entered(state, number, word, value)

    def entered(self, state: State, number: int, word: int, value: int) -> State:
        """A write of a thread: others that had reserved these bytes have it no longer."""
        lost = self.bytes_of(word)
        threads = tuple(
            thread._replace(reserved=None) if at != number and thread.reserved == lost else thread
            for at, thread in enumerate(state.threads)
        )
        return State(threads, set_at(state.memory, word, value))

    def seen(self, state: State, number: int, word: int) -> int:
        """What a load of a thread gives."""
        own = [value for at, value in state.threads[number].waiting if at == word]
        return own[-1] if own else state.memory[word]

    def bytes_of(self, word: int) -> int:
        """Which 8 bytes a word lies in."""
        return word * self.litmus.spacing // RESERVED_BYTES

    @staticmethod
    def further(thread: Thread, *result: int) -> Thread:
        """A thread past an instruction, with its result where it gives one."""
        return thread._replace(at=thread.at + 1, results=thread.results + result)

    @staticmethod
    def with_thread(state: State, number: int, thread: Thread) -> State:
        threads = state.threads
        return state._replace(threads=(*threads[:number], thread, *threads[number + 1 :]))


def outcomes(litmus: Litmus, harts: int) -> frozenset[Outcome]:
    """The set of outcomes of a test on so many harts."""
    return Enumeration(litmus, harts).outcomes()
