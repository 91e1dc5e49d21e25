"""The program of a test, in GNU's assembler.

Thread 1 of the program is one of the test's threads, and starts the others by clone(2). Each has a hart of
its own, and before it starts a thread it goes to that one's hart by sched_setaffinity(2), so that the thread
begins there and stays. Then each thread executes its part of the test. Behind it the others pack the
registers that are seen into words, put these into memory by AMOs, so that no store of the test is passed, and
end; the kernel clears a word for each. Thread 1 loads these words until all are 0, without a counter, so that
the places of the program are finitely many. Then it puts its own registers into memory, and writes the words
and the variables that are seen to the console.
"""
from __future__ import annotations

from collections.abc import Iterable, Iterator

from lens.faults import LensFault

from ..listing import CALL_CLONE, CALL_EXIT, CALL_EXIT_GROUP, CALL_WRITE, CLONE_FLAGS
from .layout import BASE, WORD_BYTES, Layout
from .parts import Label, Register, Test

CALL_SETAFFINITY = 122
RUNNING_BYTES = 4
SCRATCH = 2
"""So many registers a thread needs at its end that aren't seen."""


class Listing:
    """Writes the program of a test."""

    def __init__(self, test: Test, layout: Layout):
        self.test = test
        self.layout = layout
        self.main = max(range(len(test.threads)), key=lambda it: (len(test.registers_seen(it)), -it))
        """The thread of the test that is thread 1 of the program: the one with the most registers that are
        seen, since its values need no further step of the program while others run."""
        self.others = [thread for thread in range(len(test.threads)) if thread != self.main]

    @property
    def order(self) -> list[int]:
        """The threads of the test in the order in which they are started."""
        return [self.main, *self.others]

    def text(self) -> str:
        lines = [*self.data(), *indented('.text', '.option norelax', '.globl _start')]
        lines += ['_start:', *self.starts()]
        for thread in self.order:
            lines += [f'thread{thread}:', *self.beginning(thread), *self.part(thread)]
            lines += self.last_of_main() if thread == self.main else self.last(thread)
        return '\n'.join(lines) + '\n'

    def data(self) -> Iterator[str]:
        """What is written to the console, the other variables, a word for each thread that has to end, and
        the set of harts of each thread in the order in which they are set."""
        yield '    .data'
        yield from indented(*('.dword 0' for own in self.layout.words for _ in own))
        for name in self.layout.addresses:
            yield from indented(self.first_value(name))
        if self.others:
            yield '    .balign 64'
            yield 'running:'
            yield from indented(*('.word 1' for _ in self.others))
            yield from ('    .balign 8', 'harts:')
            yield from indented(*(f'.dword {1 << thread}' for thread in [*self.others, self.main]))

    def first_value(self, name: str) -> str:
        """The 8 bytes of a variable at the start; one of 4 bytes has zeros behind it."""
        value = self.test.variables[name].initial
        if isinstance(value, str):
            return f'.dword {address_of(self.layout, value)}'
        return f'.dword {value % (1 << 8 * self.test.kind(name).size):#x}'

    def starts(self) -> Iterator[str]:
        """The calls by which thread 1 goes to a hart and starts a thread there, and goes to its own at
        last."""
        if self.others:
            yield from indented('lla a2, harts', 'lla a4, running', f'li s0, {CLONE_FLAGS:#x}', 'li a1, 8')
        for thread in self.others:
            yield from moved_to_hart()
            yield from indented('mv a0, s0', f'li a7, {CALL_CLONE}', 'ecall', f'beqz a0, thread{thread}')
            yield from indented(f'addi a2, a2, {WORD_BYTES}', f'addi a4, a4, {RUNNING_BYTES}')
        if self.others:
            yield from moved_to_hart()

    def beginning(self, thread: int) -> Iterator[str]:
        """What the registers of a thread hold at first: 0, where the file says nothing."""
        used = {number for it in self.test.operations(thread) for number in it.registers}
        used |= {it.number for it in self.test.registers_seen(thread)}
        for number in sorted(used - {0}):
            value = self.test.initial.get(Register(thread, number), 0)
            text = str(value) if isinstance(value, int) else address_of(self.layout, value)
            yield from indented(f'li x{number}, {text}')

    def part(self, thread: int) -> Iterator[str]:
        """The instructions of a thread."""
        for it in self.test.threads[thread]:
            if isinstance(it, Label):
                yield f'label.{thread}.{it.name}:'
            else:
                comma = ', ' if it.label and ' ' in it.text else ' '
                yield from indented(it.text + (f'{comma}label.{thread}.{it.label}' if it.label else ''))

    def scratch(self, thread: int) -> list[str]:
        """The first registers that aren't seen."""
        seen = {it.number for it in self.test.registers_seen(thread)}
        free = [f'x{number}' for number in range(1, 32) if number not in seen][:SCRATCH]
        if len(free) < SCRATCH:
            raise LensFault(f'{len(seen)} registers of thread {thread} are seen, and {31 - SCRATCH} may be')
        return free

    def packed(self, thread: int) -> Iterator[str]:
        """Puts the registers that are seen into memory."""
        first, second = self.scratch(thread)
        for at, registers in enumerate(self.layout.words[thread]):
            low, *high = (f'x{it.number}' for it in registers)
            yield from indented(f'mv {first}, {low}')
            if high:
                yield from indented(f'slli {first}, {first}, 32', f'srli {first}, {first}, 32')
                yield from indented(f'slli {second}, {high[0]}, 32', f'or {first}, {first}, {second}')
            yield from indented(f'li {second}, {BASE + self.layout.word_at(thread) + WORD_BYTES * at}')
            yield from indented(f'amoswap.d x0, {first}, ({second})')

    def last(self, thread: int) -> Iterator[str]:
        """How a thread ends that isn't thread 1."""
        yield from self.packed(thread)
        yield from called(CALL_EXIT, 'li a0, 0')

    def last_of_main(self) -> Iterator[str]:
        """Thread 1 waits until no other runs, two of them with each load, and shows the state."""
        first, second = self.scratch(self.main)
        for at in range(0, len(self.others), 2):
            yield from indented(f'lla {second}, running + {RUNNING_BYTES * at}')
            yield f'wait{at}:'
            yield from indented(f'ld {first}, ({second})', f'snez {first}, {first}')
            yield from indented(f'bnez {first}, wait{at}')
        yield from self.packed(self.main)
        if self.layout.size:
            yield from called(CALL_WRITE, 'li a0, 1', f'li a1, {BASE}', f'li a2, {self.layout.size}')
        yield from called(CALL_EXIT_GROUP, 'li a0, 0')


def moved_to_hart() -> Iterable[str]:
    """sched_setaffinity for the caller, with the set at a2, of as many bytes as a1 says."""
    return called(CALL_SETAFFINITY, 'li a0, 0')


def called(number: int, *arguments: str) -> Iterable[str]:
    return indented(*arguments, f'li a7, {number}', 'ecall')


def address_of(layout: Layout, name: str) -> str:
    return f'{layout.addresses[name]:#x}'


def indented(*lines: str) -> Iterator[str]:
    return (f'    {line}' for line in lines)


def assembler(test: Test, layout: Layout) -> str:
    """The text of a test's program."""
    return Listing(test, layout).text()
