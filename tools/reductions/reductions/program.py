"""A program of two threads, and its assembler.

No C compiler makes it, so that it is as short as can be. Thread 1 makes what comes before the other thread,
starts that one by clone(2), and makes its own part. The other one ends then, and the kernel clears a word.
Thread 1 loads that word until it is 0, without a counter, so that the places of the program are finitely
many. Then it writes all that is shown to the console, and exits with 0.
"""
from __future__ import annotations

from collections.abc import Iterable, Iterator
from dataclasses import dataclass

Lines = tuple[str, ...]

CLONE_FLAGS = 0x210F00
"""CLONE_VM, CLONE_FS, CLONE_FILES, CLONE_SIGHAND, CLONE_THREAD, and CLONE_CHILD_CLEARTID."""
CALL_WRITE, CALL_EXIT, CALL_EXIT_GROUP, CALL_CLONE = 64, 93, 94, 220
CALL_RSEQ = 293
SIGNATURE = 0xF1401073
"""RSEQ_SIG of RISC-V (librseq)."""

BASE = 's7'
"""The register of the address of the data. All else is so many bytes behind."""
RESULTS = 0
"""Where the results begin, each a byte: those of thread 1, and behind them those of thread 2."""
MOST_RESULTS = 8
"""How many results a thread has at most."""
SHARED = (16, 24)
"""The words that both threads touch."""
OWN = (32, 40)
"""For each thread a word that it alone touches."""
CELLS = 48
"""A word of 8 bytes for each hart, of two."""
SHOWN_BYTES = 64
"""So many bytes from the start on are written at the end."""
RUNNING = 64
"""A word that the kernel clears where thread 2 ends."""
AREAS = (96, 128)
"""The area of rseq(2) of each thread."""
SCRATCH = 160
"""A word for what a call writes."""
ACTION = 168
"""The action of a signal: its handler, flags, and mask."""
DESCRIPTORS = 192
"""Where the descriptors of sequences begin."""
DESCRIPTOR_BYTES = 32
STACK_BYTES = 1024


@dataclass(frozen=True)
class Program:
    """What is executed before thread 2 is there, and by each of the two; how many descriptors of sequences
    there are, each with the labels `startN`, `endN` and `abortN` in its thread; and what stands behind all
    threads: a handler of signals, under the label `handler`, or nothing."""

    name: str
    before: Lines
    threads: tuple[Lines, Lines]
    sequences: int = 0
    behind: Lines = ()

    @property
    def has_handler(self) -> bool:
        return any(line == 'handler:' for line in self.behind)


def assembler(program: Program) -> str:
    """The text of a program."""
    lines = [f'# {program.name}', *data(program), '    .text', '    .option norelax', '    .globl _start']
    lines += ['_start:', *indented(f'lla {BASE}, base', *program.before, *started())]
    for number, part in enumerate(program.threads, 1):
        lines += [f'thread{number}:', *indented(*part, *(shown() if number == 1 else called(CALL_EXIT)))]
    return '\n'.join([*lines, *indented(*program.behind)]) + '\n'


def data(program: Program) -> Iterator[str]:
    """The words that are shown, and all others."""
    yield from ('    .data', '    .balign 64', 'base:', f'    .zero {RUNNING}', '    .word 1')
    yield f'    .zero {ACTION - RUNNING - 4}'
    yield f'    .quad {"handler" if program.has_handler else "0"}, 0, 0'
    for number in range(program.sequences):
        yield '    .long 0, 0'
        yield f'    .quad start{number}, end{number} - start{number}, abort{number}'
    yield from ('    .balign 16', f'    .zero {STACK_BYTES}', 'stack:')


def started() -> Iterator[str]:
    """Thread 1 starts the other one."""
    yield from (f'li a0, {CLONE_FLAGS:#x}', 'li a1, 0', f'addi a4, {BASE}, {RUNNING}')
    yield from (*called(CALL_CLONE), 'beqz a0, thread2')


def shown() -> Iterator[str]:
    """Thread 1 waits for the other one, and shows what came of both."""
    yield from ('wait:', f'lw a5, {RUNNING}({BASE})', 'bnez a5, wait')
    yield from ('li a0, 1', f'mv a1, {BASE}', f'li a2, {SHOWN_BYTES}', *called(CALL_WRITE))
    yield from ('li a0, 0', *called(CALL_EXIT_GROUP))


def called(number: int) -> Lines:
    """A call, whose arguments are there."""
    return f'li a7, {number}', 'ecall'


def indented(*lines: str) -> Iterator[str]:
    """Labels stay where they are."""
    return (line if line.endswith(':') else f'    {line}' for line in lines)


def joined(parts: Iterable[Iterable[str]]) -> Lines:
    """Some lines, and behind them others."""
    return tuple(line for part in parts for line in part)
