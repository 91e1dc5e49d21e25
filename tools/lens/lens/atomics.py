"""The instructions of a program before which all stores of their hart enter memory: `lens atomics`. Where a
compiler makes them of plain accesses, no store is ever seen late."""
from __future__ import annotations

from collections import Counter
from collections.abc import Iterator
from dataclasses import dataclass

from .instructions import SIZE, ZERO, Instruction, Opcode, bits
from .program import Program

SWAP, RESERVE, CONDITIONAL = 0b00001, 0b00010, 0b00011
"""Bits 31 to 27 of AMOSWAP, LR and SC."""
STORE, CHANGE, LR, SC = 'an atomic store', 'a read and write', 'LR', 'SC'
FENCE, BEHIND_A_LOAD = 'a full fence', 'a full fence behind a load'
SEVERAL = {
    STORE: 'atomic stores',
    CHANGE: 'reads and writes',
    LR: LR,
    SC: SC,
    FENCE: 'full fences',
    BEHIND_A_LOAD: 'full fences behind a load',
}
PLAIN_IN_ZTSO = (STORE, BEHIND_A_LOAD)
"""What GCC makes of stores and loads that are plain ones in Ztso."""
HEADS = ('pc', 'instruction', 'at', 'what it is', 'source')


@dataclass(frozen=True)
class Emptying:
    """An instruction that waits until no store of its hart waits, and what it is."""

    instruction: Instruction
    what: str


def emptying(program: Program) -> Iterator[Emptying]:
    """Each AMO, LR, SC and fence of earlier stores and later loads of the code, in the order of addresses."""
    for address in sorted(program.texts):
        instruction = program.instruction(address)
        if instruction and (instruction.is_atomic or instruction.is_store_load_fence):
            yield Emptying(instruction, what_is(program, instruction))


def what_is(program: Program, instruction: Instruction) -> str:
    if instruction.is_fence:
        before = program.instruction(instruction.address - SIZE)
        return BEHIND_A_LOAD if before and before.opcode == Opcode.LOAD else FENCE
    kind = bits(instruction.word, 31, 27)
    if kind in (RESERVE, CONDITIONAL):
        return LR if kind == RESERVE else SC
    return STORE if kind == SWAP and instruction.written == ZERO else CHANGE


def list_atomics(program: Program) -> Iterator[str]:
    """A line for each, how many there are of which kind, and what to do."""
    found = list(emptying(program))
    rows = [cells(program, one) for one in found]
    widths = [max([len(head), *(len(row[at]) for row in rows)]) for at, head in enumerate(HEADS)]
    for row in [HEADS, *rows] if rows else []:
        yield '  '.join(cell.ljust(width) for cell, width in zip(row, widths)).rstrip()
    if rows:
        yield ''
    counts = Counter(one.what for one in found)
    named = ((count, SEVERAL[what] if count > 1 else one_of(what)) for what, count in counts.items())
    parts = ', '.join(f'{count} {name}' for count, name in named)
    instructions = '1 instruction' if len(found) == 1 else f'{len(found)} instructions'
    yield f'{instructions} at which no store may wait' + (f': {parts}' if parts else '')
    yield from advice(counts)


def cells(program: Program, one: Emptying) -> tuple[str, ...]:
    at, instruction = one.instruction.address, one.instruction
    return f'{at:x}', instruction.text, program.where(at), one.what, program.source(at)


def one_of(what: str) -> str:
    return what.removeprefix('an ').removeprefix('a ')


def advice(counts: Counter[str]) -> Iterator[str]:
    """What to do where some of them may have been made of plain accesses."""
    if any(counts[what] for what in PLAIN_IN_ZTSO):
        yield (
            'GCC makes such stores and fences of relaxed, acquire and release accesses too. '
            'Then no store is seen late.'
        )
        yield (
            'With `-include ztso_atomics.h` (examples/common) these become plain loads and stores, '
            'as the psABI has it for Ztso.'
        )
