"""What a litmus test is made of: the instructions of each thread, over a few words that they share. All words
are 0 at first."""
from __future__ import annotations

from dataclasses import dataclass
from typing import Union

AMOS = ('swap', 'add', 'and', 'or', 'xor', 'max', 'min')
FENCES = ('rw, rw', 'w, r', 'rw, r', 'r, rw', 'rw, w', 'w, w', 'r, r', 'tso')
NAMES_OF_WORDS = 'xyz'
WAITING_FENCES = ('rw, rw', 'w, r', 'rw, r')
"""Those that order earlier stores before later loads: only these let no store wait (RISC-V Unprivileged ISA,
"Ztso": all other orders hold anyway)."""


@dataclass(frozen=True)
class Load:
    """lw: its value is a result."""

    word: int


@dataclass(frozen=True)
class Store:
    """sw."""

    word: int
    value: int


@dataclass(frozen=True)
class Amo:
    """amoswap.w and the others: what the word had is a result, where it is kept."""

    kind: str
    word: int
    value: int
    is_kept: bool


@dataclass(frozen=True)
class LoadReserved:
    """lr.w: its value is a result."""

    word: int


@dataclass(frozen=True)
class StoreConditional:
    """sc.w: whether it failed is a result, 1 where it did."""

    word: int
    value: int


@dataclass(frozen=True)
class Fence:
    """fence, with what it orders before what; or fence.tso."""

    orders: str


Instruction = Union[Load, Store, Amo, LoadReserved, StoreConditional, Fence]
Body = tuple[Instruction, ...]


@dataclass(frozen=True)
class Litmus:
    """A test: what each thread executes, how many bytes lie between the beginnings of two words (4, so that
    two of them share the 8 bytes of a reservation, or 8), and what tells its outcomes apart: the results and
    what the words have at the end, on the console; or the results alone, as the exit status."""

    threads: tuple[Body, ...]
    words: int
    spacing: int = 8
    is_status: bool = False


def has_result(instruction: Instruction) -> bool:
    """Whether an instruction gives a result."""
    if isinstance(instruction, Amo):
        return instruction.is_kept
    return isinstance(instruction, (Load, LoadReserved, StoreConditional))


def results(body: Body) -> int:
    """How many results a thread gives."""
    return sum(map(has_result, body))


def operands(litmus: Litmus) -> list[int]:
    """The values that its instructions store, or compute with."""
    instructions = (it for body in litmus.threads for it in body)
    return [it.value for it in instructions if isinstance(it, (Store, Amo, StoreConditional))]


def value_bits(litmus: Litmus) -> int:
    """How many bits hold any value of a word: no instruction makes one greater by more than its operand."""
    return max(1, sum(operands(litmus))).bit_length()


def result_bits(litmus: Litmus) -> int:
    """How many bits all results together have."""
    return value_bits(litmus) * sum(map(results, litmus.threads))


def named(instruction: Instruction) -> str:
    """An instruction in short, as in `sw x 1`."""
    if isinstance(instruction, Fence):
        return 'fence.tso' if instruction.orders == 'tso' else f'fence {instruction.orders}'
    word = NAMES_OF_WORDS[instruction.word : instruction.word + 1] or f'word {instruction.word}'
    if isinstance(instruction, Load):
        return f'lw {word}'
    if isinstance(instruction, Store):
        return f'sw {word} {instruction.value}'
    if isinstance(instruction, LoadReserved):
        return f'lr {word}'
    if isinstance(instruction, StoreConditional):
        return f'sc {word} {instruction.value}'
    return f'amo{instruction.kind} {word} {instruction.value}{"" if instruction.is_kept else " dropped"}'


def described(litmus: Litmus) -> str:
    """A test in a line: its threads, and what isn't as it mostly is."""
    threads = ' | '.join('; '.join(map(named, body)) or 'nothing' for body in litmus.threads)
    near = ' (words share 8 bytes)' if litmus.spacing == 4 and litmus.words > 1 else ''
    return threads + near + (' (status)' if litmus.is_status else '')
