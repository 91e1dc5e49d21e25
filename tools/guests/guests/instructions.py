"""The instructions of the guest `counter` (RISC-V Unprivileged ISA, chapters RV32I, RV64I and M)."""
from __future__ import annotations

from typing import Callable, NamedTuple

WORD = (1 << 64) - 1


class UnknownWord(Exception):
    """A word that isn't among these instructions."""


class Step(NamedTuple):
    """What a word does: the next pc, and either a register's value, a load, a store, or a call."""

    pc: int
    register: int = 0
    value: int = 0
    load: tuple[int, int] | None = None
    store: tuple[int, int, int] | None = None
    is_call: bool = False

    @property
    def is_local(self) -> bool:
        return self.load is None and self.store is None and not self.is_call


def signed(value: int, bits: int) -> int:
    """The number that so many low bits are, as a two's complement."""
    value &= (1 << bits) - 1
    return value - (value >> bits - 1 << bits)


def field(word: int, low: int, size: int) -> int:
    return word >> low & (1 << size) - 1


def branch_distance(word: int) -> int:
    low = field(word, 8, 4) << 1 | field(word, 25, 6) << 5
    return signed(low | field(word, 7, 1) << 11 | field(word, 31, 1) << 12, 13)


def jump_distance(word: int) -> int:
    low = field(word, 21, 10) << 1 | field(word, 20, 1) << 11
    return signed(low | field(word, 12, 8) << 12 | field(word, 31, 1) << 20, 21)


BRANCHES: dict[int, Callable[[int, int], bool]] = {0: lambda a, b: a == b, 1: lambda a, b: a != b}
REGISTERS: dict[tuple[int, int], Callable[[int, int], int]] = {
    (0, 0): lambda a, b: a + b,
    (0, 0x20): lambda a, b: a - b,
    (5, 1): lambda a, b: a // b if b else WORD,
    (7, 1): lambda a, b: a % b if b else a,
}
IMMEDIATES: dict[int, Callable[[int, int], int]] = {0: lambda a, i: a + i, 1: lambda a, i: a << (i & 63)}


def step_of(word: int, pc: int, x: list[int]) -> Step:
    """What a word at a pc does where the registers are these."""
    rd, function = field(word, 7, 5), field(word, 12, 3)
    first, second = x[field(word, 15, 5)], x[field(word, 20, 5)]
    immediate, size = signed(word >> 20, 12), 1 << (function & 3)
    match word & 0x7F:
        case 0x03:
            return Step(pc + 4, rd, load=((first + immediate) & WORD, size))
        case 0x23:
            offset = signed(field(word, 25, 7) << 5 | rd, 12)
            return Step(pc + 4, store=((first + offset) & WORD, size, second))
        case 0x63 if function in BRANCHES:
            return Step(pc + (branch_distance(word) if BRANCHES[function](first, second) else 4))
        case 0x67:
            return Step((first + immediate) & WORD & ~1, rd, pc + 4)
        case 0x6F:
            return Step(pc + jump_distance(word), rd, pc + 4)
        case 0x37:
            return Step(pc + 4, rd, signed(word >> 12 << 12, 32) & WORD)
        case 0x13 if function in IMMEDIATES:
            return Step(pc + 4, rd, IMMEDIATES[function](first, immediate) & WORD)
        case 0x33 if (function, word >> 25) in REGISTERS:
            return Step(pc + 4, rd, REGISTERS[function, word >> 25](first, second) & WORD)
        case 0x73 if word == 0x73:
            return Step(pc + 4, is_call=True)
    raise UnknownWord(f'{word:#010x} at {pc:#x}')
