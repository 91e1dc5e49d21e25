"""What is read off an instruction word of RV64IMA: its kind, the register that it sets, and where it may
go on.

The fields are those of the RISC-V Unprivileged Manual, chapter "RV32/64G Instruction Set Listings".
"""
from __future__ import annotations

from dataclasses import dataclass
from enum import IntEnum
from functools import cached_property

SIZE = 4
A7 = 17
ZERO = 0


class Opcode(IntEnum):
    """Bits 6 to 0 of a word."""

    LOAD = 0x03
    MISC_MEM = 0x0F
    OP_IMM = 0x13
    AUIPC = 0x17
    OP_IMM_32 = 0x1B
    STORE = 0x23
    AMO = 0x2F
    OP = 0x33
    LUI = 0x37
    OP_32 = 0x3B
    BRANCH = 0x63
    JALR = 0x67
    JAL = 0x6F
    SYSTEM = 0x73


WITHOUT_RESULT = (Opcode.STORE, Opcode.BRANCH, Opcode.MISC_MEM, Opcode.SYSTEM)
ECALL = 0x00000073
FENCE_TSO = 0b1000
"""Bits 31 to 28 of it."""


def bits(word: int, high: int, low: int) -> int:
    return (word >> low) & ((1 << (high - low + 1)) - 1)


def signed(value: int, width: int) -> int:
    return value - (1 << width) if value >> (width - 1) else value


@dataclass(frozen=True)
class Instruction:
    """An instruction at its address, with the toolchain's text of it. (A run comes by it again and again.)"""

    address: int
    word: int
    text: str

    @cached_property
    def opcode(self) -> int:
        return bits(self.word, 6, 0)

    @cached_property
    def is_plain_store(self) -> bool:
        """Whether it puts a store into its hart's buffer."""
        return self.opcode == Opcode.STORE

    @cached_property
    def is_fence(self) -> bool:
        return self.opcode == Opcode.MISC_MEM

    @cached_property
    def is_atomic(self) -> bool:
        """Whether it is an AMO, LR or SC, which act on memory at once."""
        return self.opcode == Opcode.AMO

    @cached_property
    def is_call(self) -> bool:
        return self.word == ECALL

    @cached_property
    def waits_for_stores(self) -> bool:
        """Whether it comes only where no store of its hart waits, whatever its operands are: an AMO, LR or
        SC, ECALL and EBREAK, FENCE.I, and a FENCE of earlier writes and later reads but FENCE.TSO."""
        if not self.is_fence:
            return self.is_atomic or self.opcode == Opcode.SYSTEM
        is_fence_i = bits(self.word, 14, 12) != 0
        return is_fence_i or self.is_store_load_fence

    @cached_property
    def is_store_load_fence(self) -> bool:
        """Whether it is a FENCE of earlier writes and later reads but FENCE.TSO, the one order that Ztso
        leaves open."""
        is_fence = self.is_fence and bits(self.word, 14, 12) == 0
        orders = bits(self.word, 24, 24) and bits(self.word, 21, 21)
        return bool(is_fence and orders and bits(self.word, 31, 28) != FENCE_TSO)

    @cached_property
    def written(self) -> int:
        """The register that it sets; 0 where it sets none."""
        return ZERO if self.opcode in WITHOUT_RESULT else bits(self.word, 11, 7)

    @cached_property
    def immediate(self) -> int | None:
        """The value that `li` gives its register, where the word is `addi REGISTER, zero, VALUE`."""
        is_li = (
            self.opcode == Opcode.OP_IMM
            and bits(self.word, 14, 12) == 0
            and bits(self.word, 19, 15) == ZERO
        )
        return signed(bits(self.word, 31, 20), 12) if is_li else None

    @cached_property
    def target(self) -> int | None:
        """Where a JAL or a taken branch goes on."""
        if self.opcode == Opcode.JAL:
            return self.address + jump_distance(self.word)
        if self.opcode == Opcode.BRANCH:
            return self.address + branch_distance(self.word)
        return None

    @cached_property
    def next_pcs(self) -> tuple[int | None, ...] | None:
        """Where the pc may be after it, or after its fault, which leaves the pc as it is; None for
        anywhere."""
        if self.opcode == Opcode.JALR:
            return None
        if self.opcode == Opcode.JAL:
            return self.address, self.target
        return self.address, self.address + SIZE, self.target

    def may_go_to(self, pc: int) -> bool:
        return self.next_pcs is None or pc in self.next_pcs

    @cached_property
    def base(self) -> int:
        """The register whose value a load, a store, an atomic access or a JALR adds to its offset."""
        return bits(self.word, 19, 15)

    @cached_property
    def offset(self) -> int:
        """What it adds to that value."""
        if self.opcode == Opcode.STORE:
            return signed(bits(self.word, 31, 25) << 5 | bits(self.word, 11, 7), 12)
        return signed(bits(self.word, 31, 20), 12) if self.opcode in (Opcode.LOAD, Opcode.JALR) else 0

    @cached_property
    def size(self) -> int:
        """How many bytes a load, a store or an atomic access is about."""
        return 1 << bits(self.word, 13, 12)


def jump_distance(word: int) -> int:
    parts = (
        bits(word, 31, 31) << 20
        | bits(word, 19, 12) << 12
        | bits(word, 20, 20) << 11
        | bits(word, 30, 21) << 1
    )
    return signed(parts, 21)


def branch_distance(word: int) -> int:
    parts = (
        bits(word, 31, 31) << 12 | bits(word, 7, 7) << 11 | bits(word, 30, 25) << 5 | bits(word, 11, 8) << 1
    )
    return signed(parts, 13)
