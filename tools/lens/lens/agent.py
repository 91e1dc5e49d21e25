"""Conditions of breakpoints as gdb hands them over: agent expressions ("The GDB Agent Expression Mechanism"
in gdb's manual), which a stack machine of 64-bit words works out."""
from __future__ import annotations

from collections.abc import Callable
from typing import NamedTuple, Protocol

ALL, SIGN = (1 << 64) - 1, 1 << 63
MOST_OPERATIONS = 10_000
"""An expression that takes more is taken to go on for ever."""


class Unknown(Exception):
    """The expression can't be worked out here: it asks for what isn't there, or for an operation that isn't
    known."""


class Sight(Protocol):
    """What an expression may ask for."""

    def register(self, number: int) -> int: ...

    def memory(self, at: int, size: int) -> bytes: ...


class Operation(NamedTuple):
    """An operation of an expression, and the number that belongs to it."""

    code: int
    number: int


Stack = list[int]
Act = Callable[[Stack, int, Sight], None]


def signed(value: int) -> int:
    """A word as a number with a sign."""
    return value - (1 << 64) if value & SIGN else value


def divided(left: int, right: int) -> int:
    """As C divides: towards 0."""
    if right == 0:
        raise Unknown('a division by 0')
    quotient = abs(left) // abs(right)
    return quotient if (left < 0) == (right < 0) else -quotient


def of_two(work: Callable[[int, int], int]) -> Act:
    """Takes two words, and puts what is worked out of them."""

    def act(stack: Stack, _: int, __: Sight) -> None:
        right = stack.pop()
        stack[-1] = work(stack[-1], right) & ALL

    return act


def of_two_signed(work: Callable[[int, int], int]) -> Act:
    return of_two(lambda left, right: work(signed(left), signed(right)))


def of_one(work: Callable[[int, int], int]) -> Act:
    """Changes a word, by the number of the operation."""

    def act(stack: Stack, number: int, _: Sight) -> None:
        stack[-1] = work(stack[-1], number) & ALL

    return act


def fetched(size: int) -> Act:
    """Reads so many bytes."""

    def act(stack: Stack, _: int, sight: Sight) -> None:
        found = sight.memory(stack[-1], size)
        if len(found) < size:
            raise Unknown('no page is there')
        stack[-1] = int.from_bytes(found, 'little')

    return act


def extended(value: int, bits: int) -> int:
    """The lowest bits of a word with their sign."""
    low = value & ((1 << bits) - 1)
    return low - (1 << bits) if bits and low >> (bits - 1) else low


def push(stack: Stack, number: int, _: Sight) -> None:
    stack.append(number)


def push_register(stack: Stack, number: int, sight: Sight) -> None:
    stack.append(sight.register(number))


def duplicate(stack: Stack, _: int, __: Sight) -> None:
    stack.append(stack[-1])


def drop(stack: Stack, _: int, __: Sight) -> None:
    stack.pop()


def swap(stack: Stack, _: int, __: Sight) -> None:
    stack[-1], stack[-2] = stack[-2], stack[-1]


def pick(stack: Stack, number: int, _: Sight) -> None:
    stack.append(stack[-1 - number])


def rotate(stack: Stack, _: int, __: Sight) -> None:
    """`a b c` becomes `c a b`: the top goes below the two others."""
    stack[-3:] = [stack[-1], stack[-3], stack[-2]]


ACTS: dict[int, Act] = {
    0x02: of_two(lambda left, right: left + right),
    0x03: of_two(lambda left, right: left - right),
    0x04: of_two(lambda left, right: left * right),
    0x05: of_two_signed(divided),
    0x06: of_two(divided),
    0x07: of_two_signed(lambda left, right: left - right * divided(left, right)),
    0x08: of_two(lambda left, right: left - right * divided(left, right)),
    0x09: of_two(lambda left, right: left << right if right < 64 else 0),
    0x0A: of_two(lambda left, right: signed(left) >> min(right, 63)),
    0x0B: of_two(lambda left, right: left >> right if right < 64 else 0),
    0x0E: of_one(lambda value, _: not value),
    0x0F: of_two(lambda left, right: left & right),
    0x10: of_two(lambda left, right: left | right),
    0x11: of_two(lambda left, right: left ^ right),
    0x12: of_one(lambda value, _: ~value),
    0x13: of_two(lambda left, right: left == right),
    0x14: of_two_signed(lambda left, right: left < right),
    0x15: of_two(lambda left, right: left < right),
    0x16: of_one(extended),
    0x17: fetched(1),
    0x18: fetched(2),
    0x19: fetched(4),
    0x1A: fetched(8),
    0x22: push,
    0x23: push,
    0x24: push,
    0x25: push,
    0x26: push_register,
    0x28: duplicate,
    0x29: drop,
    0x2A: of_one(lambda value, bits: value & ((1 << bits) - 1)),
    0x2B: swap,
    0x32: pick,
    0x33: rotate,
}
"""By the code of an operation; the conditional jump, the jump and the end are in `value`."""
IF_GOTO, GOTO, END = 0x20, 0x21, 0x27
NUMBERS = {0x16: 1, IF_GOTO: 2, GOTO: 2, 0x22: 1, 0x23: 2, 0x24: 4, 0x25: 8, 0x26: 2, 0x2A: 1, 0x32: 1}
"""How many bytes the number has that belongs to an operation, the highest first."""


class Expression:
    """An expression, its bytes read."""

    def __init__(self, code: bytes):
        self.operations: dict[int, tuple[Operation, int]] = {}
        """By its place in the bytes an operation, and the place of the next."""
        at = 0
        while at < len(code):
            length = NUMBERS.get(code[at], 0)
            end = at + 1 + length
            self.operations[at] = Operation(code[at], int.from_bytes(code[at + 1 : end], 'big')), end
            at = end

    def value(self, sight: Sight) -> int:
        """What it is; Unknown where that can't be worked out."""
        stack: Stack = []
        try:
            return self.worked_out(stack, sight)
        except (IndexError, KeyError):
            raise Unknown('an operation isn\'t known, or lacks its words') from None

    def worked_out(self, stack: Stack, sight: Sight) -> int:
        at = 0
        for _ in range(MOST_OPERATIONS):
            (code, number), after = self.operations[at]
            if code == END:
                return stack[-1]
            if code == GOTO or code == IF_GOTO and stack.pop():
                after = number
            elif code != IF_GOTO:
                ACTS[code](stack, number, sight)
            at = after
        raise Unknown('it takes too long')


def read_expressions(words: str) -> list[Expression]:
    """The expressions `XLENGTH,BYTES` of a packet, one after another; ValueError where they aren't."""
    found = []
    while words:
        length, comma, rest = words.partition(',')
        if not (length.startswith('X') and comma):
            raise ValueError(words)
        digits = 2 * int(length[1:], 16)
        code = bytes.fromhex(rest[:digits])
        if len(rest) < digits:
            raise ValueError(words)
        found.append(Expression(code))
        words = rest[digits:]
    return found
