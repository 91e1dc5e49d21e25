"""Where a test's program keeps what is seen of a state, and how its console is read.

The console has words of 8 bytes. First come the registers, those of one thread behind those of another: two
of a thread share a word where both always hold numbers of 32 bits. Then comes a word for each variable that
is seen.
"""
from __future__ import annotations

from collections.abc import Iterator
from dataclasses import dataclass

from .parts import DOUBLE, REGISTER_BITS, WORD, Kind, Observed, Register, Test, Value

WORD_BYTES = 8
HALF = 4
BASE = 0x5AF0000
"""The address of the console's words: no test comes upon it by counting."""
MODULUS = 1 << REGISTER_BITS


@dataclass(frozen=True)
class Slot:
    """Where a value is on the console, and what its bytes stand for."""

    at: int
    kind: Kind

    def value(self, console: bytes) -> int:
        found = console[self.at : self.at + self.kind.size]
        return int.from_bytes(found, 'little', signed=self.kind.is_signed)


@dataclass(frozen=True)
class Layout:
    """The words of registers, each with the one or two that it has; where each value is; how many bytes the
    console has; and the addresses of all variables."""

    words: tuple[tuple[tuple[Register, ...], ...], ...]
    """Of each thread."""
    slots: dict[Observed, Slot]
    size: int
    addresses: dict[str, int]

    def word_at(self, thread: int) -> int:
        """At which byte the words of a thread begin."""
        return WORD_BYTES * sum(map(len, self.words[:thread]))


@dataclass(frozen=True)
class State:
    """What is seen at the end of a run."""

    layout: Layout
    values: tuple[int, ...]
    """Those of the slots, in order."""

    def is_equal(self, observed: Observed, value: Value) -> bool:
        """Whether what is seen has a value; of which as many bits count as it has."""
        due = self.layout.addresses[value] if isinstance(value, str) else value
        slots = self.layout.slots
        found = self.values[list(slots).index(observed)]
        return (found - due) % (1 << 8 * slots[observed].kind.size) == 0

    def told_value(self, number: int) -> str:
        """A number, or the name of the variable whose address it is."""
        names = (name for name, address in self.layout.addresses.items() if address == number)
        return next(names, str(number))


def is_word(test: Test, register: Register) -> bool:
    """Whether a register always holds a number of 32 bits."""
    initial = test.initial.get(register, 0)
    fits = isinstance(initial, int) and -(1 << 31) <= initial < 1 << 31
    writes = [it for it in test.operations(register.thread) if it.target == register.number]
    return fits and all(it.is_word for it in writes)


def in_words(test: Test, thread: int) -> Iterator[tuple[Register, ...]]:
    """The registers of a thread that are seen: two of 32 bits in a word, and each other one alone."""
    seen = test.registers_seen(thread)
    halves = [it for it in seen if is_word(test, it)]
    for at in range(0, len(halves), 2):
        yield tuple(halves[at : at + 2])
    for register in seen:
        if register not in halves:
            yield (register,)


def layout(test: Test) -> Layout:
    words = tuple(tuple(in_words(test, thread)) for thread in range(len(test.threads)))
    found: dict[Observed, Slot] = {}
    for at, registers in enumerate(it for own in words for it in own):
        for half, register in enumerate(registers):
            kind = WORD if len(registers) > 1 else DOUBLE
            found[register] = Slot(WORD_BYTES * at + HALF * half, kind)
    addresses: dict[str, int] = {}
    first = WORD_BYTES * sum(map(len, words))
    seen = test.variables_seen()
    for at, name in enumerate([*seen, *(it for it in test.variables if it not in seen)]):
        addresses[name] = BASE + first + WORD_BYTES * at
        if name in seen:
            found[name] = Slot(first + WORD_BYTES * at, test.kind(name))
    slots = {observed: found[observed] for observed in test.observed}
    return Layout(words, slots, first + WORD_BYTES * len(seen), addresses)


def state(layout: Layout, console: bytes) -> State | None:
    """The state that a console shows; None where it is none of this program."""
    if len(console) != layout.size:
        return None
    return State(layout, tuple(slot.value(console) for slot in layout.slots.values()))
