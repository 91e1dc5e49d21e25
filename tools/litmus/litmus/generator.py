"""Litmus tests from a seed, so small that every place of their programs can be visited."""
from __future__ import annotations

import random
from collections.abc import Iterator

from .instructions import (
    AMOS, FENCES, Amo, Body, Fence, Instruction, Litmus, Load, LoadReserved, Store, StoreConditional,
    result_bits, results,
)
from .listing import STATUS_BITS

THREADS = (2,) * 7 + (3,) * 2 + (4,)
"""How many threads a test has; a number that stands here more often comes more often."""
MOST = {2: (4, 7), 3: (2, 4), 4: (1, 4)}
"""The most instructions of one thread, and of all, by how many threads there are."""
CYCLES = 2
"""So many threads at most each store to a word of their own and then load that of the next, in one test of
two: there it shows whether stores wait, which it seldom does in the others."""
WORDS = (1, 2, 2, 2, 2, 3)
VALUES = (1, 1, 2, 3)
KINDS = (Load,) * 7 + (Store,) * 7 + (Amo,) * 2 + (LoadReserved,) * 2 + (Fence,) * 2


class Generator:
    """Draws tests, one after the other, until one is worth a look."""

    def __init__(self, seed: int):
        self.random = random.Random(seed)
        self.words = 1

    def litmus(self) -> Litmus:
        """A test in which threads share what they touch, and something can be seen."""
        while True:
            threads = self.bodies(self.random.choice(THREADS))
            if is_worth_a_look(threads):
                return self.finished(threads)

    def bodies(self, threads: int) -> tuple[Body, ...]:
        """What each of some threads executes."""
        most, together = MOST[threads]
        if threads <= CYCLES and self.random.randrange(2):
            self.words = threads
            return tuple(self.link(thread, threads) for thread in range(threads))
        self.words = self.random.choice(WORDS)
        bodies = tuple(tuple(self.body(self.random.randint(1, most))) for _ in range(threads))
        return bodies if sum(map(len, bodies)) <= together else self.bodies(threads)

    def link(self, thread: int, threads: int) -> Body:
        """A thread of a cycle: its store, its load, and up to one instruction before, between or behind."""
        link: list[Instruction] = [Store(thread, self.value()), Load((thread + 1) % threads)]
        if self.random.randrange(4):
            more = self.instruction(self.random.choice((Load, Store, Amo, Fence, Fence)))
            link.insert(self.random.randrange(3), more)
        return tuple(link)

    def body(self, length: int) -> Iterator[Instruction]:
        """So many instructions, of which LR and SC are two, and may have one between them."""
        while length > 0:
            kind = self.random.choice(KINDS)
            if kind is not LoadReserved:
                length -= 1
                yield self.instruction(kind)
            elif length >= 2:
                pair = list(self.pair(length))
                length -= len(pair)
                yield from pair

    def pair(self, room: int) -> Iterator[Instruction]:
        """LR and SC of a word, or, seldom, of two; without a loop, so SC may fail."""
        word = self.word()
        yield LoadReserved(word)
        if room > 2 and self.random.randrange(3) == 0:
            yield self.instruction(self.random.choice((Load, Store, Amo)))
        yield StoreConditional(self.word() if self.random.randrange(6) == 0 else word, self.value())

    def instruction(self, kind: type) -> Instruction:
        """One of a kind that isn't half of a pair."""
        if kind is Load:
            return Load(self.word())
        if kind is Store:
            return Store(self.word(), self.value())
        if kind is Amo:
            return Amo(self.random.choice(AMOS), self.word(), self.value(), self.random.randrange(3) != 0)
        return Fence(self.random.choice(FENCES))

    def word(self) -> int:
        return self.random.randrange(self.words)

    def value(self) -> int:
        return self.random.choice(VALUES)

    def finished(self, threads: tuple[Body, ...]) -> Litmus:
        """The test of these threads: how near its words lie, and what shows its outcomes."""
        spacing = self.random.choice((4, 8))
        litmus = Litmus(threads, self.words, spacing)
        has_room = result_bits(litmus) <= STATUS_BITS
        return Litmus(threads, self.words, spacing, has_room and self.random.randrange(2) == 0)


def is_worth_a_look(threads: tuple[Body, ...]) -> bool:
    """Whether each thread touches a word that another one touches too, some word is written, and something is
    loaded."""
    touched = [{it.word for it in body if not isinstance(it, Fence)} for body in threads]
    shares = all(
        any(own & other for at, other in enumerate(touched) if at != number)
        for number, own in enumerate(touched)
    )
    is_written = any(isinstance(it, (Store, Amo, StoreConditional)) for body in threads for it in body)
    return shares and is_written and any(map(results, threads))


def random_litmus(seed: int) -> Litmus:
    """The test of a seed."""
    return Generator(seed).litmus()
