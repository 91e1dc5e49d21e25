"""The outcomes of a test once more, as the axioms of the RISC-V manual have them ("RVWMO Memory Consistency
Model", "Load value axiom", "Atomicity axiom", and "Ztso"), without buffers: all memory operations stand in
one order, in which those of a thread keep their order but for a store and a later load. AMO, LR, SC and a
fence that waits keep all orders. That an SC fails is always allowed."""
from __future__ import annotations

from collections.abc import Iterator
from itertools import product
from typing import NamedTuple

from litmus.enumeration import Outcome, computed
from litmus.instructions import (
    WAITING_FENCES, Amo, Body, Fence, Instruction, Litmus, Load, LoadReserved, Store, StoreConditional,
    has_result,
)


class Place(NamedTuple):
    """The instruction of a thread with this index."""

    thread: int
    at: int


def word_of(instruction: Instruction) -> int:
    """The word that a memory operation is about."""
    assert not isinstance(instruction, Fence)
    return instruction.word


def is_fence(instruction: Instruction) -> bool:
    return isinstance(instruction, Fence) and instruction.orders in WAITING_FENCES


def must_keep(body: Body, first: int, second: int) -> bool:
    """Whether two memory operations of a thread keep their order."""
    may_pass = isinstance(body[first], Store) and isinstance(body[second], Load)
    strong = (Amo, LoadReserved, StoreConditional)
    return not may_pass or any(is_fence(it) or isinstance(it, strong) for it in body[first:second])


class Ordered:
    """The outcomes of a test, by all orders of its memory operations."""

    def __init__(self, litmus: Litmus):
        self.litmus = litmus
        self.places = [
            Place(thread, at)
            for thread, body in enumerate(litmus.threads)
            for at, it in enumerate(body)
            if not isinstance(it, Fence)
        ]

    def outcomes(self) -> frozenset[Outcome]:
        conditional = [place for place in self.places if isinstance(self.at(place), StoreConditional)]
        choices = [dict(zip(conditional, fails)) for fails in product((False, True), repeat=len(conditional))]
        found = {self.outcome(order, fails) for order in self.orders([]) for fails in choices}
        return frozenset(outcome for outcome in found if outcome is not None)

    def at(self, place: Place) -> Instruction:
        return self.litmus.threads[place.thread][place.at]

    def orders(self, order: list[Place]) -> Iterator[list[Place]]:
        """All orders that begin so."""
        left = [place for place in self.places if place not in order]
        if not left:
            yield order
        for place in left:
            if not any(self.is_before(other, place) for other in left):
                yield from self.orders([*order, place])

    def is_before(self, first: Place, second: Place) -> bool:
        body = self.litmus.threads[first.thread]
        return first.thread == second.thread and first.at < second.at and must_keep(body, first.at, second.at)

    def outcome(self, order: list[Place], fails: dict[Place, bool]) -> Outcome | None:
        """What an order comes to, where these SCs fail and the others don't; None where one of the others
        must fail."""
        memory, values = [0] * self.litmus.words, {}
        for index, place in enumerate(order):
            it = self.at(place)
            if isinstance(it, StoreConditional):
                if not fails[place] and not self.may_succeed(order[:index], place, fails):
                    return None
                values[place] = int(fails[place])
            elif not isinstance(it, Store):
                values[place] = self.loaded(order[:index], place, memory)
            if isinstance(it, Amo):
                memory[it.word] = computed(it.kind, values[place], it.value)
            elif isinstance(it, Store) or isinstance(it, StoreConditional) and not fails[place]:
                memory[it.word] = it.value
        kept = [place for place in sorted(values) if has_result(self.at(place))]
        threads = range(len(self.litmus.threads))
        results = (tuple(values[place] for place in kept if place.thread == thread) for thread in threads)
        return Outcome(tuple(results), tuple(memory))

    def loaded(self, before: list[Place], place: Place, memory: list[int]) -> int:
        """The latest store in the order, of those that stand before the load there or in its thread."""
        word = word_of(self.at(place))
        own = enumerate(self.litmus.threads[place.thread][: place.at])
        stores = [(at, it) for at, it in own if isinstance(it, Store) and it.word == word]
        later = [it.value for at, it in stores if Place(place.thread, at) not in before]
        return later[-1] if later else memory[word]

    def may_succeed(self, before: list[Place], place: Place, fails: dict[Place, bool]) -> bool:
        """Whether the thread's last LR or SC is an LR of these bytes, and nobody else wrote there since."""
        body = self.litmus.threads[place.thread]
        pairs = [at for at in range(place.at) if isinstance(body[at], (LoadReserved, StoreConditional))]
        if not pairs or not isinstance(body[pairs[-1]], LoadReserved):
            return False
        reserved = self.bytes_of(Place(place.thread, pairs[-1]))
        since = before[before.index(Place(place.thread, pairs[-1])) + 1 :]
        writes = (other for other in since if other.thread != place.thread and self.is_write(other, fails))
        is_lost = any(self.bytes_of(other) == reserved for other in writes)
        return reserved == self.bytes_of(place) and not is_lost

    def is_write(self, place: Place, fails: dict[Place, bool]) -> bool:
        return isinstance(self.at(place), (Store, Amo)) or fails.get(place) is False

    def bytes_of(self, place: Place) -> int:
        return word_of(self.at(place)) * self.litmus.spacing // 8
