"""What `run` lets a hart do next (docs/reference/DEFINITIONS.md, the chooser), and the generator of its words."""
from __future__ import annotations

from typing import NamedTuple

WORD = (1 << 64) - 1


class Generator:
    """xoshiro256++, seeded by SplitMix64 (Blackman and Vigna)."""

    def __init__(self, seed: int) -> None:
        self.state = []
        for _ in range(4):
            seed = (seed + 0x9E3779B97F4A7C15) & WORD
            z = (seed ^ seed >> 30) * 0xBF58476D1CE4E5B9 & WORD
            z = (z ^ z >> 27) * 0x94D049BB133111EB & WORD
            self.state.append(z ^ z >> 31)

    def word(self) -> int:
        a, b, c, d = self.state
        answer = (rotated((a + d) & WORD, 23) + a) & WORD
        c, d = c ^ a, d ^ b
        self.state = [a ^ d, b ^ c, c ^ b << 17 & WORD, rotated(d, 45)]
        return answer


def rotated(value: int, by: int) -> int:
    return (value << by | value >> 64 - by) & WORD


class Sight(NamedTuple):
    """What a scheduler sees of a hart. Requests, barriers and signals are none of this guest's."""

    idle: bool
    ready: bool
    stores: int
    enabled: bool
    local: bool
    ran: int
    credit: int


class Pick(NamedTuple):
    event: str
    credit: int = 0


def pick(seen: Sight, generator: Generator) -> Pick | None:
    """The event that a hart makes, with the credit that it has after it; None where it makes none."""
    if seen.idle:
        return Pick('run') if seen.ready else None
    if seen.credit and seen.local:
        return Pick('exec', seen.credit - 1)
    if not seen.enabled:
        return Pick('drain') if seen.stores else None
    word = generator.word()
    if word % 8 == 0 and seen.ran >= 16 and not seen.stores and seen.ready:
        return Pick('preempt')
    if word % 4 == 1 and seen.stores:
        return Pick('drain')
    return Pick('exec', word // 16 % 8)
