"""Where a thread goes on its hart, foreseen by where it went before: from an instruction that it comes by
again it is taken to go on as it did the last time. So many instructions of a loop, with the drains that they
need, are asked of the machine at once."""
from __future__ import annotations

from itertools import cycle, islice

from .foresight import drains_for, is_store
from .output import DRAIN, EXEC, PC_DIGITS
from .program import Program


class Course:
    """The instructions of a thread on one hart, one after the other."""

    def __init__(self, program: Program):
        self.program = program
        self.pcs: list[int] = []
        self.last: dict[int, int] = {}
        """Which of them stands last at an address."""

    def add(self, pcs: list[int]) -> None:
        """Goes on by some instructions."""
        for at, pc in enumerate(pcs, len(self.pcs)):
            self.last[pc] = at
        self.pcs += pcs

    def foreseen(self, pc: int | None, waiting: int, size: int) -> list[str]:
        """The kinds of the events that make so many instructions from an address on, where so many stores
        wait: with the drains that they need, as far as the thread was there before. The first is an
        instruction."""
        if pc is None or pc not in self.last:
            return [EXEC] * size
        kinds: list[str] = []
        for at in islice(cycle(self.pcs[self.last[pc] :]), size):
            instruction = self.program.instruction(at)
            drains = drains_for(EXEC, instruction, waiting) if kinds else 0
            kinds += [DRAIN] * drains + [EXEC]
            waiting += is_store(instruction) - drains
        return kinds

    def kept(self, kinds: list[str], lines: list[bytes], waiting: int) -> int:
        """How many of the events that a log has came as they were foreseen: all before the first drain that
        the instruction after it doesn't need, or that none follows."""
        drains = 0
        for done, (kind, line) in enumerate(zip(kinds, lines)):
            if kind == DRAIN:
                drains += 1
                continue
            instruction = self.program.instruction(pc_of(line))
            if drains and drains_for(EXEC, instruction, waiting) != drains:
                return done - drains
            waiting += is_store(instruction) - drains
            drains = 0
        return min(len(kinds), len(lines)) - drains


def pc_of(line: bytes) -> int:
    """The pc of a log line."""
    return int(line[-PC_DIGITS:], 16)
