"""What a litmus file says, for the enumeration of all outcomes: of files with loads, stores, AMOs, LR, SC and
fences alone, whose addresses and values are in registers from the start."""
from __future__ import annotations

import re

from litmus.enumeration import Outcome
from litmus.files.parts import Observed, Operation, Register, Test, Value
from litmus.instructions import (
    Amo, Fence, Instruction, Litmus, Load, LoadReserved, Store, StoreConditional, has_result,
)

PLAIN = re.compile(r'(lw|sw) x(\d+), 0\(x(\d+)\)')
ATOMIC = re.compile(r'(lr|sc|amo\w+)\.w(?:\.\w+)? x(\d+), (?:x(\d+), )?\(x(\d+)\)')


class NotSimple(Exception):
    """A file with other instructions, or whose registers change."""


class Meaning:
    """A file as a test of the enumeration, with the registers of its results."""

    def __init__(self, test: Test):
        self.test = test
        self.words = sorted(test.variables)
        if any(variable.initial for variable in test.variables.values()):
            raise NotSimple
        bodies = [tuple(self.instruction(thread, it) for it in test.operations(thread))
                  for thread in range(len(test.threads))]
        if any(len(body) != len(whole) for body, whole in zip(bodies, test.threads)):
            raise NotSimple
        self.litmus = Litmus(tuple(bodies), len(self.words))
        self.results = [
            Register(thread, it.target or 0)
            for thread, body in enumerate(bodies)
            for it, made in zip(test.operations(thread), body) if has_result(made)
        ]
        if len(set(self.results)) != len(self.results) or set(self.results) & set(test.initial):
            raise NotSimple

    def instruction(self, thread: int, operation: Operation) -> Instruction:
        name, _, orders = operation.text.partition(' ')
        if name.startswith('fence'):
            return Fence('tso' if name == 'fence.tso' else orders)
        if found := PLAIN.fullmatch(operation.text):
            word = self.word(thread, found[3])
            return Load(word) if found[1] == 'lw' else Store(word, self.number(thread, found[2]))
        found = ATOMIC.fullmatch(operation.text)
        if not found:
            raise NotSimple
        word = self.word(thread, found[4])
        if found[1] == 'lr':
            return LoadReserved(word)
        value = self.number(thread, found[3])
        if found[1] == 'sc':
            return StoreConditional(word, value)
        return Amo(found[1].removeprefix('amo'), word, value, found[2] != '0')

    def word(self, thread: int, register: str) -> int:
        name = self.test.initial.get(Register(thread, int(register)), 0)
        if not isinstance(name, str):
            raise NotSimple
        return self.words.index(name)

    def number(self, thread: int, register: str) -> int:
        value = self.test.initial.get(Register(thread, int(register)), 0)
        if isinstance(value, str):
            raise NotSimple
        return value

    def seen(self, outcome: Outcome) -> dict[Observed, Value]:
        """What an outcome is in the file."""
        results = dict(zip(self.results, sum(outcome.results, ())))
        memory = dict(zip(self.words, outcome.memory))
        return {it: memory[it] if isinstance(it, str) else results.get(it, 0) for it in self.test.observed}
