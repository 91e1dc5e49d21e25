"""The programs of examples/newcomer, with each compiler: the bug of the wrong one is found, and the right one
has one outcome."""
from __future__ import annotations

import itertools
import unittest
from collections.abc import Callable
from concurrent.futures import ThreadPoolExecutor
from pathlib import Path
from typing import Any

from .common import (
    COMPILERS, EXAMPLES, GCC, Outcome, Room, build, explore, is_there, needs_compiler, needs_program,
)

SOURCES = sorted((EXAMPLES / 'newcomer').glob('*.c'))
ALWAYS_RIGHT = ('gate',)
"""What has no bug to be built with."""
STEPS = 8000
"""More than any run has that goes on fairly from a quarter of them on."""
RUNS_OF_WRONG, RUNS_OF_RIGHT = 5000, 30000


@needs_compiler
@needs_program
class Newcomer(Room):
    def each(
        self, cases: list[Any], seen: Callable[[Any], list[Outcome]]
    ) -> list[tuple[Any, list[Outcome]]]:
        """What is seen of each case, two at once."""
        with ThreadPoolExecutor(2) as workers:
            return list(zip(cases, workers.map(seen, cases)))

    def test_each_bug_is_found(self) -> None:
        names = [source.stem for source in SOURCES if source.stem not in ALWAYS_RIGHT]
        self.assertEqual(len(names), 7)
        for case, found in self.each(list(itertools.product(COMPILERS, names)), self.found):
            with self.subTest(case=case):
                self.assertGreater(len(found), 1)
                self.assertIn('exit 0', {outcome.end for outcome in found})

    def found(self, case: tuple[str, str]) -> list[Outcome]:
        """The outcomes of a program with its bug, up to the first other one."""
        compiler, name = case
        elf = self.built(compiler, name, '-DWRONG')
        return explore(elf, '--runs', RUNS_OF_WRONG, '--steps', STEPS, '--until', 2)

    def test_each_right_one_has_one_outcome(self) -> None:
        cases = list(itertools.product(COMPILERS, [source.stem for source in SOURCES], ('2', '3')))
        for case, seen in self.each(cases, self.seen):
            with self.subTest(case=case):
                ends = [(outcome.runs, outcome.end) for outcome in seen]
                self.assertEqual(ends, [(RUNS_OF_RIGHT, 'exit 0')])

    def seen(self, case: tuple[str, str, str]) -> list[Outcome]:
        """The outcomes of a right program on so many harts."""
        compiler, name, harts = case
        elf = self.built(compiler, name, '-DRIGHT', harts)
        return explore(elf, '--runs', RUNS_OF_RIGHT, '--steps', STEPS, '--harts', harts)

    @unittest.skipUnless(is_there(GCC), f'there is no {GCC}')
    def test_why_ipa_reference_is_off(self) -> None:
        """With it GCC loads a static once that a function changes which it takes to leave it as it is."""
        elf = self.built(GCC, 'gate', '-fipa-reference')
        self.assertIn('stuck', {outcome.end for outcome in explore(elf, '--runs', 200, '--steps', STEPS)})

    def built(self, compiler: str, name: str, option: str, number: str = '') -> Path:
        elf = Path(self.room, f'{compiler}-{name}{option}{number}')
        return build(compiler, elf, option, EXAMPLES / 'newcomer' / f'{name}.c')


if __name__ == '__main__':
    unittest.main()
