"""Litmus tests: with ztso_atomics.h each order of C11 lets through what a memory of Ztso does with it, and
nothing else."""
from __future__ import annotations

import itertools
import unittest
from concurrent.futures import ThreadPoolExecutor
from pathlib import Path

from .common import COMPILERS, EXAMPLES, Room, build, explore, needs_compiler, needs_program

SOURCE = EXAMPLES / 'orders' / 'orders.c'
RELAXED, RELEASE_ACQUIRE, SEQ_CST = range(3)
"""What -DORDER says."""
SPELLINGS = ((), ('-DSTDATOMIC',))
RUNS = 600
"""The rarest outcome (SB with 1 1) came in 39 of 1,000 runs by GCC, and in 49 by clang."""

WITHOUT_FENCE = {
    'SB': {'00', '01', '10', '11'},
    'MP': {'00', '01', '11'},
    'LB': {'00', '01', '10'},
    'WW': {'12', '21', '22'},
    'R': {'10', '11', '20', '21'},
}
"""The two numbers that a run may print, where the order isn't seq_cst."""
LATE_STORES = {'SB': '00', 'R': '20'}
"""What seq_cst forbids of these."""


def allowed(test: str, order: int) -> set[str]:
    return WITHOUT_FENCE[test] - ({LATE_STORES.get(test)} if order == SEQ_CST else set())


@needs_compiler
@needs_program
class Orders(Room):
    def test_each(self) -> None:
        """Each test with each order has exactly the outcomes that are allowed, in both spellings."""
        orders = (RELAXED, RELEASE_ACQUIRE, SEQ_CST)
        cases = list(itertools.product(COMPILERS, SPELLINGS, WITHOUT_FENCE, orders))
        with ThreadPoolExecutor(2) as workers:
            for case, seen in zip(cases, workers.map(self.seen, cases)):
                _, _, test, order = case
                with self.subTest(case=case):
                    self.assertEqual(seen, allowed(test, order))

    def seen(self, case: tuple[str, tuple[str, ...], str, int]) -> set[str]:
        """What the runs of a case print."""
        compiler, spelling, test, order = case
        elf = Path(self.room, '-'.join([compiler, *spelling, test, str(order)]))
        build(compiler, elf, f'-D{test}', f'-DORDER={order}', *spelling, SOURCE)
        return {outcome.console.replace('\n', '') for outcome in explore(elf, '--runs', RUNS)}


if __name__ == '__main__':
    unittest.main()
