"""The outcomes of tests with names, and of random ones by another way."""
from __future__ import annotations

import unittest

from litmus.enumeration import Outcome, outcomes
from litmus.generator import random_litmus
from litmus.instructions import Body, Fence, Litmus, Load, Store
from litmus.named import NAMED, Named

from .ordered import Ordered

SEEDS = range(300)
MOST_OPERATIONS = 6
"""Of so many the orders are counted out in no time."""


def happens(named: Named, found: frozenset[Outcome]) -> bool:
    """Whether what a name speaks of is among outcomes."""
    return any(
        sum(outcome.results, ()) == named.results and named.memory in (None, outcome.memory)
        for outcome in found
    )


def operations(litmus: Litmus) -> int:
    return sum(not isinstance(it, Fence) for body in litmus.threads for it in body)


class Outcomes(unittest.TestCase):
    def test_those_with_names(self) -> None:
        for name, named in NAMED.items():
            with self.subTest(name=name):
                found = outcomes(named.litmus, len(named.litmus.threads))
                self.assertEqual(happens(named, found), named.is_allowed)

    def test_on_one_hart_no_store_is_seen_late(self) -> None:
        """What needs a store that waits doesn't happen there; what a preemption alone brings about does."""
        late = [named for name, named in NAMED.items() if named.is_allowed and 'SC' not in name]
        self.assertGreater(len(late), 5)
        for named in late:
            self.assertFalse(happens(named, outcomes(named.litmus, 1)), named)
        failing = NAMED['SC that fails alone']
        self.assertTrue(happens(failing, outcomes(failing.litmus, 1)))

    def test_more_harts_than_threads_bring_nothing(self) -> None:
        for seed in SEEDS:
            litmus = random_litmus(seed)
            sets = [outcomes(litmus, harts) for harts in range(1, len(litmus.threads) + 2)]
            with self.subTest(seed=seed):
                self.assertTrue(all(fewer <= more for fewer, more in zip(sets, sets[1:])))
                self.assertEqual(sets[-2], sets[-1])

    def test_three_late_stores_need_three_harts(self) -> None:
        """Each of three threads stores and then looks at all others: that none sees any needs all stores
        late."""
        def body(own: int) -> Body:
            return (Store(own, 1), *(Load(word) for word in range(3) if word != own))

        litmus = Litmus(tuple(map(body, range(3))), 3)
        none_seen = [
            any(not any(sum(outcome.results, ())) for outcome in outcomes(litmus, harts))
            for harts in (1, 2, 3)
        ]
        self.assertEqual(none_seen, [False, False, True])

    def test_the_axioms_give_the_same(self) -> None:
        compared = 0
        for seed in SEEDS:
            litmus = random_litmus(seed)
            if operations(litmus) <= MOST_OPERATIONS:
                with self.subTest(seed=seed):
                    self.assertEqual(Ordered(litmus).outcomes(), outcomes(litmus, len(litmus.threads)))
                compared += 1
        self.assertGreater(compared, 200)
