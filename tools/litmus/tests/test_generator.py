"""What the tests of seeds are like, and what the assembler refuses."""
from __future__ import annotations

import unittest
from collections import Counter

from litmus.enumeration import outcomes
from litmus.generator import MOST, is_worth_a_look, random_litmus
from litmus.instructions import Amo, Fence, Litmus, Load, Store, StoreConditional, described
from litmus.listing import RESULTS, ListingFault, assembler, check
from litmus.showing import Shown, all_shown, shown

SEEDS = range(400)


class Seeds(unittest.TestCase):
    def test_a_seed_gives_one_test(self) -> None:
        self.assertEqual([random_litmus(seed) for seed in SEEDS], [random_litmus(seed) for seed in SEEDS])
        self.assertGreater(len({random_litmus(seed) for seed in SEEDS}), 390)

    def test_each_fits_its_program(self) -> None:
        for seed in SEEDS:
            litmus = random_litmus(seed)
            check(litmus)
            self.assertTrue(is_worth_a_look(litmus.threads))
            self.assertLessEqual(max(map(len, litmus.threads)), MOST[len(litmus.threads)][0])

    def test_they_are_of_all_kinds(self) -> None:
        tests = [random_litmus(seed) for seed in SEEDS]
        instructions = Counter(type(it) for litmus in tests for body in litmus.threads for it in body)
        self.assertEqual(len(instructions), 6)
        self.assertEqual({len(litmus.threads) for litmus in tests}, {2, 3, 4})
        self.assertEqual({litmus.words for litmus in tests}, {1, 2, 3})
        self.assertEqual({litmus.spacing for litmus in tests}, {4, 8})
        self.assertEqual({litmus.is_status for litmus in tests}, {False, True})

    def test_some_outcomes_need_a_store_that_waits(self) -> None:
        late = [litmus for litmus in map(random_litmus, SEEDS) if outcomes(litmus, 1) < outcomes(litmus, 2)]
        self.assertGreater(len(late), len(SEEDS) // 10)


class Programs(unittest.TestCase):
    def test_outcomes_are_shown_apart(self) -> None:
        """The results of a status are told apart; on the console the words at the end are too."""
        for seed in SEEDS:
            litmus = random_litmus(seed)
            found = outcomes(litmus, 2)
            apart = {outcome.results for outcome in found} if litmus.is_status else found
            self.assertEqual(len(all_shown(litmus, 2)), len(apart), described(litmus))

    def test_what_is_shown(self) -> None:
        bodies = ((Store(0, 2), Load(1)), (Load(0), Store(1, 1)))
        first, second = (Litmus(bodies, 2, spacing, spacing == 4) for spacing in (8, 4))
        outcome = next(it for it in outcomes(first, 2) if it.results == ((1,), (2,)))
        console = bytes([1, 2, *bytes(6), 2, *bytes(7), 1, *bytes(7)])
        self.assertEqual(shown(first, outcome), Shown(console, 'exit 0'))
        self.assertEqual(shown(second, outcome), Shown(b'', f'exit {1 + (2 << 2)}'))

    def test_what_is_refused(self) -> None:
        load = (Load(0),)
        for wrong in (
            Litmus(((Load(1),),), 1),
            Litmus(((Store(0, 4),),), 1),
            Litmus(((Amo('nand', 0, 1, True),),), 1),
            Litmus(((StoreConditional(0, 0),),), 1),
            Litmus((load * (len(RESULTS) + 1),), 1),
            Litmus((load,), 4),
            Litmus((load,), 1, 2),
            Litmus((load * 5, load * 4), 1, 8, True),
            Litmus(((Store(0, 3),) * 86,), 1),
            Litmus(((Fence('w, x'),),), 1),
        ):
            with self.subTest(wrong=described(wrong)):
                self.assertRaises(ListingFault, assembler, wrong)
