"""Peterson's lock in three spellings: each shows its bug as often as volatile does."""
from __future__ import annotations

import itertools
import unittest
from pathlib import Path

from .common import COMPILERS, EXAMPLES, Room, build, explore, needs_compiler, needs_program

SOURCE = EXAMPLES / 'orders' / 'peterson.c'
SPELLINGS = ('-DVOLATILE', '-DBUILTINS', '-DSTDATOMIC')
RUNS = 1000
LOST = 'count 1: an addition is lost\n'


@needs_compiler
@needs_program
class Peterson(Room):
    def test_each_spelling(self) -> None:
        """A tenth of the runs or more lose an addition, and the others end well."""
        for compiler, spelling in itertools.product(COMPILERS, SPELLINGS):
            with self.subTest(compiler=compiler, spelling=spelling):
                elf = build(compiler, Path(self.room, compiler + spelling), spelling, SOURCE)
                runs = {outcome.console: outcome.runs for outcome in explore(elf, '--runs', RUNS)}
                self.assertEqual(set(runs), {'count 2\n', LOST})
                self.assertGreaterEqual(runs[LOST], RUNS // 10)


if __name__ == '__main__':
    unittest.main()
