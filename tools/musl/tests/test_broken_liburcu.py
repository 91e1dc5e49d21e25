"""bench/broken_liburcu.py without its builds: its edits, its copies, and how it reads what `explore` prints."""
from __future__ import annotations

import re
import sys
import unittest

from lens.faults import LensFault

from .common import ROOT, Room

sys.path.append(str(ROOT / 'bench'))

import broken_liburcu as bench  # noqa: E402 (found by the line above)

TEXT = 'void one(void)\n{\n\tfence();\n\tfence();\n}\nvoid two(void)\n{\n\tfence();\n}\n'
FOUND = 'outcomes 2', 'runs 9 seed 70 policy stretch steps 8', 'end exit 0', 'runs 1 seed 76 policy one steps 9', 'end killed 6', 'runs 10'


class Edits(unittest.TestCase):
    def test_the_first_one_behind_a_line(self) -> None:
        made = bench.Edit('fence();', ';', 'void two(void)').of(TEXT)
        self.assertEqual(made, TEXT.replace('two(void)\n{\n\tfence();', 'two(void)\n{\n\t;'))
        made = bench.Edit('fence();', 'other();', 'void one(void)').of(TEXT)
        self.assertEqual(made, TEXT.replace('fence();', 'other();', 1))

    def test_the_only_one(self) -> None:
        made = bench.Edit('void two(void)', 'void three(void)').of(TEXT)
        self.assertEqual(made, TEXT.replace('two', 'three'))

    def test_refused(self) -> None:
        """Another version of the file isn't edited somewhere else."""
        cases = {
            'is there 3 times': bench.Edit('fence();', ';'),
            'is there 0 times': bench.Edit('fence();', ';', 'void three(void)'),
            "no line 'wait();' behind": bench.Edit('wait();', ';', 'void two(void)'),
        }
        for said, edit in cases.items():
            with self.subTest(said), self.assertRaisesRegex(LensFault, re.escape(said)):
                edit.of(TEXT)


class Copies(unittest.TestCase):
    def test_their_names(self) -> None:
        names = [copy.name for copy in bench.COPIES]
        self.assertEqual(len(set(names)), len(names))
        self.assertLessEqual({copy.flavour for copy in bench.COPIES}, set(bench.FLAVOURS))

    def test_each_changes_something(self) -> None:
        for copy in bench.COPIES:
            self.assertNotEqual(copy.edit.line, copy.edit.becomes, copy.name)


class Judged(unittest.TestCase):
    def test_two_of_three_in_time(self) -> None:
        self.assertTrue(bench.is_as_asked([600, None, 1], 600))
        self.assertFalse(bench.is_as_asked([601, None, 1], 600))
        self.assertFalse(bench.is_as_asked([None, None, None], 600))

    def test_one_that_is_right(self) -> None:
        self.assertTrue(bench.is_as_asked([None, None, None], 0))
        self.assertFalse(bench.is_as_asked([None, 5, None], 0))

    def test_nothing_asked(self) -> None:
        self.assertTrue(bench.is_as_asked([None, 5, None], None))


class Searched(Room):
    def found_by(self, *commands: str) -> int | None:
        """What is found by a stand-in of the program that does this."""
        self.stand_in('program', *commands)
        return bench.Search(str(self.room / 'stand-ins' / 'program'), 1, (70,)).first_failure(self.room, 70, 10)

    def test_the_run_that_failed(self) -> None:
        self.assertEqual(self.found_by(*(f"echo '{line}'" for line in FOUND)), 7)

    def test_no_run_that_failed(self) -> None:
        self.assertIsNone(self.found_by("echo 'outcomes 1'", *(f"echo '{line}'" for line in FOUND[1:3])))

    def test_refused_words(self) -> None:
        """A program that makes no run is none in which nothing was found."""
        with self.assertRaisesRegex(LensFault, 'status 2; no such option'):
            self.found_by('echo no such option >&2', 'exit 2')


if __name__ == '__main__':
    unittest.main()
