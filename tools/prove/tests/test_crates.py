"""Which crates the program is proved from."""
from __future__ import annotations

import tempfile
import unittest
from pathlib import Path

from prove.crates import below, lines_for, name_of, rows
from prove.proving import PROGRAM, copy_crates

ROOT = Path(__file__).resolve().parents[3]
TEXT = '# libraries\nlow:\nmiddle: low thiserror\nother: low # beside\nprogram may_wait=2: middle\ntests: other\n'


class Lines(unittest.TestCase):
    def test_each_line_is_known_by_its_name(self) -> None:
        self.assertEqual(list(rows(TEXT)), ['low', 'middle', 'other', 'program', 'tests'])

    def test_a_crate_stands_on_others_through_others(self) -> None:
        self.assertEqual(below('program', rows(TEXT)), {'program', 'middle', 'low'})

    def test_a_comment_names_no_library(self) -> None:
        self.assertEqual(below('other', rows(TEXT)), {'other', 'low'})


class Copy(unittest.TestCase):
    def test_a_copy_has_what_the_program_is_proved_from(self) -> None:
        with tempfile.TemporaryDirectory() as folder:
            copy = Path(folder)
            copy_crates(ROOT, copy)
            names = sorted(map(name_of, lines_for(PROGRAM, ROOT)))
            self.assertEqual(sorted(crate.name for crate in (copy / 'crates').iterdir()), names)
            self.assertEqual((copy / 'HANDLES').read_text(), (ROOT / 'HANDLES').read_text())
            self.assertFalse(list(copy.glob('crates/*/must-fail')))

    def test_no_test_is_proved_for_it(self) -> None:
        names = set(map(name_of, lines_for(PROGRAM, ROOT)))
        self.assertIn('top_call', names)
        self.assertFalse([name for name in names if name.endswith('_tests')])


if __name__ == '__main__':
    unittest.main()
