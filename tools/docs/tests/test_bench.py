"""bench/all.py, which makes docs/reference/PERFORMANCE.md: its plots, and that it makes each section to which a page links."""
from __future__ import annotations

import re
import sys
import unittest
from pathlib import Path

from .test_links import anchor_of, pages, prose

ROOT = Path(__file__).resolve().parents[3]
sys.path.insert(0, str(ROOT / 'bench'))

from all import PLOTS, SECTIONS  # noqa: E402 (found by the line above)
from costs import Bench, logged  # noqa: E402
from plots import WIDTH, Point, bar, plot  # noqa: E402

LINK = re.compile(r'PERFORMANCE\.md#([a-z0-9-]+)')


class Page(unittest.TestCase):
    def test_each_section_to_which_a_page_links_is_made(self) -> None:
        made = {anchor_of(one.heading) for one in (*PLOTS, *SECTIONS)}
        linked = {anchor for page in pages() for anchor in LINK.findall(prose(page))}
        self.assertEqual(linked - made, set())

    def test_each_script_is_there(self) -> None:
        for one in SECTIONS:
            self.assertTrue((ROOT / 'bench' / one.words[0]).is_file(), one.words[0])
        for one in PLOTS:
            self.assertTrue(hasattr(Bench, one.made_by), one.made_by)


class Plots(unittest.TestCase):
    def test_bars(self) -> None:
        self.assertEqual((bar(10, 10), bar(5, 10), bar(0.01, 10), bar(0, 0)), ('#' * WIDTH, '#' * (WIDTH // 2), '#', '#'))

    def test_rows(self) -> None:
        shown = plot([Point(10, 'a', 1.0), Point(1_000, 'b', 2.0)], 'steps', 'ms', 'ns a step')
        rows = ['steps  ms  ns a step', '   10   a        1.0  ' + 25 * '#', '1,000   b        2.0  ' + 50 * '#']
        self.assertEqual(shown.split('\n'), rows)

    def test_lines_of_a_log(self) -> None:
        self.assertEqual(logged(b'console 6\nlog 9\n\nlog 2\n0 run 1\n0 exec 1\nend limit\n'), 2)


if __name__ == '__main__':
    unittest.main()
