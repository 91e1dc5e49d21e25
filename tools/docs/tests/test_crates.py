"""docs/explanation/ARCHITECTURE.md has a row for each crate, which says what it stands on as crates.txt does; and what stands on a higher tier is named."""
from __future__ import annotations

import re
import unittest
from pathlib import Path

ROOT = Path(__file__).resolve().parents[3]
PAGE = (ROOT / 'docs' / 'explanation' / 'ARCHITECTURE.md').read_text()
TIERS = ['tables', 'parts', 'kernel', 'machine', 'outside', 'tests']
ROW = re.compile(r'^\| `(\w+)` \| (\w+) \|.*?\|([^|]*)\|', re.M)
NAME = re.compile(r'`(\w+)`')


def listed_crates() -> dict[str, list[str]]:
    """What each crate stands on, by crates.txt."""
    lines = (line.partition('#')[0].strip() for line in (ROOT / 'crates.txt').read_text().splitlines())
    parts = (line.partition(':') for line in lines if line)
    return {head.split()[0]: below.split() for head, _, below in parts}


def told_crates() -> dict[str, tuple[str, list[str]]]:
    """The tier of each crate, and what it stands on, by the table of crates."""
    table = PAGE.partition('\n## Crates, lowest first\n')[2].partition('\n## ')[0]
    return {crate: (tier, NAME.findall(below)) for crate, tier, below in ROW.findall(table)}


class Crates(unittest.TestCase):
    def test_each_crate_has_a_row(self) -> None:
        self.assertEqual(sorted(told_crates()), sorted(listed_crates()))

    def test_what_crates_stand_on(self) -> None:
        due = listed_crates()
        for crate, (tier, below) in told_crates().items():
            if tier != 'tests':
                with self.subTest(crate=crate):
                    self.assertEqual(sorted(below), sorted(due[crate]))

    def test_who_stands_on_a_higher_tier(self) -> None:
        tiers = {crate: TIERS.index(tier) for crate, (tier, _) in told_crates().items()}
        exceptions = PAGE.partition('with these exceptions.')[2].partition('\n\n')[0]
        named = set(NAME.findall(exceptions))
        for crate, (_, below) in told_crates().items():
            for lower in below:
                if tiers.get(lower, 0) > tiers[crate]:
                    with self.subTest(crate=crate, lower=lower):
                        self.assertLessEqual({crate, lower}, named)


if __name__ == '__main__':
    unittest.main()
