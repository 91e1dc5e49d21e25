"""The counts in docs/reference/PROVED.md are those of the files that they count."""
from __future__ import annotations

import re
import unittest
from pathlib import Path

ROOT = Path(__file__).resolve().parents[3]
CRATES = ROOT / 'crates'
PROVED = (ROOT / 'docs' / 'reference' / 'PROVED.md').read_text()
ROW = re.compile(r'\| `?(\w+)`? \| (\d+) \| (\d+) \|')
RUNS = re.compile(r'([\d,]+) folders with ([\d,]+) runs')


def listed_crates() -> list[str]:
    """The crates of crates.txt."""
    lines = (line.partition('#')[0] for line in (ROOT / 'crates.txt').read_text().splitlines())
    return [line.partition(':')[0].split()[0] for line in lines if line.strip()]


def counts_of(crate: str) -> tuple[int, int]:
    """How many tests and wrong bodies a crate has."""
    sources = (CRATES / crate / 'src').rglob('*.rt')
    tests = sum(source.read_text().count('#[test]') for source in sources)
    return tests, len(list((CRATES / crate / 'must-fail').glob('*.edit')))


def told_counts() -> dict[str, tuple[int, int]]:
    """What the table of "Tests and wrong bodies" says of each crate, and of all together."""
    table = PROVED.partition('\n## Tests and wrong bodies\n')[2].partition('\n## ')[0]
    return {name: (int(tests), int(edits)) for name, tests, edits in ROW.findall(table)}


class Counts(unittest.TestCase):
    def test_tests_and_wrong_bodies(self):
        due = {crate: counts_of(crate) for crate in listed_crates()}
        tests, edits = zip(*due.values())
        due['together'] = sum(tests), sum(edits)
        self.assertEqual(told_counts(), due)

    def test_worked_runs(self):
        data = CRATES / 'worked_runs' / 'data'
        folders = len((data / 'rows').read_text().splitlines())
        runs = int((CRATES / 'worked_runs' / 'stdout').read_text().split(' ')[0])
        told = [tuple(int(number.replace(',', '')) for number in found) for found in RUNS.findall(PROVED)]
        self.assertEqual(told, [(folders, runs)])


if __name__ == '__main__':
    unittest.main()
