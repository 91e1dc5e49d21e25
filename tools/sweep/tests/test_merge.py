"""`sweep merge`: what many jobs left, added up."""
from __future__ import annotations

import json
import subprocess
import tempfile
import unittest
from pathlib import Path

from lens.machine import BUILT
from sweep.records import Met, Outcome, Rank, Record

TOOLS = Path(__file__).resolve().parents[2]
SWEEP = TOOLS / 'bin' / 'sweep'
PETERSON = TOOLS.parent / 'examples' / 'peterson' / 'peterson.elf'
TIMEOUT = 1800
END = 'harts 1 1\nswitches 0\n'


def explored(first: int, good: int, lost: int, others: int = 0, by_end: bool = False) -> str:
    """A text of `explore`: the first run ended with 0, and the one behind it with 1."""
    console = '' if by_end else 'console 1\na\n'
    rows = [(good, first, 'exit 0'), (lost, first + 1, 'exit 1')]
    told = [f'runs {runs} seed {seed} policy one steps {seed + 5}\n{console}end {end}\n' for runs, seed, end in rows if runs]
    more = f'others {others} seed 3\n' if others else ''
    return f'outcomes {len(told)}\n{"".join(told)}{more}runs {good + lost + others}\n{END}'


class Merges(unittest.TestCase):
    def setUp(self) -> None:
        made = tempfile.TemporaryDirectory()
        self.addCleanup(made.cleanup)
        self.room = Path(made.name)

    def put(self, name: str, text: str) -> None:
        path = self.room / name
        path.parent.mkdir(parents=True, exist_ok=True)
        path.write_text(text)

    def put_sweep(self, name: str, first: int, wanted: int, **asked: object) -> None:
        own = {'program': 'p', 'elf': 'e', 'command': 'draw', 'runs': wanted, 'first seed': first, 'seeds a job': 2, 'limits': []}
        self.put(f'{name}/sweep.json', json.dumps({**own, **asked}))
        record = Record(first, {Outcome('exit 0', b'a'): Met(2, Rank(3, first))})
        self.put(f'{name}/results', record.line(has_texts=False))

    def merge(self, *words: object) -> subprocess.CompletedProcess[str]:
        line = [str(SWEEP), 'merge', *map(str, words or [self.room])]
        return subprocess.run(line, capture_output=True, text=True, timeout=TIMEOUT)

    def test_sums(self) -> None:
        """Of files in folders in a folder; what isn't an exploration is passed over."""
        self.put('1.explored', explored(1, 6, 4))
        self.put('more/2.explored', explored(11, 10, 0))
        self.put('more/job.log', 'a job\n')
        answer = self.merge()
        self.assertEqual((answer.returncode, answer.stderr), (0, ''))
        self.assertEqual([line.split() for line in answer.stdout.splitlines()], [
            ['20', 'runs,', 'seeds', '1', 'to', '20,', '2', 'outcomes'],
            ['runs', 'end', 'steps', 'seed', 'console'],
            ['16', 'exit', '0', '6', '1', "'a'"],
            ['4', 'exit', '1', '7', '2', "'a'"],
        ])
        self.assertEqual(self.merge(self.room, '--expect', 'exit 0').returncode, 1)
        self.assertEqual(self.merge(self.room / 'more', '--expect', 'exit 0').returncode, 0)

    def test_sweeps_and_explorations(self) -> None:
        self.put_sweep('swept', 7, 2)
        self.put('1.explored', explored(1, 6, 0))
        answer = self.merge()
        self.assertEqual((answer.returncode, answer.stderr), (0, ''))
        self.assertEqual(answer.stdout.splitlines()[0], '8 runs, seeds 1 to 8, 1 outcome')
        self.assertEqual(answer.stdout.splitlines()[2].split()[:5], ['8', 'exit', '0', '3', '7'])

    def test_what_lacks(self) -> None:
        """Is said, with status 2; the table is of what is there."""
        self.put('1.explored', explored(1, 6, 0))
        self.put('2.explored', '')
        self.put_sweep('swept', 11, 6)
        answer = self.merge(self.room, '--expect', 'exit 0')
        self.assertEqual(answer.returncode, 2)
        self.assertEqual(answer.stdout.splitlines()[0], '8 runs, seeds 1 to 6, 11 to 12, 1 outcome')
        self.assertIn(f'sweep: {self.room}/2.explored is empty: its job had not ended\n', answer.stderr)
        self.assertIn(f'sweep: {self.room}/swept has 2 of the 6 runs from seed 11 on', answer.stderr)

    def test_others(self) -> None:
        self.put('1.explored', explored(1, 6, 0, others=3))
        answer = self.merge(self.room, '--expect', 'exit 0')
        self.assertEqual(answer.returncode, 1)
        self.assertIn('           3  others, of which explore told neither console nor end\n', answer.stdout)

    def test_by_end(self) -> None:
        self.put('1.explored', explored(1, 6, 1, by_end=True))
        self.assertEqual(self.merge().stdout.splitlines()[2].split(), ['6', 'exit', '0', '6', '1'])
        self.put('2.explored', explored(8, 6, 1))
        self.assertIn('1.explored tells ends alone, and others tell consoles', self.merge().stderr)

    def test_seeds_that_are_there_twice(self) -> None:
        self.put('1.explored', explored(1, 6, 4))
        for name, first in (('2.explored', 10), ('2.explored', 2**64 - 3)):
            self.put(name, explored(first, 10, 0))
            answer = self.merge()
            self.assertEqual((answer.returncode, answer.stdout), (2, ''))
            self.assertRegex(answer.stderr, r'both have the run of seed (10|1): name one of them')
        self.put('2.explored', explored(2**64 - 3, 3, 0))
        self.assertIn(f'seeds 1 to 10, {2**64 - 3} to {2**64 - 1}, 2 outcomes', self.merge().stdout)

    def test_what_is_refused(self) -> None:
        self.assertIn('there is no exploration and no sweep', self.merge().stderr)
        self.assertIn('No such file or directory', self.merge(self.room / 'no').stderr)
        self.put('1.explored', 'outcomes 1\nruns')
        self.assertIn('1.explored: it is cut off', self.merge().stderr)
        (self.room / '1.explored').unlink()
        self.put_sweep('one', 1, 2)
        self.put_sweep('two', 3, 2, limits=['--harts=3'])
        self.assertIn('differs from the sweeps before in limits', self.merge().stderr)
        self.put_sweep('two', 3, 2, command='run')
        self.assertIn('it is a sweep by `run`', self.merge().stderr)

    @unittest.skipUnless(BUILT.is_file(), f'{BUILT} is not built')
    def test_an_array_of_jobs(self) -> None:
        """It comes to what one exploration of all seeds does."""
        for at in range(3):
            words = [BUILT, 'explore', PETERSON, '--seed', str(1 + 30 * at), '--runs', '30', '--jobs', '1']
            self.put(f'{at}.explored', subprocess.run(words, capture_output=True, text=True, check=True).stdout)
        merged = self.merge().stdout
        self.assertTrue(merged.startswith('90 runs, seeds 1 to 90, '))
        whole = subprocess.run([BUILT, 'explore', PETERSON, '--runs', '90'], capture_output=True, text=True, check=True).stdout
        counts = sorted(int(line.split()[1]) for line in whole.splitlines() if line.startswith('runs ') and ' seed ' in line)
        self.assertEqual(sorted(int(line.split()[0]) for line in merged.splitlines()[2:]), counts)


if __name__ == '__main__':
    unittest.main()
