"""What many runs came by: `lens coverage`."""
from __future__ import annotations

import re
import shutil
import subprocess
import tempfile
import unittest
from collections import Counter
from pathlib import Path

from lens.coverage import Coverage, Range, SequenceCounts, place_of_cut, places_of_switches, range_of, total
from lens.coverage_runs import POLICIES
from lens.coverage_text import in_ranges
from lens.covered_lines import CoveredLines
from lens.faults import LensFault
from lens.lcov import tracefile
from lens.machine import Act
from lens.output import EXEC, read_output
from lens.program import Program
from runs.explored import Explored, Found

from .common import EXAMPLES, PETERSON, PROGRAM, TIMEOUT, lens, needs_program

COUNTER = EXAMPLES / 'percpu_counter' / 'percpu_counter.elf'
PREEMPTED = EXAMPLES / 'percpu_counter' / 'preempted.output'
SIDE_BY_SIDE = EXAMPLES / 'percpu_counter' / 'side_by_side.output'
START, END, ABORT, COMMIT = 0x10288, 0x1029C, 0x102A4, 0x10298
"""Of the sequence of COUNTER, and the store that commits it."""


def lines(text: str) -> list[bytes]:
    """Lines of a log, their pcs with few digits."""
    rows = (line.split() for line in text.strip().splitlines())
    return [f'{hart} {kind} {thread} {int(pc, 16):016x}'.encode() for hart, kind, thread, pc in rows]


def explore(*words: str) -> str:
    return subprocess.run([PROGRAM, 'explore', *words], capture_output=True, text=True, check=True, timeout=TIMEOUT).stdout


class Switches(unittest.TestCase):
    def test_places(self) -> None:
        """Where a hart goes on behind another one's event, where a thread leaves, and where one begins: a thread that
        left by `preempt` doesn't begin where it comes again."""
        log = lines('''
            0 run 1 10
            0 exec 1 10
            1 run 2 30
            1 exec 2 30
            0 exec 1 14
            0 exec 1 18
            0 preempt 1 1c
            0 run 3 40
            0 preempt 3 40
            1 exec 2 34
            0 run 1 1c
            0 exec 1 1c
            1 take 0 0
            1 run 1 20
        ''')
        places = Counter(places_of_switches(log))
        self.assertEqual(places, Counter({0x30: 1, 0x14: 1, 0x1C: 1, 0x40: 2, 0x34: 1, 0x20: 1}))

    def test_no_log(self) -> None:
        self.assertEqual(list(places_of_switches([])), [])
        self.assertEqual(list(places_of_switches(lines('0 run 1 10'))), [])


class Cuts(unittest.TestCase):
    def test_where_a_sequence_was_cut(self) -> None:
        log = lines('''
            0 exec 2 10
            0 exec 2 14
            1 exec 3 50
            0 drain 2 18
            0 preempt 2 18
            1 run 2 18
        ''')
        self.assertEqual(place_of_cut(log, Act(0, 1, 4, 2, 'cut', 0x40)), 0x18)

    def test_by_a_take(self) -> None:
        log = lines('0 exec 2 10\n0 take 2 14\n0 exec 2 40')
        self.assertEqual(place_of_cut(log, Act(0, 1, 1, 2, 'cut', 0x40)), 0x14)

    def test_which_sequence(self) -> None:
        program = Program(str(COUNTER))
        cut = Act(0, 1, 2, 2, 'cut', ABORT)
        self.assertEqual(range_of(program, START, cut), Range(START, END, ABORT))
        unknown = range_of(program, END, cut)
        self.assertEqual((unknown, unknown.is_known), (Range(END, END, ABORT), False))


class Totals(unittest.TestCase):
    def one(self, steps: int, end: str = 'exit 0', turns: int = 2) -> Coverage:
        covered = Coverage(1, steps, turns)
        covered.ended[b'a', end] = 1
        covered.executed[0x10] = 3
        covered.sequences[Range(1, 5, 9)] = SequenceCounts(Counter({'cut': 1}), Counter({4: 1}))
        return covered

    def explored(self, steps: int, switches: int = 4) -> Explored:
        return Explored('it', [Found(2, 7, 'short', steps, b'a', 'exit 0')], 0, 2, switches)

    def test_sums(self) -> None:
        whole = total([self.one(4), self.one(5, 'exit 1')], None)
        self.assertEqual((whole.runs, whole.steps, whole.turns), (2, 9, 4))
        self.assertEqual(whole.ends, Counter({'exit 0': 1, 'exit 1': 1}))
        self.assertEqual(whole.executed, Counter({0x10: 6}))
        self.assertEqual(whole.sequences[Range(1, 5, 9)], SequenceCounts(Counter({'cut': 2}), Counter({4: 2})))

    def test_an_exploration(self) -> None:
        self.assertEqual(total([self.one(4), self.one(5)], self.explored(4)).runs, 2)
        for parts, explored, said in (
            ([self.one(5), self.one(5)], self.explored(4), 'the run of seed 7 has 4 steps there, and 5 here'),
            ([self.one(4), self.one(5, 'exit 1')], self.explored(4), '2 runs ended with exit 0 there, and 1 here'),
            ([self.one(4), self.one(5)], self.explored(4, 5), 'they have 5 switches there, and 4 here'),
        ):
            with self.subTest(said=said), self.assertRaisesRegex(LensFault, f'^it isn.t what these runs come to: {said}'):
                total(parts, explored)

    def test_ranges_of_lines(self) -> None:
        self.assertEqual(list(in_ranges([2, 4, 9], [1, 2, 4, 7, 9])), ['2-4', '9'])


class Lcov(unittest.TestCase):
    def setUp(self) -> None:
        program = Program(str(PETERSON))
        covered = Coverage(1)
        covered.executed.update({step.pc: 1 for step in read_output(str(EXAMPLES / 'peterson' / 'found.output')).steps if step.kind == EXEC})
        self.text = ''.join(f'{line}\n' for line in tracefile(CoveredLines(program, covered)))

    def test_its_records(self) -> None:
        self.assertIn(f'SF:{EXAMPLES}/peterson/peterson.c\n', self.text)
        for record in self.text.removeprefix('TN:\n').split('end_of_record\n')[:-1]:
            fields = [line.split(':', 1) for line in record.splitlines()]
            counts = [int(words.split(',')[1]) for name, words in fields if name == 'DA']
            totals = {name: int(words) for name, words in fields if name in ('LF', 'LH', 'FNF', 'FNH')}
            self.assertEqual((totals['LF'], totals['LH']), (len(counts), sum(count > 0 for count in counts)))
            entered = [int(words.split(',')[0]) for name, words in fields if name == 'FNDA']
            self.assertEqual((totals['FNF'], totals['FNH']), (len(entered), sum(count > 0 for count in entered)))

    @unittest.skipUnless(shutil.which('genhtml'), 'there is no genhtml (apt-get install lcov)')
    def test_genhtml(self) -> None:
        with tempfile.TemporaryDirectory() as room:
            (Path(room) / 'it.info').write_text(self.text)
            ran = subprocess.run(['genhtml', '-o', 'html', 'it.info'], cwd=room, capture_output=True, text=True)
            self.assertEqual(ran.returncode, 0, ran.stderr)
            self.assertRegex(ran.stdout, r'lines\.+: \d+\.\d% \(\d+ of \d+ lines\)')
            pages = list(Path(room).glob('html/**/peterson.c.gcov.html'))
            self.assertEqual(len(pages), 1)


@needs_program
class Command(unittest.TestCase):
    def shown(self, *words: object) -> str:
        answer = lens('coverage', *words, '--program', PROGRAM)
        self.assertEqual((answer.returncode, answer.stderr), (0, b''))
        return answer.stdout.decode()

    def said(self, *words: object) -> str:
        answer = lens('coverage', *words, '--program', PROGRAM)
        self.assertEqual((answer.returncode, answer.stdout), (2, b''))
        return answer.stderr.decode()

    def test_a_run(self) -> None:
        """Its sequences as `blocks` counts them, and the one that was cut where its listing says."""
        text = self.shown(PREEMPTED, COUNTER)
        self.assertIn('entered 81, left 80, cut 1\n', text)
        rows = re.findall(r'^ +(\d+)  (addv\S*)  .*$', text, re.MULTILINE)
        self.assertEqual([row for row in rows if row[0] != '0'], [('1', 'addv+0x1c')])
        self.assertEqual(text.count('   never\n'), 3)
        self.assertIn('    addv to addv+0x18, 7 instructions  percpu_counter.c:31\n', text)

    def test_a_script_and_its_output(self) -> None:
        texts = [self.shown(path, COUNTER).partition('\n')[2] for path in (PREEMPTED, PREEMPTED.with_suffix('.script'))]
        self.assertEqual(*texts)

    def test_an_exploration_is_its_seeds(self) -> None:
        with tempfile.TemporaryDirectory() as room:
            file = Path(room) / 'explored'
            file.write_text(explore(str(COUNTER), '--seed', '7', '--runs', '6'))
            seeds = self.shown('--seed', 7, '--runs', 6, COUNTER)
            self.assertEqual(self.shown(file, COUNTER).partition(')')[2], seeds.partition(')')[2])
            self.assertIn('the run of seed 7 has ', self.said(file, COUNTER, '--harts', 3))
            file.write_text(explore(str(COUNTER), '--seed', '7', '--runs', '3', '--policy', 'stall', '--by', 'end'))
            stalled = self.shown(file, COUNTER)
            self.assertEqual(stalled.partition(')')[2], self.shown('--seed', 7, '--runs', 3, '--policy', 'stall', COUNTER).partition(')')[2])

    def test_a_folder(self) -> None:
        """Its outputs, and its scripts without one; what isn't a run is passed over."""
        with tempfile.TemporaryDirectory() as room:
            for path in (PREEMPTED, SIDE_BY_SIDE, PREEMPTED.with_suffix('.script')):
                shutil.copy(path, room)
            shutil.copy(SIDE_BY_SIDE.with_suffix('.script'), Path(room) / 'other.script')
            (Path(room) / 'refused.output').write_text('fault script 1\n')
            text = self.shown(room, COUNTER)
            self.assertTrue(text.startswith(f'3 runs of {COUNTER} ({room}), '), text[:100])

    def test_what_it_refuses(self) -> None:
        with tempfile.TemporaryDirectory() as room:
            self.assertIn('has neither outputs', self.said(room, COUNTER))
        self.assertIn("isn't a run of", self.said(PREEMPTED, PETERSON))
        self.assertIn('either RUNS or --seed is wanted', self.said(COUNTER))
        self.assertIn('--runs is for --seed', self.said(PREEMPTED, COUNTER, '--runs', 3))
        self.assertIn('a seed is a number from 0', self.said(COUNTER, '--seed', 2**64 - 1, '--runs', 2))

    def test_the_policies_of_seeds(self) -> None:
        text = explore(str(PETERSON), '--seed', '0', '--runs', '5', '--until', '64')
        self.assertIn(f'seed 0 policy {POLICIES[0]} ', text)
        for seed, policy in enumerate(POLICIES):
            self.assertIn(f'seed {seed} policy {policy} ', explore(str(PETERSON), '--seed', str(seed), '--runs', '1'))


if __name__ == '__main__':
    unittest.main()
