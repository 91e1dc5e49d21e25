"""What `outcomes` finds: of random tests just what there is; of small examples what their files have, with
scripts that play."""
from __future__ import annotations

import os
import re
import subprocess
import tempfile
import unittest
from dataclasses import replace
from pathlib import Path

from lens.faults import LensFault
from litmus.building import build, toolchains
from litmus.instructions import Litmus, Store
from litmus.listing import assembler
from litmus.named import NAMED
from litmus.rows import SLOW, YES, Row, row_of, rows
from litmus.searching import ANY, EQUAL, PROMPT, Comparison, Ended, Search, Searcher, read_search, wrong_in
from litmus.showing import Shown, all_shown

from .test_programs import PROGRAM, needs_toolchain

SEEDS = range(int(os.environ.get('LITMUS_TESTS', '50')))
SECONDS = int(os.environ.get('LITMUS_SECONDS', '120'))
ARE_SLOW_SEARCHED = 'LITMUS_SLOW' in os.environ
PLACES_OF_TESTS, PLACES_OF_EXAMPLES = 20_000, 2_000_000
SMALL = (
    'SB', 'MP', 'LB', 'CoRR', 'SB with fence w, r', 'SB with fence.tso', 'SC that fails alone',
    'two pairs of LR and SC',
)
COUNTING = '''
    .text
    .globl _start
_start:
    li t0, 0
again:
    ld a0, (sp)
    addi t0, t0, 1
    j again
'''
"""A program that counts without an end, in one register."""
MOST_VALUES = re.compile(
    r'rseq_run: most values: (\d+) of t0 at [0-9a-f]+ \(thread 1\), at (\d+) of 8000 places'
)
TEXT = b'''outcomes 2
outcome 1
end exit 0
console 2
a

script 1
0 run 1
outcome 2
end stuck
console 0

script 0
places 7
deepest 3
endless yes
hopeless 2
script 1
0 run 1
signals prompt
complete
'''


def has_command() -> bool:
    """Whether the built program has the command."""
    if not PROGRAM.is_file():
        return False
    ran = subprocess.run([PROGRAM, 'outcomes'], capture_output=True, text=True)
    return 'there is no such command' not in ran.stderr


def preemptions_in(ended: Ended) -> int:
    return sum(line.split()[1] == b'preempt' for line in (ended.script or b'').splitlines())


needs_command = unittest.skipUnless(has_command(), f'{PROGRAM} isn\'t built, or has no command outcomes')


class Texts(unittest.TestCase):
    def test_its_parts(self) -> None:
        search = read_search('t', TEXT)
        ended = [Ended(Shown(b'a\n', 'exit 0'), b'0 run 1\n'), Ended(Shown(b'', 'stuck'), b'')]
        self.assertEqual(search, Search(ended, 7, 3, 'complete', 2, b'0 run 1\n', endless=True))
        without = read_search('t', TEXT.replace(b'script 1\n0 run 1\n', b'').replace(b'script 0\n', b''))
        self.assertEqual([it.script for it in without.ended], [None, None])
        self.assertEqual((without.hopeless, without.nearest), (2, None))

    def test_of_which_runs_it_speaks(self) -> None:
        self.assertEqual(read_search('t', TEXT).signals, PROMPT)
        self.assertEqual(read_search('t', TEXT.replace(b'signals prompt', b'signals any')).signals, ANY)

    def test_what_is_told_where_it_is_finished_alone(self) -> None:
        told = b'endless yes\nhopeless 2\nscript 1\n0 run 1\n'
        none = read_search('t', TEXT.replace(told, b'endless no\nhopeless 0\n'))
        self.assertEqual((none.endless, none.hopeless, none.nearest), (False, 0, None))
        unfinished = read_search('t', TEXT.replace(told, b'').replace(b'complete', b'unfinished places'))
        self.assertEqual((unfinished.endless, unfinished.hopeless, unfinished.nearest), (None, None, None))
        limited = read_search('t', TEXT.replace(told, b'').replace(b'complete', b'complete preemptions 12'))
        self.assertEqual((limited.closing, limited.is_complete), ('complete preemptions 12', False))

    def test_what_is_no_such_text(self) -> None:
        for old, new in (
            (b'outcomes 2', b'outcomes 3'),
            (b'outcome 2', b'outcome 3'),
            (b'console 2', b'console 3'),
            (b'script 1', b'script 2'),
            (b'complete\n', b'complete'),
            (b'complete', b'completed'),
            (b'complete', b'complete preemptions 1'),
            (b'complete', b'complete preemptions'),
            (b'signals prompt', b'signals'),
            (b'signals prompt', b'signals late'),
            (b'endless yes\n', b''),
            (b'endless yes', b'endless maybe'),
            (b'hopeless 2\nscript 1\n0 run 1\n', b''),
            (b'hopeless 2', b'hopeless 0'),
            (b'complete\n', b'unfinished deep\n'),
            (b'end stuck\nconsole 0\n', b'end exit 0\nconsole 2\na\n'),
        ):
            with self.subTest(new=new):
                self.assertIn(old, TEXT)
                self.assertRaises(LensFault, read_search, 't', TEXT.replace(old, new))

    def test_what_a_script_came_to(self) -> None:
        text = b'console 1\na\nlog 1\n0 run 1 0000000000010000\nend exit 0\n'
        right = Ended(Shown(b'a', 'exit 0'), b'0 run 1\n')
        self.assertIsNone(wrong_in(text, right))
        for wrong in (
            Ended(Shown(b'a', 'exit 1'), b'0 run 1\n'),
            Ended(Shown(b'b', 'exit 0'), b'0 run 1\n'),
            Ended(Shown(b'a', 'exit 0'), b'0 run 1\n0 exec\n'),
        ):
            self.assertIsNotNone(wrong_in(text, wrong))


class Rows(unittest.TestCase):
    def test_the_table(self) -> None:
        for row in rows():
            self.assertTrue(row.elf.is_file(), row)
            self.assertEqual(row.closes == YES, not row.why_not, row)
            self.assertTrue(all(row.allows(shown) for _, shown in row.worked()), row)
        self.assertEqual(len({row.example for row in rows()}), len(rows()))

    def test_what_is_no_row(self) -> None:
        numbers = ('', '\ttwo\t1\tyes\tno')
        words = ('maybe\tno', 'no', 'no\tmaybe', 'no\t-\twhy\tand')
        for line in (f'hello{it}' for it in (*numbers, *(f'\t2\t1\t{it}' for it in words))):
            self.assertRaises(LensFault, row_of, line)


@needs_command
class Searches(unittest.TestCase):
    def setUp(self) -> None:
        made = tempfile.TemporaryDirectory()
        self.addCleanup(made.cleanup)
        self.elf = Path(made.name) / 'litmus.elf'

    @needs_toolchain
    def test_small_tests(self) -> None:
        searcher = Searcher(str(PROGRAM), PLACES_OF_TESTS)
        for name in SMALL:
            litmus = NAMED[name].litmus
            build(assembler(litmus), self.elf)
            for harts in (1, 2):
                with self.subTest(name=name, harts=harts):
                    search = searcher.search(self.elf, harts)
                    self.assertEqual(search.shown, set(all_shown(litmus, harts)))
                    self.assertTrue(search.is_complete)

    @needs_toolchain
    def test_few_preemptions(self) -> None:
        """Where more preemptions are allowed no outcome is lost, no script has more of them, and where none was left
        out the outcomes are those of all runs."""
        searcher = Searcher(str(PROGRAM), PLACES_OF_TESTS)
        build(assembler(NAMED[SMALL[0]].litmus), self.elf)
        fewer: set[Shown] = set()
        for number in range(256):
            search = searcher.search(self.elf, 1, has_scripts=True, preemptions=number)
            self.assertLessEqual(fewer, search.shown)
            fewer = search.shown
            self.assertLessEqual(max(map(preemptions_in, search.ended), default=0), number)
            if search.is_complete:
                break
            self.assertEqual(search.closing, f'complete preemptions {number}')
        whole = searcher.search(self.elf, 1)
        self.assertTrue(search.is_complete)
        self.assertEqual(search.shown, whole.shown)
        self.assertGreaterEqual(search.places, whole.places)

    @needs_toolchain
    def test_where_no_signal_is_caused(self) -> None:
        """Prompt runs and any runs are the same there: the same places are visited, and the same outcomes found."""
        searcher = Searcher(str(PROGRAM), PLACES_OF_TESTS)
        build(assembler(NAMED[SMALL[0]].litmus), self.elf)
        prompt, late = (searcher.search(self.elf, 2, signals=signals) for signals in (PROMPT, ANY))
        self.assertEqual((prompt.signals, late.signals), (PROMPT, ANY))
        self.assertEqual(replace(late, signals=PROMPT), prompt)

    @needs_toolchain
    def test_random_tests(self) -> None:
        said: list[str] = []
        comparison = Comparison(Searcher(str(PROGRAM), PLACES_OF_TESTS), said.append, SECONDS)
        self.assertEqual(comparison.compare(SEEDS, (1, 2)), 0, said)
        print(f'{len(SEEDS)} litmus tests on 1 and 2 harts: {said[-1]}')
        self.assertGreater(comparison.counts[EQUAL], 0, said)

    @needs_toolchain
    def test_what_is_left_out_is_said(self) -> None:
        said: list[str] = []
        self.assertEqual(Comparison(Searcher(str(PROGRAM), 1), said.append, 0).compare(range(3, 8), (1,)), 0)
        self.assertEqual(said, ['equal 0, unequal 0, unfinished 0, seeds left out 5'])

    @needs_toolchain
    def test_a_search_that_is_cut_short_claims_nothing(self) -> None:
        litmus = Litmus(((Store(0, 1),), (Store(0, 2),)), 1)
        search = Searcher(str(PROGRAM), 100).search(build(assembler(litmus), self.elf), 2)
        self.assertEqual((search.closing, search.places), ('unfinished places', 100))
        self.assertLessEqual(search.shown, set(all_shown(litmus, 2)))

    @needs_toolchain
    def test_what_counts_is_said(self) -> None:
        """A search that takes long and is unfinished says which register took the most values."""
        build(COUNTING, self.elf)
        words = [str(PROGRAM), 'outcomes', str(self.elf), '--harts=1', '--places=8000', '--scripts=no']
        ran = subprocess.run(words, capture_output=True, text=True)
        self.assertTrue(ran.stdout.endswith('\nunfinished places\n'), ran.stdout)
        (said,) = filter(None, map(MOST_VALUES.fullmatch, ran.stderr.splitlines()))
        values, looked_at = map(int, said.groups())
        self.assertTrue(100 < values <= looked_at <= 1000, ran.stderr)

    def test_examples(self) -> None:
        for row in rows():
            if row.closes == YES or row.closes == SLOW and ARE_SLOW_SEARCHED:
                with self.subTest(example=row.example):
                    self.check_example(row)

    def check_example(self, row: Row) -> None:
        """The search of an example is complete. It has the outcomes that its files have, those of its worked
        runs among them, and each script is that of a run that ends so. It says whether some run executes
        instructions without end. It finds hopeless places where there are some, and the script that leads to
        one is that of a run that can go on."""
        searcher = Searcher(str(PROGRAM), PLACES_OF_EXAMPLES)
        search = searcher.search(row.elf, row.harts, has_scripts=True)
        self.assertTrue(search.is_complete, search.closing)
        self.assertEqual(len(search.ended), row.outcomes)
        self.assertEqual([ended.shown for ended in search.ended if not row.allows(ended.shown)], [])
        self.assertEqual([name for name, shown in row.worked() if shown not in search.shown], [])
        wrong = [searcher.played(row.elf, row.harts, ended) for ended in search.ended]
        self.assertEqual([words for words in wrong if words], [])
        if row.is_endless is not None:
            self.assertEqual(search.endless, row.is_endless)
        if row.is_hopeless is not None:
            self.assertEqual(search.hopeless != 0, row.is_hopeless, search.hopeless)
        if search.hopeless:
            lost = Ended(Shown(b'', 'open'), search.nearest)
            self.assertIsNone(searcher.played(row.elf, row.harts, lost))
