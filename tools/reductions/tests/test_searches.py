"""What is found with the reduction is what is found without it."""
from __future__ import annotations

import os
import re
import subprocess
import tempfile
import unittest
from pathlib import Path

from litmus.building import build, toolchains
from litmus.searching import Ended, Search, Searcher
from litmus.showing import Shown
from reductions.comparing import EQUAL, LEFT_OUT, UNEQUAL, UNFINISHED, Comparison, Pair
from reductions.generator import random_program
from reductions.named import NAMED
from reductions.program import MOST_RESULTS, SHARED, assembler

ROOT = Path(__file__).resolve().parents[3]
COMMAND = ROOT / 'tools' / 'bin' / 'reductions'
PROGRAM = Path(os.environ.get('RSEQ_RUN', ROOT / 'crates' / 'rseq_run' / 'out' / 'rseq_run')).resolve()
SEEDS = range(int(os.environ.get('REDUCTIONS_TESTS', '100')))
SECONDS = int(os.environ.get('REDUCTIONS_SECONDS', '80'))
PLACES_OF_SEEDS, PLACES_OF_NAMED = 8_000, 60_000
PAGE_COMMAND = re.compile(r'^ +tools/bin/reductions (compare [^\n]*)\n +(equal [^\n]*\n)', re.MULTILINE)


def has_option() -> bool:
    """Whether the built program can leave a reduction out."""
    if not PROGRAM.is_file():
        return False
    return '--without' in subprocess.run([PROGRAM, '--help'], capture_output=True, text=True).stdout


needs_option = unittest.skipUnless(has_option(), f'{PROGRAM} isn\'t built, or has no option --without')
needs_toolchain = unittest.skipUnless(toolchains(), 'there is no assembler of RISC-V')


def search(closing: str, places: int, *consoles: bytes, hopeless: int = 0, endless: bool = False) -> Search:
    ended = [Ended(Shown(console, 'exit 0'), None) for console in consoles]
    return Search(ended, places, 1, closing, hopeless, endless=endless)


class Pairs(unittest.TestCase):
    def test_what_is_equal(self) -> None:
        pair = Pair(search('complete', 2, b'a', b'b'), search('complete', 9, b'b', b'a'))
        self.assertEqual((pair.verdict, [*pair.words()]), (EQUAL, []))

    def test_what_is_unequal_is_said(self) -> None:
        less, more = search('complete', 2, b'a'), search('complete', 9, b'a', b'\1\2')
        self.assertEqual([*Pair(less, more).words()], ['only without local-steps: end exit 0, console 01 02'])
        self.assertEqual(Pair(more, less).verdict, UNEQUAL)
        self.assertEqual(
            [*Pair(more, less).words()],
            [
                'only with local-steps: end exit 0, console 01 02',
                'fewer places without local-steps: 2, with it 9',
            ],
        )

    def test_hopeless_places_are_in_both_or_in_none(self) -> None:
        none, some, more = (search('complete', 2, b'a', hopeless=number) for number in (0, 3, 9))
        self.assertEqual((Pair(none, none).verdict, Pair(some, more).verdict), (EQUAL, EQUAL))
        self.assertEqual([*Pair(none, some).words()], ['hopeless without local-steps: 3, with it 0'])
        self.assertEqual(Pair(some, none).verdict, UNEQUAL)

    def test_runs_without_end_are_in_both_or_in_none(self) -> None:
        none, some = (search('complete', 2, b'a', endless=endless) for endless in (False, True))
        self.assertEqual((Pair(none, none).verdict, Pair(some, some).verdict), (EQUAL, EQUAL))
        self.assertEqual([*Pair(none, some).words()], ['endless without local-steps: yes, with it no'])
        self.assertEqual(Pair(some, none).verdict, UNEQUAL)

    def test_what_is_unfinished_claims_nothing(self) -> None:
        complete, unfinished = search('complete', 2, b'a'), search('unfinished places', 9)
        for pair in (Pair(complete, unfinished), Pair(unfinished, None)):
            self.assertEqual((pair.verdict, [*pair.words()]), (UNFINISHED, []))


@needs_toolchain
@needs_option
class Searches(unittest.TestCase):
    def setUp(self) -> None:
        made = tempfile.TemporaryDirectory()
        self.addCleanup(made.cleanup)
        self.folder = Path(made.name)

    def shown(self, name: str, harts: int) -> set[bytes]:
        """The consoles of a program with a name, which are the same with the reduction and without it."""
        elf = build(assembler(NAMED[name]), self.folder / 'program.elf')
        pair = Comparison(Searcher(str(PROGRAM), PLACES_OF_NAMED), print).pair(elf, harts)
        self.assertEqual((pair.verdict, [*pair.words()]), (EQUAL, []), name)
        return {shown.console for shown in pair.reduced.shown}

    def results(self, name: str, harts: int, *places: int) -> set[tuple[int, ...]]:
        """The bytes at these places of the console."""
        return {tuple(console[place] for place in places) for console in self.shown(name, harts)}

    def test_a_thread_sees_its_hart_change(self) -> None:
        self.assertEqual(self.results('area loads', 2, 0, 2), {(0, 0), (0, 1), (1, 0), (1, 1)})
        self.assertEqual(self.results('two cpus', 2, 0, 1), {(0, 0), (0, 1), (1, 0), (1, 1)})

    def test_an_addition_is_lost_before_the_sequence(self) -> None:
        for name in ('gap before sequence', 'fence before sequence'):
            for harts in (1, 2):
                self.assertIn((1,), self.results(name, harts, SHARED[0]), name)

    def test_what_memory_had_before_a_store_is_seen(self) -> None:
        seen = {(0, 1), (1, 0), (1, 1)}
        self.assertEqual(self.results('store holds hart', 1, 0, MOST_RESULTS), seen)
        self.assertEqual(self.results('store holds hart', 2, 0, MOST_RESULTS), seen | {(0, 0)})

    def test_registers_are_seen_by_handlers(self) -> None:
        counts = {(0,), (1,), (2,), (3,)}
        self.assertEqual(self.results('handler sees registers', 1, MOST_RESULTS - 1), counts)
        self.assertEqual(self.results('abort shows register', 1, 0), counts)

    def test_a_jump_out_of_a_sequence(self) -> None:
        for harts in (1, 2):
            self.assertIn((10,), self.results('branch over sequence', harts, SHARED[0]))

    def test_random_programs(self) -> None:
        said: list[str] = []
        comparison = Comparison(Searcher(str(PROGRAM), PLACES_OF_SEEDS), said.append, SECONDS)
        self.assertEqual(comparison.compare(map(random_program, SEEDS), (1, 2)), 0, said)
        print(f'{len(SEEDS)} programs on 1 and 2 harts, with the reduction and without: {said[-1]}')
        self.assertGreater(comparison.counts[EQUAL], 0, said)

    def test_what_is_left_out_is_said(self) -> None:
        said: list[str] = []
        comparison = Comparison(Searcher(str(PROGRAM), 1), said.append, 0)
        self.assertEqual(comparison.compare(map(random_program, range(5)), (1,)), 0)
        self.assertEqual(comparison.counts[LEFT_OUT], 5)
        self.assertEqual(said, ['equal 0, unequal 0, unfinished 0; programs left out 5; places 0 of 0'])


class Commands(unittest.TestCase):
    def answer(self, *words: str) -> subprocess.CompletedProcess[str]:
        return subprocess.run([COMMAND, *words], capture_output=True, text=True, check=False)

    def test_show(self) -> None:
        for word in ('7', 'two cpus'):
            shown = self.answer('show', word)
            self.assertEqual((shown.returncode, shown.stderr), (0, ''))
            self.assertIn('\n_start:\n', shown.stdout)

    @needs_toolchain
    @needs_option
    def test_the_commands_of_the_page(self) -> None:
        """What is found is the same on each machine, so the page has just what comes."""
        commands = PAGE_COMMAND.findall((ROOT / 'tools' / 'README.md').read_text())
        self.assertEqual(len(commands), 2)
        for words, due in commands:
            compared = self.answer(*words.split(), '--program', str(PROGRAM))
            self.assertEqual((compared.returncode, compared.stdout, compared.stderr), (0, due, ''))

    def test_what_is_wrong_is_said(self) -> None:
        there = f'there is no such program; there are seeds, and {", ".join(NAMED)}'
        for words, said in (
            (('show', 'nothing'), f'reductions: nothing: {there}\n'),
            (('compare', '--program', '/nowhere'), 'reductions: /nowhere: no program is there\n'),
            (
                ('compare', '--places', '0'),
                'reductions compare: --places: \'0\' is no number from 1 on '
                '(`reductions compare --help` says the words)\n',
            ),
        ):
            wrong = self.answer(*words)
            self.assertEqual((wrong.returncode, wrong.stdout, wrong.stderr), (2, '', said))
