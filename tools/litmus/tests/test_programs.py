"""The programs of tests, built and explored: no outcome is found that can't be, and of small ones each is
found."""
from __future__ import annotations

import os
import re
import subprocess
import tempfile
import unittest
from pathlib import Path

from litmus.building import TOOLS, build, toolchains
from litmus.comparing import Explorer, difference
from litmus.instructions import Litmus
from litmus.listing import assembler
from litmus.named import NAMED

ROOT = Path(__file__).resolve().parents[3]
COMMAND = ROOT / 'tools' / 'bin' / 'litmus'
PROGRAM = Path(os.environ.get('RSEQ_RUN', ROOT / 'crates' / 'rseq_run' / 'out' / 'rseq_run')).resolve()
SMALL = (
    'SB', 'MP', 'LB', 'CoRR', 'SB with fence w, r', 'SB with fence.tso', 'SB with AMOs',
    'SC that fails alone',
)
PAGE_COMMAND = re.compile(r'^ +tools/bin/litmus (explore --tests \d+)\n +(explorations .* 0\n)', re.MULTILINE)
HELP = '`litmus explore --help` says the words'
NINE_STORES = 'SB with seven stores between', 'SB with eight stores between'
needs_toolchain = unittest.skipUnless(toolchains(), f'there is none of {TOOLS}')
needs_program = unittest.skipUnless(PROGRAM.is_file(), f'{PROGRAM} isn\'t built')


class Commands(unittest.TestCase):
    def answer(self, *words: str) -> subprocess.CompletedProcess[str]:
        return subprocess.run([COMMAND, *words], capture_output=True, text=True, check=False)

    def test_show(self) -> None:
        shown = self.answer('show', '3', '--harts', '1')
        self.assertEqual((shown.returncode, shown.stderr), (0, ''))
        self.assertIn(' on 1 harts:\n', shown.stdout)
        self.assertIn('\n_start:\n', shown.stdout)

    @needs_program
    @needs_toolchain
    def test_the_command_of_the_page(self) -> None:
        """Drawn runs of a seed are the same on each machine, so the page has just what comes."""
        ((words, due),) = PAGE_COMMAND.findall((ROOT / 'tools' / 'README.md').read_text())
        explored = self.answer(*words.split(), '--program', str(PROGRAM))
        self.assertEqual((explored.returncode, explored.stdout, explored.stderr), (0, due, ''))

    def test_what_is_wrong_is_said(self) -> None:
        for words, said in (
            (('explore', '--program', '/nowhere'), 'litmus: /nowhere: no program is there\n'),
            (('explore', '--tests', '0'), f"litmus explore: --tests: '0' is no number from 1 on ({HELP})\n"),
        ):
            wrong = self.answer(*words)
            self.assertEqual((wrong.returncode, wrong.stdout, wrong.stderr), (2, '', said))


@needs_toolchain
@needs_program
class Explored(unittest.TestCase):
    def setUp(self) -> None:
        made = tempfile.TemporaryDirectory()
        self.addCleanup(made.cleanup)
        self.elf = Path(made.name) / 'litmus.elf'

    def missing(self, litmus: Litmus, toolchain: str, harts: int) -> int:
        """How many outcomes 4,000 runs don't find; none of those that they find can't be."""
        found = Explorer(str(PROGRAM), 4000).found(build(assembler(litmus), self.elf, toolchain), harts)
        compared = difference(litmus, harts, found)
        self.assertEqual(compared.extra, [])
        return len(compared.missing)

    def test_all_outcomes_of_small_tests_are_found(self) -> None:
        for name in SMALL:
            for toolchain in toolchains():
                for harts in (1, 2):
                    with self.subTest(name=name, toolchain=toolchain, harts=harts):
                        self.assertEqual(self.missing(NAMED[name].litmus, toolchain, harts), 0)

    def test_eight_stores_wait_and_no_ninth(self) -> None:
        for name in NINE_STORES:
            with self.subTest(name=name):
                self.missing(NAMED[name].litmus, toolchains()[0], 2)
