"""Litmus files through the program: the verdicts of examples/litmus_files; random tests, against all outcomes
that there are; and the command."""
from __future__ import annotations

import os
import subprocess
import tempfile
import unittest
from itertools import zip_longest
from pathlib import Path
from typing import NamedTuple

from litmus.building import build, toolchains
from litmus.enumeration import Outcome, outcomes
from litmus.files.conditions import holds
from litmus.files.layout import BASE, layout
from litmus.files.listing import assembler
from litmus.files.parts import Test
from litmus.files.reading import read_test
from litmus.files.report import counts, word
from litmus.files.running import Observation, Runner
from litmus.generator import random_litmus
from litmus.instructions import (
    NAMES_OF_WORDS, Amo, Body, Fence, Instruction, Litmus, Load, LoadReserved, Store, has_result,
)

from .file_meaning import Meaning, NotSimple
from .test_programs import COMMAND, PROGRAM, ROOT, needs_program, needs_toolchain

FILES = ROOT / 'examples' / 'litmus_files'
VERDICTS = FILES / 'verdicts.tsv'
ALWAYS, SLOW = 'always', 'slow'
ARE_SLOW_SEARCHED = 'LITMUS_SLOW' in os.environ
PLACES = 1_000_000
SEEDS = range(40)
MOST_THREADS = 2
SHAPES = ('SB', 'MP', 'LB', 'S', 'R', '2+2W', 'WRC', 'RWC', 'WWC', 'IRIW', 'CoRR', 'CoWW')


class Verdict(NamedTuple):
    """What a complete search says of a file, what Ztso says of it, and when it is tried: always, or only
    where LITMUS_SLOW is set."""

    name: str
    here: str
    ztso: str
    tried: str

    @property
    def file(self) -> Path:
        return FILES / f'{self.name}.litmus'


def verdicts() -> list[Verdict]:
    lines = [line for line in VERDICTS.read_text().splitlines() if not line.startswith('#')]
    return [Verdict(*line.split('\t')[:4]) for line in lines]


def observed(test: Test, folder: Path, places: int = PLACES, toolchain: str | None = None) -> Observation:
    """What a search finds of a test; on as many harts as it has threads."""
    placed = layout(test)
    elf = build(assembler(test, placed), folder / 'test.elf', toolchain, BASE)
    return Runner(str(PROGRAM), places).observe(elf, placed, len(test.threads))


def cell(instruction: Instruction, result: int) -> str:
    """An instruction of a random test, in a file; its result is in this register, or in none."""
    if isinstance(instruction, Fence):
        return 'fence.tso' if instruction.orders == 'tso' else f'fence {instruction.orders}'
    at = f'(x{5 + instruction.word})'
    if isinstance(instruction, Load):
        return f'lw x{result},0{at}'
    if isinstance(instruction, Store):
        return f'sw x{20 + instruction.value},0{at}'
    if isinstance(instruction, LoadReserved):
        return f'lr.w x{result},{at}'
    if isinstance(instruction, Amo):
        into = result if instruction.is_kept else 0
        return f'amo{instruction.kind}.w x{into},x{20 + instruction.value},{at}'
    return f'sc.w x{result},x{20 + instruction.value},{at}'


def column(body: Body) -> tuple[list[str], int]:
    """The cells of a thread, and how many results it has, in x10 and the registers behind it."""
    cells, results = [], 0
    for instruction in body:
        cells.append(cell(instruction, 10 + results))
        results += has_result(instruction)
    return cells, results


def file_of(litmus: Litmus) -> str:
    """A random test as a file, in which all results and words are seen."""
    columns = [column(body) for body in litmus.threads]
    names = NAMES_OF_WORDS[: litmus.words]
    values = {**{5 + at: name for at, name in enumerate(names)}, 21: '1', 22: '2', 23: '3'}
    initial = [f'{thread}:x{at}={value};' for thread in range(len(columns)) for at, value in values.items()]
    seen = [f'{thread}:x{10 + at};' for thread, (_, results) in enumerate(columns) for at in range(results)]
    rows = zip_longest(*(cells for cells, _ in columns), fillvalue='')
    table = [' | '.join(row) + ' ;' for row in rows]
    heads = ' | '.join(f'P{thread}' for thread in range(len(columns))) + ' ;'
    locations = f'locations [{" ".join([*seen, *(f"{name};" for name in names)])}]'
    return '\n'.join(['RISCV random', '{', *initial, '}', heads, *table, locations, 'forall (true)', ''])


def values(outcome: Outcome) -> tuple[int, ...]:
    return (*sum(outcome.results, ()), *outcome.memory)


@needs_toolchain
@needs_program
class Searched(unittest.TestCase):
    def setUp(self) -> None:
        made = tempfile.TemporaryDirectory()
        self.addCleanup(made.cleanup)
        self.folder = Path(made.name)

    def test_verdicts(self) -> None:
        """Each is said by a complete search."""
        for verdict in verdicts():
            if verdict.tried == ALWAYS or ARE_SLOW_SEARCHED:
                with self.subTest(name=verdict.name):
                    test = read_test(verdict.file.read_text())
                    observation = observed(test, self.folder)
                    self.assertEqual((observation.is_complete, observation.remarks), (True, []))
                    self.assertEqual(word(*counts(test, observation), True), verdict.here)

    def test_random_tests_have_just_the_outcomes_that_there_are(self) -> None:
        """Those whose words don't share the 8 bytes of a reservation, as the variables of files."""
        compared = 0
        for litmus in map(random_litmus, SEEDS):
            if len(litmus.threads) <= MOST_THREADS and (litmus.spacing == 8 or litmus.words == 1):
                with self.subTest(file=file_of(litmus)):
                    observation = observed(read_test(file_of(litmus)), self.folder)
                    due = {values(outcome) for outcome in outcomes(litmus, len(litmus.threads))}
                    self.assertTrue(observation.is_complete)
                    self.assertEqual({it.state.values for it in observation.seen}, due)
                compared += 1
        self.assertGreater(compared, 10)

    def test_each_toolchain(self) -> None:
        test = read_test((FILES / 'SB.litmus').read_text())
        found = [observed(test, self.folder, toolchain=name) for name in toolchains()]
        for observation in found:
            self.assertEqual([it.state.values for it in observation.seen], [(0, 0), (0, 1), (1, 0), (1, 1)])

    def test_an_unfinished_search_never_says_never(self) -> None:
        test = read_test((FILES / 'SB+fence.rw.rws.litmus').read_text())
        observation = observed(test, self.folder, 100)
        self.assertEqual((observation.is_complete, len(observation.remarks)), (False, 1))
        self.assertEqual(word(*counts(test, observation), observation.is_complete), 'Not seen')

    def test_numbers_of_64_bits_and_addresses(self) -> None:
        """They are seen whole, and so are several registers of a thread, negative numbers and pointers."""
        text = '''RISCV values
{ x=-2; int64_t y=0x123456789abcdef0; p=x; 0:x5=p; 0:x6=y; 1:x6=y; uint32_t u=-1; 1:x7=u; }
P0          | P1             ;
ld x8,(x5)  | ld x10,(x6)    ;
lw x9,(x8)  | lw x11,(x7)    ;
ld x10,(x6) | addi x12,x11,2 ;
            | li x13,-3      ;
locations [x; y; p; u;]
forall (0:x8=x /\\ 0:x9=-2 /\\ 0:x10=0x123456789abcdef0 /\\ 1:x10=0x123456789abcdef0
  /\\ 1:x11=-1 /\\ 1:x12=1 /\\ 1:x13=-3 /\\ x=-2 /\\ y=0x123456789abcdef0 /\\ p=x /\\ u=0xffffffff)
'''
        test = read_test(text)
        observation = observed(test, self.folder)
        self.assertEqual(len(observation.seen), 1)
        said = word(*counts(test, observation), observation.is_complete)
        self.assertEqual(said, 'Always', observation.seen)


class Table(unittest.TestCase):
    def test_each_file_has_its_verdict(self) -> None:
        files = sorted(it.stem for it in FILES.glob('*.litmus'))
        self.assertEqual(sorted(it.name for it in verdicts()), files)
        for verdict in verdicts():
            with self.subTest(name=verdict.name):
                test = read_test(verdict.file.read_text())
                self.assertEqual(test.name, verdict.name)
                self.assertLessEqual({verdict.here, verdict.ztso}, {'Never', 'Sometimes', 'Always'})
                self.assertIn(verdict.tried, (ALWAYS, SLOW))

    def test_the_enumeration_says_the_same(self) -> None:
        """It knows nothing of the program, and looks at all states of a test."""
        compared = 0
        for verdict in verdicts():
            test = read_test(verdict.file.read_text())
            try:
                meaning = Meaning(test)
            except NotSimple:
                continue
            seen = [meaning.seen(it) for it in outcomes(meaning.litmus, len(test.threads))]
            true = [holds(test.proposition, lambda it, value: state[it] == value) for state in seen]
            with self.subTest(name=verdict.name):
                self.assertEqual(word(sum(true), len(true) - sum(true), True), verdict.here)
            compared += 1
        self.assertGreater(compared, 55)

    def test_the_classical_shapes_are_there(self) -> None:
        names = {it.name for it in verdicts()}
        self.assertLessEqual(set(SHAPES), names)
        for mark in ('fence', 'amo', '.aq', '.rl', 'LRSC'):
            self.assertTrue(any(mark in name for name in names), mark)

    def test_the_machine_allows_nothing_that_ztso_forbids(self) -> None:
        """It is stricter in what the page says: LR waits for stores."""
        differ = [it for it in verdicts() if it.here != it.ztso]
        self.assertEqual([(it.name, it.here, it.ztso) for it in differ], [('SB+lrs', 'Never', 'Sometimes')])


class Commands(unittest.TestCase):
    def answer(self, *words: str) -> subprocess.CompletedProcess[str]:
        own = {**os.environ, 'RSEQ_RUN': str(PROGRAM)}
        return subprocess.run([COMMAND, *words], capture_output=True, text=True, cwd=FILES, env=own)

    @needs_program
    @needs_toolchain
    def test_what_is_wrong_with_a_file_loses_no_other(self) -> None:
        with tempfile.TemporaryDirectory() as folder:
            bad = Path(folder) / 'bad.litmus'
            bad.write_text((FILES / 'MP.litmus').read_text().replace('sw x5,0(x7)', 'sb x5,0(x7)'))
            ran = self.answer(str(bad), 'nowhere.litmus', 'CoWW.litmus', '--places', '1000')
        self.assertEqual(ran.returncode, 2)
        self.assertIn("bad.litmus: line 9: 'sb': this instruction isn't taken", ran.stderr)
        self.assertIn('nowhere.litmus: No such file', ran.stderr)
        self.assertTrue(ran.stdout.startswith('Test CoWW Forbidden\nStates 1\n[x]=2;\nOk\n'), ran.stdout)

    @needs_program
    @needs_toolchain
    def test_an_address_that_is_no_variable(self) -> None:
        with tempfile.TemporaryDirectory() as folder:
            bad = Path(folder) / 'bad.litmus'
            bad.write_text('RISCV bad\n{}\nP0 ;\nlw x1,(x2) ;\nexists (0:x1=0)\n')
            ran = self.answer(str(bad))
        self.assertEqual((ran.returncode, ran.stdout), (2, ''))
        self.assertIn('a run ends with killed 11, and has no state', ran.stderr)

    @needs_program
    @needs_toolchain
    def test_scripts(self) -> None:
        """Each plays to the state on its line, of a search and of drawn runs."""
        for more in ((), ('--runs', '300')):
            with self.subTest(more=more), tempfile.TemporaryDirectory() as folder:
                ran = self.answer('MP.litmus', '--scripts', folder, *more)
                self.assertEqual(ran.returncode, 0, ran.stderr)
                self.assertIn('\nStates 3\n', ran.stdout)
                elf = Path(folder) / 'MP.elf'
                consoles = [self.played(elf, Path(folder) / f'MP.{number}.script') for number in (1, 2, 3)]
                self.assertEqual(consoles, [(0, 0), (0, 1), (1, 1)])
                self.assertEqual(len(list(Path(folder).iterdir())), 5)

    def played(self, elf: Path, script: Path) -> tuple[int, int]:
        """The two halves of the word on the console."""
        ran = subprocess.run([PROGRAM, 'play', elf, script, '--harts=2'], capture_output=True, check=True)
        head, _, rest = ran.stdout.partition(b'\n')
        self.assertEqual((head, ran.stdout[-11:]), (b'console 8', b'end exit 0\n'))
        return int.from_bytes(rest[:4], 'little'), int.from_bytes(rest[4:8], 'little')

    @needs_program
    def test_words(self) -> None:
        for words, said in (
            (('SB.litmus', '--run', '5', '--sweep'), "litmus run: there is no option '--sweep'"),
            (('SB.litmus', '--runs', '0'), "litmus run: --runs: '0' is no number from 1 on"),
            (('SB.litmus', '--runs', '5', '--preemptions', '1'), 'litmus: --preemptions is for searches'),
            (('SB.litmus', './SB.litmus', '--scripts', '/nowhere/x'), 'two files are named SB.litmus'),
            (('SB.litmus', '--program', '/nowhere'), 'litmus: /nowhere: no program is there'),
            (('SB.litmus', '--scripts', '/dev/null/x'), 'litmus: /dev/null'),
        ):
            with self.subTest(words=words):
                ran = self.answer(*words)
                self.assertEqual((ran.returncode, ran.stdout), (2, ''))
                self.assertIn(said, ran.stderr)
                self.assertEqual(ran.stderr.count('\n'), 1, ran.stderr)


if __name__ == '__main__':
    unittest.main()
