"""What sweeps report to a pipeline: JUnit's file, workflow commands, and the end of the time."""
from __future__ import annotations

import os
import subprocess
import tempfile
import threading
import unittest
from collections.abc import Callable
from pathlib import Path
from unittest import mock
from xml.etree import ElementTree

from lens.disassembly import find_objdump
from lens.history import make_history
from lens.machine import BUILT
from lens.output import parse_output, read_output
from lens.program import Program
from sweep.github import Spot, command, spot_of
from sweep.jobs import Parallel, make_jobs, sweep_jobs
from sweep.junit import clean, junit_text
from sweep.records import Folder, Outcome, Record, Tally
from sweep.reports import Failure, Report

TOOLS = Path(__file__).resolve().parents[2]
SWEEP = TOOLS / 'bin' / 'sweep'
STAND_IN = Path(__file__).with_name('stand_in.py')
EXAMPLES = TOOLS.parent / 'examples'
PETERSON = 'examples/peterson/peterson.elf'
RUNS, SEEDS_A_JOB = 30, 5
TIMEOUT = 1800
LOST = Outcome('exit 1', b'\xff\n')
FAILURE = Failure(LOST, 4, 3, 'rseq_run draw it.elf --seed=3', Path('lost.output'))


class Late:
    """Stands in for a timer: its time is over as soon as somebody says so."""

    is_over: Callable[[], None]
    daemon = True

    def __init__(self, seconds: float, is_over: Callable[[], None]):
        Late.is_over = staticmethod(is_over)

    def start(self) -> None:
        pass

    def cancel(self) -> None:
        pass


class LateFolder(Folder):
    """A folder upon whose keeping of a record the time is over."""

    def keep(self, record: Record, tally: Tally) -> None:
        super().keep(record, tally)
        Late.is_over()


class Calls(unittest.TestCase):
    """The command, over the program that stands in for rseq_run."""

    def setUp(self) -> None:
        made = tempfile.TemporaryDirectory()
        self.addCleanup(made.cleanup)
        self.room = Path(made.name)

    def elf(self, name: str, line: str = '0') -> Path:
        path = self.room / name
        path.parent.mkdir(exist_ok=True)
        path.write_text(f'{line}\n')
        return path

    def sweep(self, *words: object) -> subprocess.CompletedProcess[str]:
        line = [str(SWEEP), '--program', str(STAND_IN), '--seeds-a-job', str(SEEDS_A_JOB), '--jobs', '2', *map(str, words)]
        return subprocess.run(line, capture_output=True, text=True, timeout=TIMEOUT)

    def test_several_files(self) -> None:
        """A test case each; a file whose runs fail, and one that has none, keep no other back."""
        one, bad, two = self.elf('one.elf'), self.elf('bad.elf', '0 7'), self.elf('two.elf')
        junit, folder = self.room / 'junit.xml', self.room / 'swept'
        words = (one, bad, two, '-o', folder, '--runs', 10, '--junit', junit, '--github', '--expect', 'exit 0')
        answer = self.sweep(*words)
        self.assertEqual(answer.returncode, 2, answer.stderr)
        suite = ElementTree.parse(junit).getroot()[0]
        counts = {name: suite.get(name) for name in ('tests', 'failures', 'errors', 'skipped')}
        self.assertEqual(counts, {'tests': '3', 'failures': '2', 'errors': '1', 'skipped': '0'})
        cases = {Path(case.get('name', '')).name: [part.tag for part in case] for case in suite}
        passed = ['failure', 'system-out']
        self.assertEqual(cases, {'one.elf': passed, 'bad.elf': ['error', 'system-out'], 'two.elf': passed})
        failure = suite[0][0]
        self.assertEqual(failure.get('message'), 'exit 1, seed 10: 2 of 10 runs ended otherwise than exit 0')
        self.assertIn(f'{STAND_IN} draw {one} --seed=10\n', failure.text or '')
        said = [line for line in answer.stdout.splitlines() if line.startswith('::error ')]
        self.assertEqual(len(said), 4)  # (of `bad` both what failed before, and that it has a fault)
        self.assertEqual({path.name for path in folder.iterdir()}, {'one', 'bad', 'two'})

    def test_files_of_one_name(self) -> None:
        one, other = self.elf('one/it.elf'), self.elf('two/it.elf')
        answer = self.sweep(one, other, '-o', self.room / 'swept')
        self.assertEqual(answer.returncode, 2)
        self.assertIn(f'would both be kept in {self.room}/swept/it: sweep them by two calls', answer.stderr)
        self.assertFalse((self.room / 'swept').exists())

    def test_words(self) -> None:
        elf, folder = self.elf('it.elf'), self.room / 'swept'
        for more, said in (
            (('--junit', self.room / 'it.xml'), '--junit and --github want --expect'),
            (('--github',), '--junit and --github want --expect'),
            (('--within', '0'), "'0' is no number of seconds above 0"),
            (('--within', 'nan'), "'nan' is no number of seconds above 0"),
            (('--seconds', 'soon'), "'soon' is no number of seconds above 0"),
        ):
            with self.subTest(more=more):
                answer = self.sweep(elf, '-o', folder, *more)
                self.assertEqual(answer.returncode, 2)
                self.assertIn(said, answer.stderr)
        self.assertFalse(folder.exists())

    def test_a_file_that_cannot_be_written(self) -> None:
        elf, junit = self.elf('it.elf'), self.room / 'nowhere' / 'it.xml'
        answer = self.sweep(elf, '-o', self.room / 'swept', '--runs', 5, '--expect', 'exit 0', '--junit', junit)
        self.assertEqual((answer.returncode, answer.stderr), (2, f'sweep: {junit}: No such file or directory; the same command makes it\n'))

    def test_no_job_in_its_time(self) -> None:
        elf, folder = self.elf('it.elf'), self.room / 'swept'
        with mock.patch.dict(os.environ, {'STAND_IN_LAST': '1'}):
            answer = self.sweep(elf, '-o', folder, '--runs', RUNS, '--within', '1')
        self.assertEqual(answer.returncode, 2)
        said = f'sweep: 0 of {RUNS} runs were made in the time of --within, and no job of {SEEDS_A_JOB} seeds ended'
        self.assertIn(said, answer.stderr)


class Times(unittest.TestCase):
    def test_the_end_of_the_time(self) -> None:
        """What was made by then is kept, and the same sweep goes on."""
        with tempfile.TemporaryDirectory() as name, mock.patch.object(threading, 'Timer', Late):
            elf = Path(name) / 'it.elf'
            elf.write_text('0\n')
            parallel = Parallel(2, 1, [], ['300', str(STAND_IN), 'draw', str(elf)])
            folder, jobs = LateFolder(Path(name) / 'swept'), make_jobs(1, RUNS, SEEDS_A_JOB)
            folder.open({})
            with mock.patch.dict(os.environ, {'STAND_IN_LAST': str(2 * SEEDS_A_JOB)}):
                swept = sweep_jobs(parallel, folder, jobs, 60)
            self.assertEqual((swept.was_late, swept.was_interrupted, swept.is_whole), (True, False, False))
            self.assertTrue(0 < swept.runs <= 2 * SEEDS_A_JOB)
            later = sweep_jobs(parallel, Folder(folder.path), jobs)
            self.assertEqual((later.runs, later.was_late, later.is_whole), (RUNS, False, True))


class Texts(unittest.TestCase):
    def test_junit(self) -> None:
        reports = [
            Report('good.elf', 10, 10, 1.5, 'exit 0'),
            Report('lost.elf', 10, 10, 0.5, 'exit 0', (FAILURE,)),
            Report('cut.elf', 10, 4, 0.0, 'exit 0', (FAILURE,), 'a fault'),
            Report('left.elf', 10),
        ]
        suite = ElementTree.fromstring(junit_text(reports))[0]
        counts = [suite.get(name) for name in ('tests', 'failures', 'errors', 'skipped', 'time')]
        self.assertEqual(counts, ['4', '1', '1', '1', '2.000'])
        self.assertEqual([[part.tag for part in case] for case in suite], [
            ['system-out'], ['failure', 'system-out'], ['error', 'system-out'], ['skipped']
        ])
        told = "exit 1, seed 3: 4 runs, console '\\xff\\n'\n    rseq_run draw it.elf --seed=3\n"
        self.assertEqual(suite[1][0].text, told)

    def test_characters_that_no_xml_file_has(self) -> None:
        self.assertEqual(clean('a\x00b\x1b[1m<&>\ufffe\ud800\n'), 'a?b?[1m<&>??\n')
        case = ElementTree.fromstring(junit_text([Report('a\x01<&>.elf', 1, 1)]))[0][0]
        self.assertEqual(case.get('name'), 'a?<&>.elf')

    def test_workflow_commands(self) -> None:
        line = command('100%\nof it', Spot('a,b.c', 7), 'it: exit 1')
        self.assertEqual(line, '::error file=a%2Cb.c,line=7,title=it%3A exit 1::100%25%0Aof it')
        self.assertEqual(command('it', None, 'that'), '::error title=that::it')


@unittest.skipUnless(find_objdump(), 'there is no objdump for RISC-V')
class Spots(unittest.TestCase):
    """Which line an annotation names."""

    def setUp(self) -> None:
        self.addCleanup(os.chdir, os.getcwd())
        os.chdir(TOOLS.parent)
        self.program = Program(str(TOOLS.parent / PETERSON))

    def test_the_last_line_that_is_no_assembler(self) -> None:
        history = make_history(read_output('examples/peterson/found.output'), self.program)
        self.assertEqual(spot_of(history), Spot('examples/peterson/peterson.c', 49))

    def test_a_check_that_failed(self) -> None:
        console = b'peterson.c:21: check failed: it holds'
        text = b'console %d\n%s\nlog 0\nend killed 5\n' % (len(console), console)
        history = make_history(parse_output('it', text), self.program)
        self.assertEqual(spot_of(history), Spot('examples/peterson/peterson.c', 21))

    def test_a_file_that_is_elsewhere(self) -> None:
        history = make_history(read_output('examples/peterson/found.output'), self.program)
        os.chdir(TOOLS)
        self.assertIsNone(spot_of(history))

    @unittest.skipUnless(BUILT.is_file(), f'{BUILT} is not built')
    def test_the_whole_way(self) -> None:
        with tempfile.TemporaryDirectory() as name:
            words = [SWEEP, PETERSON, '-o', name, '--runs', '20', '--expect', 'exit 0', '--github', '--jobs', '1']
            answer = subprocess.run(words, capture_output=True, text=True, timeout=TIMEOUT)
        self.assertEqual((answer.returncode, answer.stderr), (1, ''))
        line = answer.stdout.splitlines()[-1]
        where = 'file=examples/peterson/peterson.c,line=49,title=peterson.elf%3A exit 1 in '
        self.assertTrue(line.startswith(f'::error {where}'), line)
        self.assertIn('Thread 1 called exit at ', line)
        self.assertTrue(line.endswith('draw examples/peterson/peterson.elf --seed=3'), line)


if __name__ == '__main__':
    unittest.main()
