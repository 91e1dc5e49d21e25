"""The sweep over a program that stands in for rseq_run (stand_in.py): one seed in seven loses."""
from __future__ import annotations

import errno
import json
import os
import re
import shlex
import shutil
import signal
import subprocess
import tempfile
import time
import unittest
from pathlib import Path

from lens.faults import LensFault
from lens.output import read_output
from sweep.jobs import Job, Parallel, make_jobs, sweep_jobs
from sweep.limits import available_mebibytes, jobs_that_fit, mebibytes_a_run
from sweep.records import Folder, Met, Outcome, Rank, Record, Tally, note, read_record

TOOLS = Path(__file__).resolve().parents[2]
SWEEP = TOOLS / 'bin' / 'sweep'
STAND_IN = Path(__file__).with_name('stand_in.py')
RUNS, SEEDS_A_JOB = 30, 5
TIMEOUT = 1800
"""Seconds that no command takes, on a slow machine that has other work too."""
UNEXPECTED_STATUS, FAULT_STATUS, INTERRUPTED_STATUS = 1, 2, 130


def heed_interrupts() -> None:
    """A terminal's interrupt counts, also where this test runs in the background, where a shell has it ignored."""
    signal.signal(signal.SIGINT, signal.SIG_DFL)


class InterruptedFolder(Folder):
    """A folder upon whose keeping of a record an interrupt comes, as from a terminal."""

    def keep(self, record: Record, tally: Tally) -> None:
        os.kill(os.getpid(), signal.SIGINT)
        super().keep(record, tally)


class FullFolder(Folder):
    """A folder on a disk that is full behind the second record."""

    def keep(self, record: Record, tally: Tally) -> None:
        if len(self.records()) == 2:
            raise OSError(errno.ENOSPC, os.strerror(errno.ENOSPC))
        super().keep(record, tally)


SMALL_DISKS = 'unshare', '--map-root-user', '--mount', 'sh', '-c'
"""How a command may mount a disk of a few pages of its own."""


def has_small_disks() -> bool:
    """Whether this machine lets somebody mount one."""
    mount = 'mount -t tmpfs -o size=4k tmpfs /mnt'
    return shutil.which('unshare') is not None and not subprocess.run([*SMALL_DISKS, mount], capture_output=True).returncode


needs_small_disks = unittest.skipUnless(has_small_disks(), 'no disk can be mounted here')


class Sweeps(unittest.TestCase):
    def setUp(self):
        made = tempfile.TemporaryDirectory()
        self.addCleanup(made.cleanup)
        self.room = Path(made.name)
        self.elf = self.file('0')

    def file(self, line: str) -> Path:
        """The file whose first line the stand-in reads."""
        path = self.room / 'it.elf'
        path.write_text(f'{line}\n')
        return path

    def words(self, *more: object, runs: int = RUNS) -> list[str]:
        return [
            str(word)
            for word in (
                SWEEP,
                self.elf,
                '--program',
                STAND_IN,
                '--runs',
                runs,
                '--seeds-a-job',
                SEEDS_A_JOB,
                *more,
            )
        ]

    def sweep(self, *more: object, **options) -> subprocess.CompletedProcess:
        return subprocess.run(self.words(*more, **options), capture_output=True, text=True, timeout=TIMEOUT)

    def table(self, folder: Path) -> str:
        """The table of a sweep, with its folder's name left out."""
        return (folder / 'table.txt').read_text().replace(str(folder), 'FOLDER')

    def test_table(self):
        folder = self.room / 'swept'
        answer = self.sweep('-o', folder, '--harts', 2, '--by', 'run')
        self.assertEqual((answer.returncode, answer.stderr), (0, ''))
        lines = answer.stdout.splitlines()
        self.assertEqual(lines[0], f'{RUNS} runs of {self.elf}, 2 outcomes')
        self.assertEqual(
            [line.split(maxsplit=4) for line in lines[2:4]],
            [['26', 'exit', '0', '4', "'count 2\\n'"], ['4', 'exit', '1', '4', "'count 1\\n'"]],
        )
        self.assertTrue(answer.stdout.startswith((folder / 'table.txt').read_text()))
        again = [line.split() for line in lines if ' play ' in line]
        self.assertEqual(
            [words[:3] + words[4:] for words in again],
            [[str(STAND_IN), 'play', str(self.elf), '--harts=2']] * 2,
        )
        for words, end in zip(again, ('exit 0', 'exit 1')):
            script = Path(words[3])
            run = read_output(str(script.with_suffix('.output')))
            self.assertEqual((run.end, len(run.steps)), (end, 4))
            self.assertEqual(script.read_text(), ''.join(f'{step.line()}\n' for step in run.steps))

    def test_draws(self):
        folder = self.room / 'swept'
        answer = self.sweep('-o', folder, '--harts', 2, '--expect', 'exit 0')
        self.assertEqual((answer.returncode, answer.stderr), (UNEXPECTED_STATUS, ''))
        again = [line.split() for line in answer.stdout.splitlines() if ' draw ' in line]
        seeds = [int(words[3].removeprefix('--seed=')) for words in again]
        self.assertEqual(
            again,
            [[str(STAND_IN), 'draw', str(self.elf), f'--seed={seed}', '--harts=2'] for seed in seeds],
        )
        self.assertEqual([seed % 7 == 3 for seed in seeds], [False, True])

    def test_outcomes_that_are_not_told_apart(self):
        """Where `explore` tells of others, each seed is drawn by itself, and nothing is missed."""
        told, others = self.room / 'told', self.room / 'others'
        self.assertEqual(self.sweep('-o', told).returncode, 0)
        self.file('0 others')
        self.assertEqual(self.sweep('-o', others).returncode, 0)
        counts = [
            [line.split()[:3] for line in self.table(folder).splitlines()[2:4]] for folder in (told, others)
        ]
        self.assertEqual(counts[0], counts[1])

    def test_expected_ends(self):
        folder = self.room / 'swept'
        answer = self.sweep('-o', folder, '--first-seed', 4, '--expect', 'exit 0', runs=6)
        self.assertEqual((answer.returncode, answer.stderr), (0, ''))

    def test_interrupted_and_taken_up_again(self):
        whole, cut = self.room / 'whole', self.room / 'cut'
        self.assertEqual(self.sweep('-o', whole).returncode, 0)
        made = self.interrupt(cut)
        self.assertTrue(0 < made < RUNS)
        self.assertFalse((cut / 'table.txt').exists())
        self.assertEqual(self.sweep('-o', cut).returncode, 0)
        self.assertEqual(self.table(cut), self.table(whole))
        for kept in whole.glob('exit-*'):
            self.assertEqual((cut / kept.name).read_bytes(), kept.read_bytes())

    def interrupt(self, folder: Path) -> int:
        """Interrupts a sweep as a terminal does, when it has made its first job and can't make all of the others; how many
        runs it kept."""
        running = subprocess.Popen(
            self.words('-o', folder, '--jobs', 2),
            env={**os.environ, 'STAND_IN_LAST': str(2 * SEEDS_A_JOB)},
            stdout=subprocess.DEVNULL,
            stderr=subprocess.PIPE,
            text=True,
            start_new_session=True,
            preexec_fn=heed_interrupts,
        )
        results = folder / 'results'
        while running.poll() is None and (not results.exists() or not results.read_text()):
            time.sleep(0.02)
        os.killpg(running.pid, signal.SIGINT)
        said = running.communicate(timeout=TIMEOUT)[1]
        self.assertEqual(running.returncode, INTERRUPTED_STATUS)
        self.assertIn(f'of {RUNS} runs are kept in {folder}; the same command goes on', said)
        return int(said.split('sweep: ')[1].split()[0])

    def test_interrupted_while_a_record_is_kept(self):
        """The record is kept whole, and what was swept is known."""
        self.addCleanup(signal.signal, signal.SIGINT, signal.signal(signal.SIGINT, signal.default_int_handler))
        self.file('0')
        os.environ['STAND_IN_LAST'] = str(2 * SEEDS_A_JOB)
        self.addCleanup(os.environ.pop, 'STAND_IN_LAST')
        folder = InterruptedFolder(self.room / 'swept')
        folder.open({})
        parallel = Parallel(2, 1, [], ['300', str(STAND_IN), 'draw', str(self.elf)])
        swept = sweep_jobs(parallel, folder, make_jobs(1, RUNS, SEEDS_A_JOB))
        self.assertEqual((swept.is_whole, swept.was_interrupted), (False, True))
        self.assertTrue(0 < swept.runs < RUNS)
        self.assertEqual(len(folder.records()) * SEEDS_A_JOB, swept.runs)

    def test_a_whole_sweep_runs_nothing_again(self):
        folder = self.room / 'swept'
        first = self.sweep('-o', folder)
        log = (folder / 'job.log').read_bytes()
        self.assertEqual(self.sweep('-o', folder).stdout, first.stdout)
        self.assertEqual((folder / 'job.log').read_bytes(), log)

    def test_a_job_without_its_record_is_made_again(self):
        """As where the sweep was killed between a job's end and the keeping of its record."""
        folder = self.room / 'swept'
        self.sweep('-o', folder)
        table, results = self.table(folder), folder / 'results'
        lines = results.read_text().splitlines(keepends=True)
        results.write_text(''.join(lines[:-2]) + lines[-1][:20])
        self.assertEqual(self.sweep('-o', folder).returncode, 0)
        self.assertEqual(self.table(folder), table)
        self.assertEqual(len(results.read_text().splitlines()), len(lines))

    def test_a_run_that_gives_no_output(self):
        self.file('0 20')
        folder = self.room / 'swept'
        answer = self.sweep('-o', folder, '--jobs', 1)
        self.assertEqual(answer.returncode, FAULT_STATUS)
        said = 'sweep: the runs of the seeds 16 to 20 gave status 7, "fault memory"'
        kept = f'sweep: 15 of {RUNS} runs are kept in {folder}; the same command goes on'
        self.assertEqual(answer.stderr, f'{said}\n{kept}\n')
        self.assertFalse((folder / 'table.txt').exists())

    def test_jobs_that_each_fail(self):
        """What is wrong is said once, with how many other jobs failed, and nothing of GNU parallel."""
        self.file('0.2 7 13 18 23 28')
        answer = self.sweep('-o', self.room / 'swept', '--jobs', 4)
        self.assertEqual(answer.returncode, FAULT_STATUS)
        fault, kept = answer.stderr.splitlines()
        due = r'sweep: the runs of the seeds \d+ to \d+ gave status 7, "fault memory"(; \d further jobs? failed)?'
        self.assertRegex(fault, f'^{due}$')
        self.assertRegex(kept, f'^sweep: [0-9]+ of {RUNS} runs are kept in ')

    def test_what_parallel_says_is_passed_on(self):
        """Where no job said what is wrong."""
        answer = self.sweep('-o', self.room / 'swept', '--sshlogin', 'no-such-login', runs=1)
        self.assertEqual(answer.returncode, FAULT_STATUS)
        self.assertIn('no-such-login', answer.stderr)

    def test_another_sweep_in_the_folder(self):
        folder = self.room / 'swept'
        self.sweep('-o', folder)
        for more, runs, said in (
            (('--harts', 3), RUNS, 'that differs in limits: name another folder'),
            (('--first-seed', 2), RUNS, 'that differs in first seed: name another folder'),
            ((), RUNS - 1, f'of {RUNS} runs: ask for no fewer, or name another folder'),
        ):
            with self.subTest(more=more):
                answer = self.sweep('-o', folder, *more, runs=runs)
                self.assertEqual(
                    (answer.returncode, answer.stderr), (FAULT_STATUS, f'sweep: {folder} holds a sweep {said}\n')
                )
        other = self.room / 'other'
        other.mkdir()
        (other / 'file').touch()
        self.assertIn('holds something else than a sweep', self.sweep('-o', other).stderr)

    def test_more_runs_go_on(self):
        """The jobs that were whole aren't made again; the last one had fewer seeds, and is."""
        few, folder, whole = RUNS - SEEDS_A_JOB - 2, self.room / 'swept', self.room / 'whole'
        self.sweep('-o', whole)
        self.sweep('-o', folder, runs=few)
        kept = (folder / 'results').read_text().splitlines()
        answer = self.sweep('-o', folder)
        self.assertEqual((answer.returncode, answer.stderr), (0, ''))
        self.assertEqual(self.table(folder), self.table(whole))
        made = (folder / 'results').read_text().splitlines()
        self.assertEqual((made[: len(kept)], len(made)), (kept, len(kept) + 2))
        self.assertEqual(self.sweep('-o', folder).stdout, answer.stdout)

    def test_another_elf_begins_anew(self):
        folder = self.room / 'swept'
        self.sweep('-o', folder, runs=2 * RUNS)
        note = folder / 'note'
        note.touch()
        self.file('0.0')
        anew = self.sweep('-o', folder, runs=6)
        self.assertEqual(
            (anew.returncode, anew.stderr),
            (0, f'sweep: {folder} held the sweep of another ELF; it begins anew\n'),
        )
        self.assertEqual(sum(read_record(line).runs for line in (folder / 'results').read_text().splitlines()), 6)
        self.assertEqual(len(list(folder.glob('*.output'))), 2)
        self.assertTrue(note.exists())
        self.assertEqual(self.sweep('-o', folder, runs=6).stderr, '')

    def test_machines(self):
        """Over this machine by name, as over others; `:` is what GNU parallel calls it."""
        local, named = self.room / 'local', self.room / 'named'
        self.sweep('-o', local)
        answer = self.sweep('-o', named, '--sshlogin', '2/:')
        self.assertEqual((answer.returncode, answer.stderr), (0, ''))
        self.assertEqual(self.table(named), self.table(local))

    def test_words(self):
        for more, said in (
            (('--runs', '0'), 'number from 1 on'),
            (('--first-seed', '-1'), "'-1' is no number from 0 on"),
            (('--first-seed', str(2**64)), 'a seed is a number from 0'),
            (('--program', self.room / 'nothing'), 'No such file or directory'),
        ):
            with self.subTest(more=more):
                answer = self.sweep('-o', self.room / 'swept', *more)
                self.assertEqual(answer.returncode, FAULT_STATUS)
                self.assertIn(said, answer.stderr)

    def test_one_line_of_a_file_that_is_no_elf(self):
        """And of another program: what each job would say is said once."""
        said = f"sweep: {STAND_IN} can't draw {self.elf}: status 7, \"fault memory\"\n"
        self.file('0 1')
        answer = self.sweep('-o', self.room / 'swept')
        self.assertEqual((answer.returncode, answer.stdout, answer.stderr), (FAULT_STATUS, '', said))
        answer = self.sweep('-o', self.room / 'swept', '--program', '/bin/true')
        self.assertEqual((answer.returncode, answer.stdout), (FAULT_STATUS, ''))
        self.assertEqual(answer.stderr.count('\n'), 1)
        self.assertIn('/bin/true is another program than rseq_run', answer.stderr)
        self.assertFalse((self.room / 'swept').exists())

    def test_a_pipe_to_a_command_that_ends(self):
        line = f'{shlex.join(self.words("-o", self.room / "swept"))} | true'
        answer = subprocess.run(['sh', '-c', line], capture_output=True, timeout=TIMEOUT)
        self.assertEqual((answer.returncode, answer.stderr), (0, b''))

    @needs_small_disks
    def test_a_full_disk(self):
        """Status 2 and one line; with room again the same command goes on."""
        disk, whole = self.room / 'disk', self.room / 'whole'
        disk.mkdir()
        self.sweep('-o', whole)
        for blocks in (4, 20):
            with self.subTest(blocks=blocks):
                words = shlex.join(self.words('-o', disk / 'swept', '--jobs', 1))
                first = f'mount -t tmpfs -o size={blocks}k tmpfs {disk} && {{ {words}; echo STATUS $?; }}'
                later = f'mount -o remount,size=1m {disk} && {words}'
                ran = subprocess.run([*SMALL_DISKS, f'{first} && {later}'], capture_output=True, text=True, timeout=TIMEOUT)
                self.assertEqual(ran.returncode, 0, ran.stderr)
                status, _, table = ran.stdout.partition('\n')
                self.assertEqual(status, f'STATUS {FAULT_STATUS}')
                self.assertRegex(ran.stderr, r'\Asweep: .*: No space left on device.*\n\Z')
                self.assertEqual(table.splitlines()[2:4], (whole / 'table.txt').read_text().splitlines()[2:4])

    def test_a_full_disk_of_the_table(self):
        with open('/dev/full', 'w') as full:
            answer = subprocess.run(self.words('-o', self.room / 'swept'), stdout=full, stderr=subprocess.PIPE, timeout=TIMEOUT)
        said = b'sweep: standard output: No space left on device\n'
        self.assertEqual((answer.returncode, answer.stderr), (FAULT_STATUS, said))

    def test_a_reader_that_stops(self):
        """`sweep .. | head` ends in silence, also where each line is written at once; the status and the table stay."""
        for at, unbuffered in enumerate(('', '1')):
            with self.subTest(unbuffered=unbuffered):
                folder = self.room / f'swept {at}'
                answer = self.left_alone(unbuffered, '-o', folder, '--expect', 'exit 0')
                self.assertEqual((answer.returncode, answer.stderr), (UNEXPECTED_STATUS, b''))
                self.assertIn('exit 1', self.table(folder))

    def left_alone(self, unbuffered: str, *more: object) -> subprocess.CompletedProcess:
        """A sweep whose standard output is a pipe that nobody reads."""
        reader, writer = os.pipe()
        os.close(reader)
        try:
            env = {**os.environ, 'PYTHONUNBUFFERED': unbuffered}
            return subprocess.run(self.words(*more), env=env, stdout=writer, stderr=subprocess.PIPE, timeout=TIMEOUT)
        finally:
            os.close(writer)

    def test_a_record_that_cannot_be_kept(self):
        """As on a full disk: what was kept before stays, and the jobs end."""
        folder = FullFolder(self.room / 'swept')
        folder.open({})
        parallel = Parallel(1, 1, [], ['300', str(STAND_IN), 'draw', str(self.elf)])
        said = f'{folder.path}: No space left on device; {2 * SEEDS_A_JOB} runs are kept there, and the same command goes on'
        with self.assertRaisesRegex(LensFault, re.escape(said)):
            sweep_jobs(parallel, folder, make_jobs(1, RUNS, SEEDS_A_JOB))
        self.assertEqual(len(folder.records()), 2)
        later = Folder(folder.path)
        self.assertTrue(sweep_jobs(parallel, later, make_jobs(1, RUNS, SEEDS_A_JOB)).is_whole)

    def test_a_job_log_that_was_cut_off(self):
        """Without its whole heading it is left out, and nothing is missed."""
        folder = self.room / 'swept'
        self.sweep('-o', folder)
        table = self.table(folder)
        for left in (b'', b'Seq\tHo'):
            (folder / 'job.log').write_bytes(left)
            (folder / 'results').write_text(''.join((folder / 'results').read_text().splitlines(keepends=True)[:2]))
            self.assertEqual(self.sweep('-o', folder).returncode, 0)
            self.assertEqual(self.table(folder), table)

    def test_the_last_seeds_of_all(self):
        folder = self.room / 'swept'
        self.assertEqual(self.sweep('-o', folder, '--first-seed', 2**64 - 4, runs=4).returncode, 0)
        self.assertEqual(json.loads((folder / 'results').read_text())['first'], 2**64 - 4)


class Parts(unittest.TestCase):
    def test_jobs(self):
        self.assertEqual(make_jobs(5, 7, 3), [Job(1, 5, 3), Job(2, 8, 3), Job(3, 11, 1)])

    def test_the_shortest_run_is_kept(self):
        tally = {}
        lost = Outcome('exit 1', b'\xff')
        for steps, seed in ((9, 1), (4, 8), (4, 3), (5, 0)):
            note(tally, lost, Met(1, Rank(steps, seed), str(seed).encode()))
        self.assertEqual(tally, {lost: Met(4, Rank(4, 3), b'3')})

    def test_records(self):
        record = Record(7, {Outcome('exit 1', b'\xff\n'): Met(2, Rank(3, 7), b'text')})
        self.assertEqual(read_record(record.line(has_texts=True)), record)
        self.assertEqual(
            read_record(record.line(has_texts=False)).tally[Outcome('exit 1', b'\xff\n')].text, b''
        )
        for line in ('', '\n', '3\n', '{}\n', '{"first": 1, "outcomes": [{}]}\n', record.line(True)[:30]):
            with self.subTest(line=line):
                self.assertIsNone(read_record(line))

    def test_memory(self):
        self.assertGreaterEqual(mebibytes_a_run(16_384, 1_000_000), 2 * 64 + 16 + 26)
        self.assertEqual(jobs_that_fit(3, 1), 3)
        self.assertEqual(jobs_that_fit(64, available_mebibytes() or 1), 1 if available_mebibytes() else 64)

    def test_names_differ(self):
        names = {
            Outcome(end, console).name for end in ('exit 1', 'killed 1') for console in (b'', b'1', b' 1')
        }
        self.assertEqual(len(names), 6)
        self.assertEqual(Folder('it').output_of(Outcome('stuck', b'')).suffix, '.output')


if __name__ == '__main__':
    unittest.main()
