"""A sweep over two hosts by the real ssh (hosts.py): one of them killed on the way, a link cut and mended. Nothing is lost, and
nothing counted twice: the table is that of one machine.

SWEEP_HOSTS_RUNS says how many runs are made (4,000)."""
from __future__ import annotations

import os
import subprocess
import tempfile
import time
import unittest
from pathlib import Path

from lens.machine import BUILT
from sweep.records import read_record

from .hosts import Hosts, missing

TOOLS = Path(__file__).resolve().parents[2]
SWEEP, ELF = TOOLS / 'bin' / 'sweep', TOOLS.parent / 'examples' / 'peterson' / 'peterson.elf'
RUNS = int(os.environ.get('SWEEP_HOSTS_RUNS', 4_000))
JOBS = 40
TIMEOUT = 1800
LACKING = missing()
if LACKING:
    print(f'tools/sweep: two hosts by ssh not tried: {LACKING}')


@unittest.skipIf(LACKING, f'{LACKING}')
@unittest.skipUnless(BUILT.is_file(), f'{BUILT} is not built')
class TwoHosts(unittest.TestCase):
    hosts: Hosts
    alone: str

    @classmethod
    def setUpClass(cls) -> None:
        cls.hosts = cls.enterClassContext(Hosts())
        cls.room = Path(cls.enterClassContext(tempfile.TemporaryDirectory()))
        subprocess.run(cls.words('alone', '--jobs', '2'), check=True, capture_output=True, timeout=TIMEOUT)
        cls.alone = cls.table('alone')

    @classmethod
    def words(cls, folder: str, *more: str) -> list[str]:
        words = (SWEEP, ELF, '-o', cls.room / folder, '--program', BUILT.resolve(), '--runs', RUNS, '--seeds-a-job', RUNS // JOBS)
        return [*map(str, words), *more]

    @classmethod
    def table(cls, folder: str) -> str:
        return (cls.room / folder / 'table.txt').read_text().replace(str(cls.room / folder), 'FOLDER')

    def start(self, folder: str, *logins: str) -> subprocess.Popen[str]:
        """A sweep over some hosts, two jobs on each at once."""
        more = [word for login in logins for word in ('--sshlogin', login)]
        return subprocess.Popen(
            self.hosts.words(self.words(folder, '--jobs', '2', *more)),
            env=self.hosts.environment, stdin=subprocess.DEVNULL, stdout=subprocess.PIPE, stderr=subprocess.PIPE, text=True,
        )

    def wait_for(self, running: subprocess.Popen[str], folder: str, jobs: int) -> None:
        """Until so many jobs gave their answer."""
        results = self.room / folder / 'results'
        while running.poll() is None and (not results.exists() or results.read_text().count('\n') < jobs):
            time.sleep(0.02)
        self.assertIsNone(running.poll(), 'the sweep was over too soon')

    def check_whole(self, running: subprocess.Popen[str], folder: str) -> None:
        """It ends well, with the table of one machine, and each job is kept once."""
        _, said = running.communicate(timeout=TIMEOUT)
        self.assertEqual(running.returncode, 0, said)
        self.assertEqual(self.table(folder), self.alone)
        records = [read_record(line) for line in (self.room / folder / 'results').read_text().splitlines()]
        firsts = sorted(record.first for record in records if record)
        self.assertEqual(firsts, list(range(1, RUNS + 1, RUNS // JOBS)))

    def hosts_of(self, folder: str) -> set[str]:
        """The hosts that jobs ended well on, by the job log of GNU parallel."""
        rows = [line.split('\t') for line in (self.room / folder / 'job.log').read_text().splitlines()[1:]]
        return {row[1] for row in rows if row[6] == '0'}

    def test_both(self) -> None:
        self.check_whole(self.start('both', 'first', 'second'), 'both')
        self.assertEqual(self.hosts_of('both'), {'first', 'second'})

    def test_one_is_killed(self) -> None:
        running = self.start('killed', 'first', 'second')
        self.wait_for(running, 'killed', JOBS // 4)
        self.hosts.kill('second')
        try:
            self.check_whole(running, 'killed')
        finally:
            self.hosts.mend('second')
            self.hosts.start('second')

    def test_a_link_is_cut_and_mended(self) -> None:
        running = self.start('cut', 'first', 'second')
        self.wait_for(running, 'cut', JOBS // 4)
        self.hosts.cut('first')
        time.sleep(3)
        self.hosts.mend('first')
        self.check_whole(running, 'cut')
        self.assertEqual(self.hosts_of('cut'), {'first', 'second'})

    def test_both_are_gone_and_come_again(self) -> None:
        """The sweep ends with what it has; the same command goes on when the hosts are there again."""
        running = self.start('gone', 'first', 'second')
        self.wait_for(running, 'gone', JOBS // 4)
        for name in ('first', 'second'):
            self.hosts.kill(name)
        _, said = running.communicate(timeout=TIMEOUT)
        for name in ('first', 'second'):
            self.hosts.mend(name)
            self.hosts.start(name)
        self.assertEqual(running.returncode, 2)
        self.assertRegex(said, rf'sweep: \d+ of {RUNS} runs are kept in .*; the same command goes on\n')
        self.check_whole(self.start('gone', 'first', 'second'), 'gone')


if __name__ == '__main__':
    unittest.main()
