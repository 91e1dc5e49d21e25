"""examples/cluster/explore.sbatch, run as Slurm runs the jobs of an array (sbatch(1), "OUTPUT ENVIRONMENT VARIABLES"), and
`sweep merge` of what they left. Slurm itself isn't needed."""
from __future__ import annotations

import os
import subprocess
import tempfile
import unittest
from pathlib import Path

from lens.machine import BUILT

ROOT = Path(__file__).resolve().parents[3]
SCRIPT, SWEEP = ROOT / 'examples' / 'cluster' / 'explore.sbatch', ROOT / 'tools' / 'bin' / 'sweep'
ELF = ROOT / 'examples' / 'peterson' / 'peterson.elf'
TIMEOUT = 1800


@unittest.skipUnless(BUILT.is_file(), f'{BUILT} is not built')
class Arrays(unittest.TestCase):
    def job(self, folder: Path, task: int, **more: str) -> subprocess.CompletedProcess[str]:
        env = {**os.environ, 'RSEQ_RUN': str(BUILT.resolve()), 'SLURM_ARRAY_TASK_ID': str(task), 'SLURM_CPUS_PER_TASK': '1'}
        words = ['bash', str(SCRIPT), str(ELF), str(folder)]
        return subprocess.run(words, env={**env, 'RUNS': '20', **more}, capture_output=True, text=True, timeout=TIMEOUT)

    def merge(self, folder: Path) -> subprocess.CompletedProcess[str]:
        return subprocess.run([SWEEP, 'merge', folder], capture_output=True, text=True, timeout=TIMEOUT)

    def test_an_array(self) -> None:
        with tempfile.TemporaryDirectory() as room:
            folder = Path(room) / 'found'
            for task in (2, 0, 1):
                self.assertEqual(self.job(folder, task).stderr, '')
            answer = self.merge(folder)
            self.assertEqual((answer.returncode, answer.stderr), (0, ''))
            self.assertTrue(answer.stdout.startswith('60 runs, seeds 1 to 60, '), answer.stdout)

    def test_a_job_that_was_ended(self) -> None:
        """It is named; made again, nothing of it lacks."""
        with tempfile.TemporaryDirectory() as room:
            folder = Path(room)
            self.job(folder, 0)
            self.assertNotEqual(self.job(folder, 1, RSEQ_RUN='/bin/false').returncode, 0)
            answer = self.merge(folder)
            self.assertEqual(answer.returncode, 2)
            self.assertIn('1.explored is empty: its job had not ended', answer.stderr)
            self.job(folder, 1)
            self.assertEqual(self.merge(folder).returncode, 0)


if __name__ == '__main__':
    unittest.main()
