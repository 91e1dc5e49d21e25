"""The steps of examples/ci/runs.yml, made one behind the other as a service makes them: `bash -e`, in a repository that has
two locks as its programs, one of which is wrong."""
from __future__ import annotations

import os
import re
import shutil
import subprocess
import tempfile
import textwrap
import unittest
from pathlib import Path
from xml.etree import ElementTree

from lens.machine import BUILT

ROOT = Path(__file__).resolve().parents[3]
WORKFLOW = ROOT / 'examples' / 'ci' / 'runs.yml'
SOURCE = ROOT / 'examples' / 'peterson' / 'peterson.c'
STEP = re.compile(r'      - name: (?P<name>.*)\n(?P<rest>(?:        .*\n)*)')
RUN = re.compile(r'        run: \|\n(?P<script>(?:          .*\n)*)')
COMPILER, LIBRARY = 'riscv64-unknown-elf-gcc', Path('/usr/lib/picolibc/riscv64-unknown-elf')
TIMEOUT = 1800


def scripts() -> dict[str, str]:
    """The scripts of the steps that have one, by the steps' names."""
    steps = STEP.finditer(WORKFLOW.read_text())
    found = {step['name']: RUN.search(step['rest']) for step in steps}
    return {name: textwrap.dedent(run['script']) for name, run in found.items() if run}


@unittest.skipUnless(BUILT.is_file(), f'{BUILT} is not built')
@unittest.skipUnless(shutil.which(COMPILER) and LIBRARY.is_dir(), f'there is no {COMPILER} with picolibc')
@unittest.skipUnless(shutil.which('parallel'), 'there is no GNU parallel')
class Workflow(unittest.TestCase):
    def setUp(self) -> None:
        made = tempfile.TemporaryDirectory()
        self.addCleanup(made.cleanup)
        self.room = Path(made.name)
        (self.room / 'rseq_run').symlink_to(ROOT)
        (self.room / 'tests').mkdir()
        source = SOURCE.read_text()
        self.assertIn('#ifdef FENCED', source)
        (self.room / 'tests' / 'wrong.c').write_text(source)
        (self.room / 'tests' / 'right.c').write_text(f'#define FENCED\n{source}')

    def make(self, script: str) -> subprocess.CompletedProcess[str]:
        """A step's script, as it is run by default."""
        env = {**os.environ, 'RSEQ_RUN': str(BUILT.resolve()), 'RUNS': '60'}
        words = ['bash', '--noprofile', '--norc', '-e', '-o', 'pipefail', '-c', script]
        return subprocess.run(words, cwd=self.room, env=env, capture_output=True, text=True, timeout=TIMEOUT)

    def test_its_steps(self) -> None:
        steps = scripts()
        self.assertEqual(list(steps), ['packages', 'build', 'runs'])
        self.assertIn('apt-get install', steps.pop('packages'))
        built = self.make(steps['build'])
        self.assertEqual((built.returncode, built.stderr), (0, ''))
        ran = self.make(steps['runs'])
        self.assertEqual((ran.returncode, ran.stderr), (1, ''))
        shown = [line for line in ran.stdout.splitlines() if line.startswith('::error ')]
        self.assertEqual(len(shown), 1)
        self.assertRegex(shown[0], r'^::error file=tests/wrong\.c,line=\d+,title=wrong\.elf%3A exit 1 in \d+ of 60 runs::')
        suite = ElementTree.parse(self.room / 'junit.xml').getroot()[0]
        self.assertEqual([suite.get(name) for name in ('tests', 'failures', 'errors')], ['2', '1', '0'])
        self.assertTrue((self.room / 'swept' / 'right' / 'table.txt').is_file())


if __name__ == '__main__':
    unittest.main()
