"""The first task of docs/CONTRIBUTING.md can be followed: its files are there, its call isn't, and its program shows that."""
from __future__ import annotations

import os
import re
import shutil
import subprocess
import tempfile
import textwrap
import unittest
from pathlib import Path

ROOT = Path(__file__).resolve().parents[3]
TASK = (ROOT / 'docs' / 'CONTRIBUTING.md').read_text().partition('\n## A first task\n')[2].partition('\n## ')[0]
PROGRAM = Path(os.environ.get('RSEQ_RUN', ROOT / 'crates' / 'rseq_run' / 'out' / 'rseq_run'))
ASSEMBLER = 'riscv64-unknown-elf-as'
PATH = re.compile(r'`((?:crates|tools)/[\w./]+\.\w+)`')
BLOCK = re.compile(r'(?:^ {4}.*\n)+', re.MULTILINE)
NEW = 'D=crates/worked_runs/data/calls/'
KNOWN = {
    'crates/block_model/specs/Calls.antt': ('uname', 'asking_call_of', 'number == 80 '),
    'crates/block_model/specs/Calls/System.antt': ('abbrev pub uname ', 'said'),
    'crates/block_model/proofs/CallEffects/System.antt': ('CallDeed, ', 'pub deed_uname :'),
    'crates/block_model/proofs/CallEffects/EachCall.antt': ('deed_uname', 'deed_asking_call', '(eqb number 80)'),
    'crates/sys_calls/src/asking.rt': ('const FSTAT', 'const ROOT', 'Ok(PARENT)', ' FSTAT => '),
    'crates/sys_calls/proofs/asking/asked/Answers.antt': ('silent_by_number', 'answered_said', 'is_not 80 n _ _ (λ e. absurd'),
    'crates/event_facts/proofs/KillingCalls.antt': ('calm_asking', '(calm_if (eqb number 80)'),
    'crates/fact_text/specs/CallNames.antt': ('number == 80 then codes',),
    'crates/fact_text/src/call_names.rt': ('80 => b"',),
    'crates/kernel_tests/src/calls/words.rt': ('pub const GETPPID: u64',),
    'crates/kernel_tests/src/calls/scenes/asking.rt': ('Step::Answers(GETPPID, &[(ANY, 1)]),',),
    'tools/lens/lens/calls.py': ("    80: '", 'NAMES'),
}
"""What the task speaks of in the files that it changes."""


class FirstTask(unittest.TestCase):
    def test_its_files_are_there(self) -> None:
        named = set(PATH.findall(TASK))
        self.assertGreater(len(named), 8)
        for path in named:
            self.assertTrue((ROOT / path).is_file(), path)

    def test_what_it_speaks_of_is_in_them(self) -> None:
        for path, words in KNOWN.items():
            text = (ROOT / path).read_text()
            for word in words:
                with self.subTest(path=path):
                    self.assertIn(word, text)

    def test_its_call_isnt_there(self) -> None:
        calls = (ROOT / 'crates' / 'block_model' / 'specs' / 'Calls.antt').read_text()
        self.assertNotIn('number == 81 ', calls)

    @unittest.skipUnless(shutil.which(ASSEMBLER) and os.access(PROGRAM, os.X_OK), f'there is no {ASSEMBLER} or no program')
    def test_its_program_fails_as_it_says(self) -> None:
        """And what is due of it differs from what it prints in the last line alone."""
        blocks = [textwrap.dedent(block) for block in BLOCK.findall(TASK)]
        first = next(at for at, block in enumerate(blocks) if block.startswith(NEW))
        with tempfile.TemporaryDirectory() as name:
            here = Path(name) / 'run'
            script = blocks[first] + blocks[first + 1]
            script = re.sub(r'^D=.*$', f'D={here}', script, flags=re.MULTILINE).replace('/tmp/sync', f'{name}/sync')
            script = script.replace('crates/rseq_run/out/rseq_run', str(PROGRAM))
            ran = subprocess.run(['sh', '-eu', '-c', script], capture_output=True, text=True, cwd=ROOT)
            self.assertEqual((ran.stdout, ran.stderr), ('end exit 218\n', ''))
            printed = subprocess.run([PROGRAM, 'solo', here / 'F'], capture_output=True, text=True).stdout
            self.assertEqual(printed.replace('exit 218', 'exit 0'), (here / 'stdout').read_text())


if __name__ == '__main__':
    unittest.main()
