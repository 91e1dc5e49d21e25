"""The commands that ask the program's `trace`, and the kept texts of it that other tests read."""
import subprocess
import tempfile
import unittest
from pathlib import Path

from lens.output import read_output

from .common import (
    EXAMPLES,
    FOUND,
    GOLDEN,
    PETERSON,
    PROGRAM,
    TRACES,
    lens,
    needs_objdump,
    needs_program,
)

COUNTER = EXAMPLES / 'percpu_counter' / 'percpu_counter.elf'
RESTARTED = TRACES / 'restarted.output'

COMMANDS = {
    'count.watched': ('watch', FOUND, PETERSON, 'count'),
    'wants.watched': ('watch', FOUND, PETERSON, 'wants+4'),
    'found.races': ('races', FOUND, PETERSON),
    'found.values': ('list', FOUND, PETERSON, '--values', '--from', 70, '--to', 128),
    'restarted.values': ('list', RESTARTED, COUNTER, '--values', '--from', 100, '--to', 160),
    'found.calls': ('calls', FOUND, PETERSON, '--values'),
    'restarted.calls': ('calls', RESTARTED, COUNTER, '--values'),
    'restarted.sequences': ('sequences', RESTARTED, COUNTER, '--values'),
}
KEPT = {'found.trace': (FOUND, PETERSON), 'restarted.trace': (RESTARTED, COUNTER)}


@needs_program
class Traced(unittest.TestCase):
    maxDiff = None

    @needs_objdump
    def test_goldens(self):
        for name, words in COMMANDS.items():
            with self.subTest(golden=name):
                answer = lens(*words)
                self.assertEqual((answer.returncode, answer.stderr), (0, b''))
                self.assertEqual(answer.stdout.decode(), (GOLDEN / name).read_text())

    def test_the_kept_texts(self):
        """They are what the program prints of the same runs."""
        for name, (run, elf) in KEPT.items():
            with self.subTest(trace=name), tempfile.TemporaryDirectory() as folder:
                script = Path(folder) / 'script'
                script.write_text(''.join(f'{step.line()}\n' for step in read_output(str(run)).steps))
                ran = subprocess.run([PROGRAM, 'trace', elf, script], capture_output=True, check=True)
                self.assertEqual(ran.stdout, (TRACES / name).read_bytes())


if __name__ == '__main__':
    unittest.main()
