"""The words of the command: help, version, wrong ones; a reader that stops; another program."""
import os
import subprocess
import tempfile
import unittest
from pathlib import Path

from lens.command_line import VERSION

from .common import EXAMPLES, FOUND, LENS, PETERSON, PROGRAM, ROOT, TIMEOUT, lens

SWEEP = ROOT / 'tools' / 'bin' / 'sweep'
COMMANDS = 'list', 'trace', 'svg', 'calls', 'sequences', 'watch', 'races', 'why', 'cut', 'play', 'inspect', 'steer', 'shrink'
WITHOUT_PROGRAM = 'list', 'trace', 'svg', 'cut', 'atomics', 'help'
"""What needs no built program."""

WRONG = {
    ('list', '--contxt', '3', 'RUN', 'ELF'): "there is no option '--contxt'; the nearest is --context",
    ('list', '--zzzz', 'RUN', 'ELF'): "there is no option '--zzzz'",
    ('list', '--context', '-1', 'RUN', 'ELF'): "--context: '-1' is no number from 0 on",
    ('list', '--hart', '-1', 'RUN', 'ELF'): "--hart: '-1' is no number from 0 on",
    ('watch', '--thread', '0', 'RUN', 'ELF', 'count'): "--thread: '0' is no number from 1 on",
    ('list', '--only', 'drain', 'RUN', 'ELF'): "--only: there is no word 'drain'; the nearest is drains",
    ('shrink', '--by', 'txt', 'RUN', 'ELF'): "--by: there is no word 'txt'; the nearest is text",
    ('list', 'RUN', 'ELF', 'MORE'): "'MORE' is one word too many",
    ('list',): 'the following arguments are required: ELF',
    ('lst', 'RUN', 'ELF'): "there is no command 'lst'; the nearest is list",
    (): 'the following arguments are required: COMMAND',
}
SWEEP_WRONG = {
    ('ELF', '-o', 'FOLDER', '--run', '3', '--secnds', '5'): "there is no option '--secnds'; the nearest is --seconds",
    ('ELF', '-o', 'FOLDER', '--by', 'drew'): "--by: there is no word 'drew'; the nearest is draw",
    ('ELF',): 'the following arguments are required: -o/--out',
}


def sweep(*words: str) -> subprocess.CompletedProcess:
    return subprocess.run([SWEEP, *words], capture_output=True, timeout=TIMEOUT)


class Words(unittest.TestCase):
    def test_help_and_version(self):
        for command in (lens, sweep):
            for words in (('--help',), ('-h',)):
                with self.subTest(command=command.__name__, words=words):
                    answer = command(*words)
                    self.assertEqual((answer.returncode, answer.stderr), (0, b''))
                    self.assertTrue(answer.stdout.startswith(f'usage: {command.__name__} '.encode()))
            answer = command('--version')
            told = f'{command.__name__} (rseq_run) {VERSION}\n'
            self.assertEqual((answer.returncode, answer.stdout.decode(), answer.stderr), (0, told, b''))

    def test_the_version_is_that_of_the_program(self):
        source = (ROOT / 'crates' / 'reason_text' / 'src' / 'usage.rt').read_text()
        self.assertIn(f'const VERSION: &str = "{VERSION}";', source)

    def test_wrong_words(self):
        """One line each, and status 2."""
        for command, cases in ((lens, WRONG), (sweep, SWEEP_WRONG)):
            for words, said in cases.items():
                with self.subTest(command=command.__name__, words=words):
                    answer = command(*words)
                    name = f'{command.__name__} {words[0]}' if command is lens and words and words[0] in COMMANDS else command.__name__
                    line = f'{name}: {said} (`{name} --help` says the words)\n'
                    self.assertEqual((answer.returncode, answer.stdout, answer.stderr.decode()), (2, b'', line))

    def test_a_reader_that_stops(self):
        """`lens .. | head` ends in silence."""
        for words in (f'list {FOUND} {PETERSON}', 'list --help', f'play {FOUND} {PETERSON} --program cat'):
            for reader in ('head -n 1', 'true'):
                with self.subTest(words=words, reader=reader):
                    line = f'{{ {LENS} {words}; }} | {reader}'.replace('--program cat', f'--program {self.program()}')
                    answer = subprocess.run(['sh', '-c', line], capture_output=True, timeout=TIMEOUT)
                    self.assertEqual((answer.returncode, answer.stderr), (0, b''))

    def test_nobody_reads_what_a_command_prints(self):
        """Each command ends in silence where standard output is a pipe that nobody reads."""
        named = {command: (command, FOUND, PETERSON) for command in COMMANDS if command not in ('cut', 'steer')}
        named['cut'] = ('cut', FOUND)
        named['watch'] = ('watch', FOUND, PETERSON, 'count')
        named['help'] = ('watch', '--help')
        named['atomics'] = ('atomics', PETERSON)
        steer = EXAMPLES / 'peterson' / 'both_inside.steer'
        named['steer'] = ('steer', steer, PETERSON, '-o', self.room / 'it.script')
        for name, words in named.items():
            if PROGRAM.is_file() or name in WITHOUT_PROGRAM:
                with self.subTest(command=name):
                    answer = self.unread(LENS, *words)
                    self.assertEqual((answer.returncode, answer.stderr), (0, b''))

    def unread(self, *words: object) -> subprocess.CompletedProcess:
        """What a command does whose standard output is a pipe that nobody reads."""
        reader, writer = os.pipe()
        os.close(reader)
        try:
            return subprocess.run(list(map(str, words)), stdout=writer, stderr=subprocess.PIPE, timeout=TIMEOUT)
        finally:
            os.close(writer)

    def setUp(self) -> None:
        made = tempfile.TemporaryDirectory()
        self.addCleanup(made.cleanup)
        self.room = Path(made.name)

    def program(self) -> Path:
        """A program that says that it is rseq_run, and prints much."""
        folder = tempfile.TemporaryDirectory()
        self.addCleanup(folder.cleanup)
        program = Path(folder.name) / 'program'
        program.write_text('#!/bin/sh\n[ "$1" = --version ] && echo rseq_run 0.4.0 && exit\nseq 100000\n')
        program.chmod(0o755)
        return program

    def test_a_full_disk(self):
        with open('/dev/full', 'w') as full:
            answer = subprocess.run([LENS, 'list', FOUND, PETERSON], stdout=full, stderr=subprocess.PIPE, timeout=TIMEOUT)
        said = b'lens: standard output: No space left on device\n'
        self.assertEqual((answer.returncode, answer.stderr), (2, said))

    def test_another_program(self):
        """RSEQ_RUN names it, or --program."""
        for program in ('/bin/true', '/bin/echo', '/bin/cat'):
            for words in (('why', FOUND, PETERSON), ('play', FOUND, PETERSON), ('list', '--seed', 1, PETERSON)):
                with self.subTest(program=program, words=words):
                    env = {**os.environ, 'RSEQ_RUN': program}
                    answer = subprocess.run([LENS, *map(str, words)], env=env, capture_output=True, timeout=TIMEOUT)
                    said = f'lens: {program} is another program than rseq_run (RSEQ_RUN or --program names the one that is called)\n'
                    self.assertEqual((answer.returncode, answer.stdout, answer.stderr.decode()), (2, b'', said))


if __name__ == '__main__':
    unittest.main()
