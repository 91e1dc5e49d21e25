"""The program's help and version: on standard output, with status 0, and of the commands and options that docs/reference/COMMANDS.md has."""
from __future__ import annotations

import os
import re
import subprocess
import unittest
from pathlib import Path

ROOT = Path(__file__).resolve().parents[3]
PROGRAM = Path(os.environ.get('RSEQ_RUN', ROOT / 'crates' / 'rseq_run' / 'out' / 'rseq_run')).resolve()
PAGE = (ROOT / 'docs' / 'reference' / 'COMMANDS.md').read_text()
USAGE = re.compile(r'^(?:usage:| {6}) rseq_run (\w+) (.*)$', re.M)
OPTION = re.compile(r'--([a-z]+)')
LISTED = re.compile(r'^  --([a-z]+) ', re.M)


def run(*words: str) -> subprocess.CompletedProcess[str]:
    """The program on these words."""
    return subprocess.run([PROGRAM, *words], capture_output=True, text=True)


def told(*words: str) -> str:
    """What it answers to these words, which ask for help or for the version."""
    ran = run(*words)
    if ran.returncode != 0 or ran.stderr:
        raise AssertionError(f'{words}: status {ran.returncode}, {ran.stderr!r}')
    return ran.stdout


def usages(text: str) -> dict[str, set[str]]:
    """The options of each command, by the lines of usage in a text."""
    return {word: set(OPTION.findall(behind)) for word, behind in USAGE.findall(text)}


def page_usages() -> dict[str, set[str]]:
    """The same by the page of commands."""
    lines = re.findall(r'^    rseq_run (\w+) (.*)$', PAGE, re.M)
    return {word: set(OPTION.findall(behind)) for word, behind in lines}


@unittest.skipUnless(PROGRAM.is_file(), f'{PROGRAM} isn\'t built')
class Help(unittest.TestCase):
    def test_all_commands(self) -> None:
        text = told('--help')
        self.assertEqual(usages(text), page_usages())
        for words in (('-h',), ('help',), ('--help', 'solo'), ('help', 'me')):
            self.assertEqual(told(*words), text)

    def test_each_command(self) -> None:
        for word, options in usages(told('--help')).items():
            for words in ((word, '--help'), (word, 'FILE', '-h'), (word, '--harts', '--help')):
                text = told(*words)
                self.assertEqual(usages(text), {word: options})
                self.assertEqual(set(LISTED.findall(text)), options)

    def test_version(self) -> None:
        self.assertRegex(told('--version'), r'^rseq_run \d+\.\d+\.\d+\n$')
        self.assertEqual(told('-V'), told('--version'))

    def test_a_name_is_no_question(self) -> None:
        ran = run('solo', '--', '--help')
        self.assertEqual((ran.returncode, ran.stdout), (5, 'fault read\n'))

    def test_other_words_are_refused_as_before(self) -> None:
        for words in (('solo', '--version'), ('Solo', '--help'), ('--', '--help'), ('solo', '--harts', '1', 'F')):
            ran = run(*words)
            self.assertEqual((ran.returncode, ran.stdout), (2, 'fault usage\n'), words)

    def test_the_nearest_word_is_named(self) -> None:
        self.assertIn('did you mean outcomes?', run('outcome', 'F').stderr)
        self.assertIn('did you mean --steps?', run('solo', '--step', '1', 'F').stderr)

    def test_output_that_cannot_be_written(self) -> None:
        with open('/dev/full', 'w') as full:
            ran = subprocess.run([PROGRAM, '--help'], stdout=full, stderr=subprocess.PIPE, text=True)
        self.assertEqual(ran.returncode, 6)
        self.assertIn('standard output can\'t be written', ran.stderr)


if __name__ == '__main__':
    unittest.main()
