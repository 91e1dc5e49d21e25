"""`lens watch`: the kept list of one variable, and words that name none."""
import tempfile
import unittest
from pathlib import Path

from lens.faults import LensFault
from lens.watching import Range, watch, watched

from .common import FOUND, GOLDEN, PETERSON, compile_c, found, lens, needs_gcc, needs_program, values


class Watching(unittest.TestCase):
    maxDiff = None

    def test_golden(self):
        """Both threads read 0, and the second addition enters in the place of the first."""
        listed = '\n'.join(watch(values(FOUND, PETERSON, 'found.trace'), 'count'))
        self.assertEqual(f'{listed}\n', (GOLDEN / 'count.watched').read_text())

    def test_golden_of_one_of_two_words(self):
        listed = '\n'.join(watch(values(FOUND, PETERSON, 'found.trace'), 'wants+4'))
        self.assertEqual(f'{listed}\n', (GOLDEN / 'wants.watched').read_text())

    def test_what_is_watched(self):
        program = found().program
        wants = next(one for one in program.variables if one.name == 'wants')
        for words, due in {
            'wants': Range(wants.address, wants.size),
            'wants+4': Range(wants.address + 4, wants.size - 4),
            'wants+0x4:2': Range(wants.address + 4, 2),
            'wants:1': Range(wants.address, 1),
            '0x20000': Range(0x20000, 8),
            '0x20000+8:4': Range(0x20008, 4),
        }.items():
            with self.subTest(words=words):
                self.assertEqual(watched(program, words), due)
        for words in ('nobody', 'wants+', 'wants+8', 'wants:0', ''):
            with self.subTest(words=words), self.assertRaises(LensFault):
                watched(program, words)

    def test_a_program_without_it(self):
        with tempfile.TemporaryDirectory() as folder:
            program = Path(folder) / 'program'
            program.write_text('#!/bin/sh\necho "rseq_run: trace: there is no such command" >&2; exit 2\n')
            program.chmod(0o755)
            answer = lens('watch', FOUND, PETERSON, 'count', '--program', program)
        words = f'{program} has no command `trace`, by which this knows what a run read and wrote'
        self.assertEqual((answer.returncode, answer.stderr.decode()), (2, f'lens: {words}\n'))


TWO = """
typedef unsigned long __attribute__((may_alias)) word;
struct pair { int one; short other, last; } __attribute__((aligned(8))) pair = {1, 2, 3};
int main(void) { *(volatile word *)&pair = 0xffff000500000004; return 0; }
"""


class TwoMembers(unittest.TestCase):
    @needs_gcc
    @needs_program
    def test_in_one_store(self):
        """Each member has its value, and what it had before."""
        now, before = 'pair.one = 4, pair.other = 5, pair.last = -1', '1 and 2 and 3'
        with tempfile.TemporaryDirectory() as name:
            elf = compile_c(Path(name), TWO)
            watched = lens('watch', '--seed', 1, elf, 'pair').stdout.decode()
            listed = lens('list', '--seed', 1, elf, '--values').stdout.decode()
        self.assertIn(f'waits   {now}', watched)
        self.assertRegex(watched, f'enters  {now}  store of step [0-9]+, in place of {before} ')
        self.assertIn(f'{now}, waits', listed)
        self.assertIn(f'{now} in place of {before}', listed)


if __name__ == '__main__':
    unittest.main()
