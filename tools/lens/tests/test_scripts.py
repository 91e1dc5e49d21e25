"""What is read as a run: output texts and scripts; and what is said of a line that can't be read."""
import unittest

from lens.scripts import what_is_wrong

from .common import EXAMPLES, FOUND, PETERSON, lens, needs_program

SCRIPT = FOUND.with_suffix('.script')


class Lines(unittest.TestCase):
    def test_lines_that_can_be_read(self):
        pc = b'0000000000010078'
        with_pcs = (b'0 run 1 ' + pc, b'1 drain 0 ' + pc)
        for line in (b'0 run 1', b'7 exec', b'0 done', b'0 run 4294967295', *with_pcs):
            with self.subTest(line=line):
                self.assertIsNone(what_is_wrong(line))

    def test_what_is_wrong(self):
        cases = {
            b'0 exec\r': 'carriage return',
            b'': 'empty',
            b'0 exec # why': 'comment',
            b'0\texec': 'tab',
            b' 0 exec': 'space stands at its beginning',
            b'0 exec ': 'space stands at its end',
            b'0  exec': 'two spaces',
            b'0 exec 1 00000000000100B0': 'capital digits',
            b'0 exec 1 0x100b0': 'begins with 0x',
            b'0 exec 1 100b0': '16 digits',
            b'0 exec 1': 'both the thread and the pc',
            b'0 exec x8': 'lens steer',
            b'0 exec all': 'lens steer',
            b'0 run': 'which thread',
            b'0 run 01': 'begins with a 0',
            b'0 run x': 'no number of a thread',
            b'0 run 4294967296': 'above 4294967295',
            b'8 exec': 'at most 8 harts',
            b'00 exec': 'one digit',
            b'0': 'kind of event lacks',
            b'0 Exec': 'small letters',
            b'0 jump': 'no kind of event',
            b'0 exec 1 00000000000100b0 1': '5 fields',
            b'0 ex\xc3\xa9c': 'byte 5',
        }
        for line, said in cases.items():
            with self.subTest(line=line):
                self.assertIn(said, what_is_wrong(line) or 'nothing')


class Cut(unittest.TestCase):
    def test_an_output_and_its_script_are_cut_alike(self):
        log = SCRIPT.read_bytes()
        for run in (FOUND, SCRIPT):
            with self.subTest(run=run.name):
                self.assertEqual(lens('cut', run).stdout, log)
                self.assertEqual(lens('cut', run, '--to', 2).stdout.count(b'\n'), 2)
        self.assertEqual(lens('cut', SCRIPT, '--to', 2, '--short').stdout, b'1 run 1\n1 exec\n')

    def test_a_bad_line(self):
        answer = lens('cut', '-', stdin=b'0 run 1\n0  exec\n')
        self.assertEqual(answer.returncode, 2)
        self.assertIn(b'standard input, line 2: it has two spaces', answer.stderr)


@needs_program
class Passed(unittest.TestCase):
    """`lens play` and `lens inspect` are what the program prints, of an output text too."""

    def test_play(self):
        for run in (FOUND, SCRIPT):
            answer = lens('play', run, PETERSON)
            self.assertEqual((answer.returncode, answer.stdout, answer.stderr), (0, FOUND.read_bytes(), b''))

    def test_inspect(self):
        answer = lens('inspect', FOUND, PETERSON, '--to', 3)
        self.assertEqual(answer.returncode, 0)
        self.assertTrue(answer.stdout.startswith(b'place 3\nend open\n'))

    def test_a_line_that_is_refused(self):
        answer = lens('play', EXAMPLES / 'hello' / 'busy.script', EXAMPLES / 'hello' / 'hello.elf')
        self.assertEqual((answer.returncode, answer.stdout), (4, b'fault script 2\n'))
        self.assertNotIn(b'lens: ', answer.stderr)
        self.assertIn(b'busy.script, line 2', answer.stderr)

    def test_a_line_that_cannot_be_read(self):
        answer = lens('play', '-', PETERSON, stdin=b'0 run 1\r\n')
        self.assertEqual((answer.returncode, answer.stdout), (4, b'fault script 1\n'))
        self.assertIn(b'lens: line 1 can\'t be read: a carriage return', answer.stderr)

    def test_a_script_is_listed_as_its_output(self):
        whole = lens('list', FOUND, PETERSON).stdout
        self.assertEqual(lens('list', SCRIPT, PETERSON).stdout, whole)


if __name__ == '__main__':
    unittest.main()
