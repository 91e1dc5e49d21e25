"""Reading output texts, and what is said of those that are none."""
import unittest

from lens.faults import LensFault
from lens.output import parse_output, read_output

from .common import FOUND

WHOLE = b'console 3\na\nb\nlog 2\n0 run 1 0000000000010078\n1 exec 12 000000000001007c\nend exit 7\n'


class Reading(unittest.TestCase):
    def test_parts(self):
        output = parse_output('it', WHOLE)
        self.assertEqual(output.console, b'a\nb')
        self.assertEqual(output.end, 'exit 7')
        self.assertEqual(
            [step.line() for step in output.steps],
            ['0 run 1 0000000000010078', '1 exec 12 000000000001007c'],
        )
        self.assertEqual([step.short_line() for step in output.steps], ['0 run 1', '1 exec'])
        self.assertEqual((output.harts, output.threads, output.was_killed), ([0, 1], [1, 12], False))

    def test_lines_come_back(self):
        output = read_output(str(FOUND))
        log = FOUND.read_text().split('\n', 4)[4]
        self.assertTrue(log.startswith(''.join(f'{step.line()}\n' for step in output.steps)))

    def test_every_beginning_is_refused(self):
        for length in range(len(WHOLE)):
            with self.subTest(length=length), self.assertRaises(LensFault):
                parse_output('it', WHOLE[:length])

    def test_words_of_refusals(self):
        cases = {
            b'': 'it: it is cut off: a line "console N" is due where it ends',
            WHOLE[:40]: 'it: it is cut off: line 1 of the 2 of its log is due where it ends',
            WHOLE[: -len('end exit 7\n')]: 'it: it is cut off: the line of its end is due where it ends',
            b'0 run 1\n': 'it: it is no output of rseq_run: a line "console N" is due, and \'0 run 1\' came',
            b'fault script 3\n': 'it: the program refused what it was asked ("fault script 3"), so there is no run to show',
            WHOLE.replace(
                b'exec 12', b'jump 12'
            ): 'it: line 2 of its log is \'1 jump 12 000000000001007c\', and "HART KIND THREAD PC" is due',
            b'console 0\n\nconsole 0\n\nlog 0\n': 'it: it is an output of `pair`, and the run of one process is wanted here',
            WHOLE + b'more\n': 'it: a line "end REASON" is due behind the log, and \'end exit 7\' came',
        }
        for text, words in cases.items():
            with self.subTest(words=words), self.assertRaises(LensFault) as caught:
                parse_output('it', text)
            self.assertEqual(str(caught.exception), words)

    def test_a_changed_console_is_refused(self):
        with self.assertRaises(LensFault):
            parse_output('it', WHOLE.replace(b'console 3', b'console 2'))


if __name__ == '__main__':
    unittest.main()
