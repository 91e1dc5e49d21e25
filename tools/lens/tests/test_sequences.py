"""`lens sequences`: the kept list of one run; and the steps of sequences in a listing."""
import unittest

from .common import EXAMPLES, GOLDEN, lens, needs_program

FOLDER = EXAMPLES / 'signal_in_sequence'
RUN, ELF = FOLDER / 'inside.output', FOLDER / 'signal_in_sequence.elf'


@needs_program
class Sequences(unittest.TestCase):
    maxDiff = None

    def test_those_of_a_thread_with_a_handler(self):
        answer = lens('sequences', RUN, ELF, '--thread', 2)
        self.assertEqual((answer.returncode, answer.stderr), (0, b''))
        self.assertEqual(answer.stdout.decode(), (GOLDEN / 'inside.sequences').read_text())

    def test_one_that_commits_and_one_whose_compare_failed(self):
        """Both were `left`. Each has one place in the source: of a helper, the line that calls it first."""
        folder = EXAMPLES / 'percpu_list'
        listed = [
            lens('sequences', '--seed', seed, folder / 'percpu_list.elf').stdout.decode() for seed in (1, 2, 3)
        ]
        rows = [row for text in listed for row in text.splitlines() if ' push+0x24 to ' in row]
        source = ' percpu_list.c:99 (percpu_list.c:47)  '
        self.assertEqual({row.count(source) for row in rows}, {1})
        ends = {row.partition(source)[2].strip().partition(' by ')[0] for row in rows}
        self.assertLessEqual({'committed', 'left at push+0x28'}, ends)

    def test_their_steps(self):
        """The steps of the first two sequences, of which the first is cut by a signal of step 142."""
        listed = lens('list', RUN, ELF, '--only', 'sequences', '--to', 164).stdout.decode().splitlines()
        steps = [int(row.split()[0]) for row in listed[1:-2]]
        self.assertEqual(steps, [*range(136, 141), *range(160, 165)])


if __name__ == '__main__':
    unittest.main()
