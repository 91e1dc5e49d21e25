"""`lens inspect --memory`: what the program shows of memory, with the names of variables."""
import unittest

from lens.faults import LensFault
from lens.program import Program
from lens.shown_memory import asked, ranges_of, with_names

from .common import EXAMPLES, FOUND, GOLDEN, PETERSON, lens, needs_program

COUNTER = EXAMPLES / 'percpu_counter' / 'percpu_counter.elf'
RUN = EXAMPLES / 'percpu_counter' / 'preempted.script'

PLACE = """\
place 107
end open
hart 0 requests none
memory 0000000000011a60 0000000100000002
memory 0000000000011a68 0000000000000000
hart 0 sees 0000000000011a68 0000000000011400
memory 0000000000011440 fffffffffffffffe
memory 0000000000005000 none
"""
NAMED = """\
place 107
end open
hart 0 requests none
memory 0000000000011a60 0000000100000002  adders[0].area.cpu_id_start = 2, adders[0].area.cpu_id = 1
memory 0000000000011a68 0000000000000000  adders[0].area.rseq_cs = 0
hart 0 sees 0000000000011a68 0000000000011400  adders[0].area.rseq_cs = 0x11400
memory 0000000000011440 fffffffffffffffe  cells[0].count = -2
memory 0000000000005000 none  0x5000:1
"""


class ShownMemory(unittest.TestCase):
    maxDiff = None

    def test_names(self):
        program = Program(str(COUNTER))
        ranges = ranges_of(program, ['adders[0].area', 'cells[0]:8', '0x5000:1'])
        self.assertEqual(asked(ranges), '--memory=11a60:32,11440:8,5000:1')
        self.assertEqual(''.join(f'{line}\n' for line in with_names(program, ranges, PLACE)), NAMED)

    def test_a_word_is_asked_for_once(self):
        program = Program(str(PETERSON))
        ranges = ranges_of(program, ['turn', 'count', 'wants'])
        self.assertEqual(asked(ranges), '--memory=112d8:4,112d0:8')
        lines = with_names(program, ranges, 'memory 00000000000112d8 0000000200000001\n')
        self.assertEqual(list(lines), ['memory 00000000000112d8 0000000200000001  turn = 1, count = 2'])
        lines = with_names(program, ranges[:1], 'memory 00000000000112d8 0000000200000001\n')
        self.assertEqual(list(lines), ['memory 00000000000112d8 0000000200000001  turn = 1'])

    def test_too_many_bytes(self):
        with self.assertRaises(LensFault):
            ranges_of(Program(str(PETERSON)), ['0x20000:65537'])

    @needs_program
    def test_goldens(self):
        """The area of a thread that is inside a sequence, and the words of a lock while a store waits."""
        area = ('--to', 107, '--memory', 'adders[0].area', '--memory', 'cells[0]:8', '--memory', '0x5000:1')
        lock = ('--to', 77, '--memory', 'wants', '--memory', 'turn', '--memory', 'count')
        for name, words in {
            'area.inspected': (RUN, COUNTER, *area),
            'lock.inspected': (FOUND, PETERSON, *lock),
        }.items():
            with self.subTest(golden=name):
                answer = lens('inspect', *words)
                self.assertEqual((answer.returncode, answer.stderr), (0, b''))
                self.assertEqual(answer.stdout.decode(), (GOLDEN / name).read_text())

    @needs_program
    def test_a_script_that_is_refused(self):
        answer = lens('inspect', '-', PETERSON, '--memory', 'count', stdin=b'0 exec\n')
        self.assertEqual((answer.returncode, answer.stdout), (4, b'fault script 1\n'))


if __name__ == '__main__':
    unittest.main()
