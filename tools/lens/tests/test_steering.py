"""Steers: how they are read, the scripts that they make, and what is said where they can't go on."""
import tempfile
import unittest
from dataclasses import replace
from pathlib import Path

from lens.faults import LensFault
from lens.steering import Order, Remark, read_line

from .common import EXAMPLES, FENCED, PETERSON, PROGRAM, START, assemble, counting_program, lens, needs_program

BOTH_INSIDE = EXAMPLES / 'peterson' / 'both_inside.steer'
IN_TURN = EXAMPLES / 'peterson_fenced' / 'in_turn.steer'


LOOP = """
    li t0, 200
1:  andi t1, t0, 3
    bnez t1, 2f
    fence rw, rw
2:  sd t0, -8(sp)
    andi t1, t0, 1
    beqz t1, 3f
    sd t0, -16(sp)
3:  addi t0, t0, -1
    bnez t0, 1b
    li a0, 0
    li a7, 93
    ecall
"""
"""Goes one way or the other in each round; some rounds have a fence, and some a store more."""


class Lines(unittest.TestCase):
    def read(self, line):
        return read_line('it', 3, line)

    def test_orders(self):
        cases = {
            '0 run 12': Order(3, '0 run 12', 0, 'run', '12'),
            '1 exec': Order(3, '1 exec', 1, 'exec'),
            '  1   drain  x3 ': Order(3, '1 drain x3', 1, 'drain', times=3),
            '0 exec until main+0x10': Order(3, '0 exec until main+0x10', 0, 'exec', until='main+0x10'),
            '7 exec all': Order(3, '7 exec all', 7, 'exec', is_all=True),
            '7 drain all': Order(3, '7 drain all', 7, 'drain', is_all=True),
            '2 take': Order(3, '2 take', 2, 'take'),
        }
        for line, order in cases.items():
            with self.subTest(line=line):
                self.assertEqual(self.read(line), [order])

    def test_comments(self):
        self.assertEqual(self.read(''), [])
        self.assertEqual(self.read('  # two  words'), [Remark(3, 'two  words')])
        self.assertEqual(self.read('0 exec # why'), [Remark(3, 'why'), Order(3, '0 exec', 0, 'exec')])

    def test_orders_that_go(self):
        cases = {
            '0 go': Order(3, '0 go', 0, 'exec', is_all=True, goes=True),
            '0 go until take': Order(3, '0 go until take', 0, 'exec', until='take', goes=True),
            '0 go until take #3': Order(3, '0 go until take #3', 0, 'exec', until='take', visit=3, goes=True),
            '0 go preempt': Order(3, '0 go preempt', 0, 'preempt', goes=True),
            '0 drain until a.c:9': Order(3, '0 drain until a.c:9', 0, 'drain', until='a.c:9'),
            'repeat 2 0 exec': Order(3, 'repeat 2 0 exec', 0, 'exec', repeats=2),
            'finish': Order(3, 'finish', 0, 'finish'),
        }
        for line, order in cases.items():
            with self.subTest(line=line):
                self.assertEqual(self.read(line), [order])

    def test_a_count_is_no_comment(self):
        order = Order(3, '0 go until take #3', 0, 'exec', until='take', visit=3, goes=True)
        self.assertEqual(self.read('0 go until take #3 # why #2'), [Remark(3, 'why #2'), order])
        uncounted = replace(order, words='0 go until take', visit=1)
        self.assertEqual(self.read('0 go until take # 3'), [Remark(3, '3'), uncounted])

    def test_no_orders(self):
        for line in (
            '0',
            'exec 0',
            '8 exec',
            '0 run',
            '0 run x2',
            '0 exec x0',
            '0 exec 8',
            '0 exec until',
            '0 jump',
            '0 preempt all',
            '00 exec',
            '0 go run 1',
            '0 go until',
            'repeat 0 0 exec',
            'repeat 2 repeat 2 0 exec',
            'finish 0',
        ):
            with self.subTest(line=line), self.assertRaisesRegex(
                LensFault, f'^it, line 3: \'{line}\' is no order'
            ):
                self.read(line)


@needs_program
class Scripts(unittest.TestCase):
    def setUp(self):
        made = tempfile.TemporaryDirectory()
        self.addCleanup(made.cleanup)
        self.folder = Path(made.name)

    def steer(self, steer, elf, *options):
        script = self.folder / 'made.script'
        return script, lens('steer', steer, elf, '-o', script, '--program', PROGRAM, *options)

    def steer_text(self, text, elf=PETERSON, *options):
        steer = self.folder / 'it.steer'
        steer.write_text(text)
        return self.steer(steer, elf, *options)

    def test_those_of_the_examples(self):
        for steer, elf in ((BOTH_INSIDE, PETERSON), (IN_TURN, FENCED)):
            with self.subTest(steer=steer.name):
                script, answer = self.steer(steer, elf)
                self.assertEqual((answer.returncode, answer.stderr), (0, b''))
                self.assertEqual(script.read_text(), steer.with_suffix('.script').read_text())
                self.assertEqual(
                    script.with_suffix('.notes').read_text(), steer.with_suffix('.notes').read_text()
                )

    def test_a_place_stands_before_its_instruction(self):
        script, answer = self.steer_text(
            '0 run 1\n0 exec until main+0x10\n0 exec until main+0x10\n0 exec until start.S:8\n'
        )
        self.assertIn(b'line 4', answer.stderr)
        script, answer = self.steer_text('0 run 1\n0 exec until main+0x10\n0 exec until main+0x10\n')
        self.assertEqual(script.read_text(), '0 run 1\n' + '0 exec\n' * 9)

    def refusal(self, text, said, elf=PETERSON, *options):
        _, answer = self.steer_text(text, elf, *options)
        self.assertEqual((answer.returncode, answer.stderr.count(b'\n')), (2, 1))
        self.assertIn(said, answer.stderr.decode())

    def test_refusals(self):
        start = '0 run 1\n'
        clone = f'{start}0 exec all\n'
        cases = {
            '0 exec\n': 'line 1: \'0 exec\': hart 0 isn\'t running a thread (begin with "0 run THREAD") '
            '(the program: fault script 1)',
            f'{start}0 run 1\n': 'hart 0 runs thread 1 already',
            f'{start}1 run 1\n': 'thread 1 runs on hart 0',
            f'{start}1 run 2\n': 'thread 2 isn\'t there yet',
            f'{start}0 drain\n': 'no store waits on hart 0',
            f'{start}0 exec x9\n0 preempt\n': 'and 1 store still waits: a thread leaves only where none waits',
            f'{clone}0 exec\n': 'stands at main+0x44 (ecall), peterson.c:42 (threads.h:56), with thread 1, and 3 stores still wait: '
            'this instruction comes only where none waits ("0 drain all") '
            '(the program: fault script 24)',
            f'{clone}0 drain all\n0 exec until nowhere\n': 'has no function or label \'nowhere\'',
            f'{clone}0 drain all\n0 exec all\n0 drain all\n0 exec all\n1 exec\n0 exec\n': 'hart 1 isn\'t running a thread',
            f'{clone}0 drain all\n0 exec all\n0 drain all\n0 exec all\n0 exec\n': 'hart 0 isn\'t running a thread: thread 1 left it at step',
            f'{start}0 exec until take\n': 'after 22 of these events hart 0 stands at main+0x44 (ecall)',
        }
        for text, said in cases.items():
            with self.subTest(text=text):
                self.refusal(text, said)

    def played(self, script, elf=PETERSON):
        """The end of the run of a script."""
        return lens('play', script, elf, '--program', PROGRAM).stdout.decode().splitlines()[-1]

    def test_going_needs_no_counted_drains(self):
        script, answer = self.steer_text('0 run 1\n0 go until give\n1 run 2\n1 go\n0 go\n')
        self.assertEqual((answer.returncode, answer.stderr), (0, b''))
        self.assertEqual(script.read_text(), BOTH_INSIDE.with_suffix('.script').read_text())

    def test_visits_are_counted(self):
        elf = assemble(self.folder, 'li a0, 3\nagain: addi a0, a0, -1\nbnez a0, again\nli a7, 93\necall')
        for order, lines in (('0 go until again #3', 6), ('0 go until again', 2), ('repeat 2 0 go until again', 2)):
            with self.subTest(order=order):
                script, answer = self.steer_text(f'0 run 1\n{order}\n', elf)
                self.assertEqual(answer.stderr, b'')
                self.assertEqual(len(script.read_text().splitlines()), lines)
        self.refusal('0 run 1\n0 go until again #4\n', 'the run is over: end exit 0', elf)

    def test_the_drains_before_a_store(self):
        elf = assemble(self.folder, '\n'.join(['sd a0, -8(sp)'] * 3))
        script, _ = self.steer_text(f'0 run 1\n0 exec x3\n0 drain until {START + 4:#x}\n', elf)
        self.assertEqual(script.read_text(), '0 run 1\n' + '0 exec\n' * 3 + '0 drain\n' * 2)
        self.refusal(f'0 run 1\n0 exec x1\n0 drain until {START + 4:#x}\n', 'no store of 0x1007c waits on hart 0', elf)
        script, _ = self.steer_text('0 run 1\n0 exec x3\n0 go preempt\n', elf)
        self.assertEqual(script.read_text(), '0 run 1\n' + '0 exec\n' * 3 + '0 drain\n' * 3 + '0 preempt\n')

    def test_the_rest_by_the_rule(self):
        script, answer = self.steer_text('0 run 1\n0 go until give\n1 run 2\n1 go until give\nfinish\n')
        self.assertEqual((answer.returncode, answer.stderr), (0, b''))
        self.assertEqual(self.played(script), 'end exit 1')
        script, _ = self.steer_text('finish\n')
        self.assertEqual(self.played(script), 'end exit 0')

    def test_a_loop_goes_as_the_rule_has_it(self):
        """`go` makes the drains that `finish` makes, and needs few calls of the program for a loop of many stores."""
        elf, (counting, calls) = assemble(self.folder, LOOP), counting_program(self.folder)
        script, answer = self.steer_text('0 run 1\n0 go\n', elf, '--program', counting)
        self.assertEqual(answer.returncode, 0, answer.stderr)
        made, asked = script.read_text().splitlines(), calls.read_text().count('\n')
        script, _ = self.steer_text('finish\n', elf)
        self.assertEqual(made, script.read_text().splitlines())
        self.assertGreater(made.count('0 drain'), 250)
        self.assertLess(asked, 120)

    def test_visits_in_a_loop(self):
        """The K-th visit of a place is that of the log."""
        elf = assemble(self.folder, LOOP)
        store = START + 4 * 4
        script, _ = self.steer_text('finish\n', elf)
        played = lens('play', script, elf).stdout.decode().splitlines()
        visits = [at for at, line in enumerate(played[3:]) if line.endswith(f'{store:016x}') and ' exec ' in line]
        for visit in (1, 2, 60, len(visits)):
            with self.subTest(visit=visit):
                made, _ = self.steer_text(f'0 run 1\n0 go until {store:#x} #{visit}\n', elf)
                count = len(made.read_text().splitlines())
                self.assertIn(count, range(visits[visit - 1] - 8, visits[visit - 1] + 1))
                self.assertEqual({'0 drain'} | {made.read_text().splitlines()[-1]}, {'0 drain', '0 exec'})

    def test_a_ninth_store(self):
        elf = assemble(self.folder, '\n'.join(['sd a0, -8(sp)'] * 9))
        self.refusal(
            '0 run 1\n0 exec x9\n',
            'after 8 of these events hart 0 stands at _start+0x20 (sd a0,-8(sp)) with thread 1, and 8 stores still '
            'wait, which is as many as may (the program: fault script 10)',
            elf,
        )

    def test_a_thread_that_has_ended(self):
        lines = BOTH_INSIDE.read_text().splitlines()
        ended = '\n'.join(lines[: lines.index('1 drain all') + 2])
        self.refusal(f'{ended}\n1 run 2\n', 'thread 2 isn\'t ready: it last made ecall exit at main+0x5c')

    def test_the_end_and_the_limit(self):
        whole = BOTH_INSIDE.read_text()
        self.refusal(f'{whole}0 exec\n', 'the run is over: end exit 1')
        self.refusal('0 run 1\n0 exec all\n', 'the run is over: end limit', PETERSON, '--steps', 10)

    def test_the_fence_refuses_what_the_lock_alone_takes(self):
        _, answer = self.steer(BOTH_INSIDE, FENCED)
        self.assertIn(
            'line 6: \'0 exec until give\': after 13 of these events hart 0 stands at take+0x24 (fence rw,rw), '
            'peterson.c:21, with thread 1, and 2 stores still wait: ',
            answer.stderr.decode(),
        )

    def test_no_program(self):
        answer = lens(
            'steer', BOTH_INSIDE, PETERSON, '-o', self.folder / 'it', '--program', self.folder / 'nothing'
        )
        self.assertEqual((answer.returncode, answer.stderr.count(b'\n')), (2, 1))


if __name__ == '__main__':
    unittest.main()
