"""`lens calls`: the kept list of one run."""
import unittest

from lens.calls import FUTEX, form_of, futex_operation, name_of
from lens.trace_text import parse_trace
from lens.traced_calls import list_traced_calls, traced_calls
from lens.values import Values

from .common import EXAMPLES, FOUND, GOLDEN, PETERSON, TRACES, found, lens, needs_program, values

COUNTER = EXAMPLES / 'percpu_counter'
WAIT = """0 exec 1 0000000000010000
  line 1
  call futex 0000000000020000 0000000000000000 0000000000000002 0000000000000000
  answer later
  thread 1 sleeps 0000000000020000
  x10 a0 0000000000000000
1 exec 2 0000000000010008
  line 2
  call {call}
  answer 0000000000000001
  thread 1 woken
{told}end open
"""


class Names(unittest.TestCase):
    def test_one_that_is_there_one_that_is_not_and_one_that_nobody_makes(self):
        self.assertEqual([name_of(261), name_of(113), name_of(999)], ['prlimit64', 'clock_gettime', 'call 999'])


@needs_program
class Calls(unittest.TestCase):
    def test_those_of_a_counter(self):
        answer = lens('calls', COUNTER / 'preempted.output', COUNTER / 'percpu_counter.elf')
        self.assertEqual((answer.returncode, answer.stderr), (0, b''))
        self.assertEqual(answer.stdout.decode(), (GOLDEN / 'preempted.calls').read_text())

    def test_those_of_a_thread_that_sleeps(self):
        folder = EXAMPLES / 'threads'
        answer = lens('calls', folder / 'sleeps.output', folder / 'threads.elf', '--thread', 1)
        self.assertEqual(answer.returncode, 0)
        self.assertIn(b'futex(threads, FUTEX_WAIT, 2) = ?', answer.stdout)
        self.assertIn(b'5 calls; end open', answer.stdout)


class Traced(unittest.TestCase):
    """The calls by a trace, with what they wrote and whom they woke."""

    maxDiff = None
    RUNS = {
        'found': (FOUND, PETERSON),
        'restarted': (TRACES / 'restarted.output', COUNTER / 'percpu_counter.elf'),
    }

    def test_golden(self):
        for name, (run, elf) in self.RUNS.items():
            with self.subTest(run=name):
                listed = '\n'.join(list_traced_calls(values(run, elf, f'{name}.trace'), None))
                self.assertEqual(f'{listed}\n', (GOLDEN / f'{name}.calls').read_text())

    @needs_program
    def test_arguments_and_answers(self):
        """They are those that `inspect` gives."""
        for name, (run, elf) in self.RUNS.items():
            with self.subTest(run=name):
                listed = list_traced_calls(values(run, elf, f'{name}.trace'), None)
                calls = [line for line in listed if not line.startswith(' ' * 17)]
                self.assertEqual(calls, lens('calls', run, elf).stdout.decode().splitlines())

    def test_a_wait_answers_later(self):
        """A woken thread finds what the call itself left in a0, and one whose wait is broken EINTR."""
        for call, told, due in (
            ('futex 0000000000020000 0000000000000001 0000000000000001 0000000000000000', '', 0),
            ('tkill 0000000000000001 000000000000000a', '  thread 1 x10 a0 fffffffffffffffc\n', 2**64 - 4),
        ):
            with self.subTest(call=call):
                trace = parse_trace('a wait', WAIT.format(call=call, told=told).encode())
                first, _ = traced_calls(Values(found(), trace))
                self.assertEqual(first.answer, due)

    def test_operations_of_futex(self):
        """By their names, with the arguments that count."""
        for operation, name in (
            (0, 'FUTEX_WAIT'),
            (131, 'FUTEX_REQUEUE_PRIVATE'),
            (265, 'FUTEX_WAIT_BITSET|FUTEX_CLOCK_REALTIME'),
            (138, 'FUTEX_WAKE_BITSET_PRIVATE'),
            (5, '0x5'),
        ):
            self.assertEqual(futex_operation(operation), name)
        arguments = [0x20000, 132, 1, 2, 0x20004, 7]
        counted = [('p', 0x20000), ('futex', 132), ('d', 1), ('d', 2), ('p', 0x20004), ('d', 7)]
        self.assertEqual(form_of(FUTEX, arguments), counted)
        self.assertEqual(form_of(FUTEX, [0x20000, 138, 1, 0, 0, 7]), [*counted[:1], ('futex', 138), ('d', 1), ('mask', 7)])
        self.assertEqual(form_of(FUTEX, [0x20000, 129, 1, 2]), [*counted[:1], ('futex', 129), ('d', 1)])
        self.assertIsNone(form_of(999, arguments))

    def test_those_of_a_thread(self):
        listed = list(list_traced_calls(values(*self.RUNS['found'], 'found.trace'), 1))
        self.assertIn('write(1, "count 1: an addition is lost\\n", 29) = 29', '\n'.join(listed))


if __name__ == '__main__':
    unittest.main()
