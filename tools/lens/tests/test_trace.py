"""The trace, read by the rules of the trace-event format: fields of each kind of event, slices that nest,
arrows with both ends."""
import collections
import json
import tempfile
import unittest
from pathlib import Path

from lens.program import HANDLER_RETURN
from lens.trace import trace_text
from lens.trace_text import parse_trace
from lens.values import Values

from .common import (
    FOUND,
    GOLDEN,
    PETERSON,
    START,
    TRACES,
    assemble,
    found,
    history,
    kept_runs,
    lens,
    needs_objdump,
    needs_program,
    output_text,
    values,
)
from .trace_format import FLOW, wrongs

COUNTER = FOUND.parents[1] / 'percpu_counter' / 'percpu_counter.elf'
BARRIER = """
    li a7, 283
    ecall
1:  j 1b
"""


def slices(events, *categories):
    """The slices of single steps of some kinds."""
    return [event for event in events if event['ph'] == 'X' and event['cat'] in categories]


def arrows(events):
    """Each flow: its name, and where it starts, steps and ends, as hart and step."""
    flows = collections.defaultdict(list)
    for event in events:
        if event['ph'] in FLOW:
            flows[event['name'], event['id']].append((event['tid'], event['ts']))
    return [(name, *points) for (name, _), points in flows.items()]


class Traces(unittest.TestCase):
    maxDiff = None

    def check(self, made, told=None):
        """The events of a trace, in which nothing is wrong."""
        text = ''.join(trace_text(made, told))
        self.assertEqual(wrongs(text), [])
        return json.loads(text)['traceEvents']

    def test_found_run(self):
        events = self.check(found())
        names = collections.Counter(event['name'] for event in events)
        self.assertEqual(names['call clone'] + names['call exit'], 2 + 1)
        self.assertEqual(names['store enters memory'], 2 * len(found().drained))
        lanes = {
            (event['pid'], event['tid']): event['args']['name']
            for event in events
            if event['name'] == 'thread_name'
        }
        self.assertEqual(
            lanes, {(1, 0): 'hart 0', (1, 1): 'hart 1', (2, 1): 'thread 1', (2, 2): 'thread 2'}
        )

    def test_every_example(self):
        for run, elf in kept_runs():
            with self.subTest(run=run.name):
                self.check(history(run, elf))

    def test_what_was_read_and_written(self):
        """An addition that is lost: both threads read 0, and main sees the second store alone."""
        events = self.check(found(), values(FOUND, PETERSON, 'found.trace'))
        names = {one['ts']: one['name'] for one in slices(events, 'exec', 'drain') if 'count' in one['name']}
        due = {
            75: 'count = 0, since the start',
            78: 'count = 1, waits',
            87: 'count = 0, since the start',
            94: 'drain count = 1 in place of 0',
            96: 'count = 1, waits',
            121: 'drain count = 1 in place of 1',
            126: 'count = 1, store of step 96 by thread 1',
            267: 'count = 1, store of step 96 by thread 1',
        }
        self.assertEqual(names, due)
        self.assertEqual(
            [arrow for arrow in arrows(events) if any(point[1] in due for point in arrow[1:])],
            [
                ('store enters memory', (0, 78), (0, 94)),
                ('store enters memory', (1, 96), (1, 121), (1, 126)),
                ('seen by a load', (1, 121), (0, 267)),
            ],
        )

    @needs_objdump
    def test_golden(self):
        """All but the line that says the names of the files."""
        told = values(TRACES / 'restarted.output', COUNTER, 'restarted.trace')
        made = ''.join(trace_text(told.history, told)).splitlines()[:-1]
        self.assertEqual(made, (GOLDEN / 'restarted.json').read_text().splitlines())

    def test_a_store_that_is_seen_while_it_waits(self):
        """A load of the same hart, and behind the drain one of another."""
        with tempfile.TemporaryDirectory() as name:
            folder = Path(name)
            elf = assemble(folder, 'sd a0,0(sp)\nld a1,0(sp)\nld a2,0(sp)\nnop')
            records = [
                ('0 run 1', START, ''),
                ('0 exec 1', START, 'waits 0000000000020000 8 0000000000000001'),
                ('0 exec 1', START + 4, 'read 0000000000020000 8 0000000000000001 store 2'),
                ('0 drain 1', START + 8, f'wrote {0x20000:016x} 8 {1:016x} old {0:016x} line 2'),
                ('1 run 2', START + 8, ''),
                ('1 exec 2', START + 8, 'read 0000000000020000 8 0000000000000001 memory 4'),
            ]
            run = folder / 'run'
            run.write_text(output_text([f'{words} {pc:016x}' for words, pc, _ in records]))
            told = [
                f'{words} {pc:016x}\n  line {number}\n' + (f'  {fact}\n' if fact else '')
                for number, (words, pc, fact) in enumerate(records, 1)
            ]
            made = history(run, elf)
            trace = parse_trace('made', f'{"".join(told)}end open\n'.encode())
        self.assertEqual(
            arrows(self.check(made, Values(made, trace))),
            [
                ('seen by a load of its hart', (0, 2), (0, 3)),
                ('store enters memory', (0, 2), (0, 4), (1, 6)),
            ],
        )

    def test_command(self):
        with tempfile.TemporaryDirectory() as folder:
            made = Path(folder) / 'made.json'
            answer = lens('trace', FOUND, PETERSON, '-o', made)
            self.assertEqual((answer.returncode, answer.stdout, answer.stderr), (0, b'', b''))
            self.assertEqual(wrongs(made.read_text()), [])

    @needs_program
    def test_every_example_with_values(self):
        for run, elf in kept_runs():
            with self.subTest(run=run.name):
                answer = lens('trace', run, elf, '--values')
                self.assertEqual((answer.returncode, answer.stderr), (0, b''))
                self.assertEqual(wrongs(answer.stdout.decode()), [])

    def test_arrows_of_a_barrier(self):
        """A call of membarrier on hart 0, a `take` of hart 1, and the `done`."""
        with tempfile.TemporaryDirectory() as name:
            folder = Path(name)
            elf = assemble(folder, BARRIER)
            call, loop = 0x1007C, 0x10080
            steps = [
                ('0 run 1', 0x10078),
                ('0 exec 1', 0x10078),
                ('1 run 2', loop),
                ('0 exec 1', call),
                ('1 exec 2', loop),
                ('1 take 2', loop),
                ('0 done 1', loop),
                ('0 exec 1', loop),
            ]
            run = folder / 'run'
            run.write_text(output_text([f'{words} {pc:016x}' for words, pc in steps]))
            events = self.check(history(run, elf))
        self.assertEqual(
            arrows(events), [('membarrier asks', (0, 4), (1, 6)), ('membarrier done', (0, 4), (0, 7))]
        )
        marks = [event['name'] for event in slices(events, 'run', 'exec', 'take', 'done')]
        self.assertEqual(marks, ['run 1', 'run 2', 'call membarrier', 'take', 'done'])

    def test_a_restart(self):
        """A thread that leaves at one place, and goes on at another when it runs again."""
        with tempfile.TemporaryDirectory() as name:
            folder = Path(name)
            elf = assemble(folder, 'nop\nnop\nagain: nop')
            steps = [
                ('0 run 1', START),
                ('0 exec 1', START),
                ('0 preempt 1', START + 4),
                ('0 run 1', START + 4),
            ]
            run = folder / 'run'
            lines = [f'{words} {pc:016x}' for words, pc in [*steps, ('0 exec 1', START + 8)]]
            run.write_text(output_text(lines))
            made = history(run, elf)
        self.assertEqual(made.sent, {4: START + 8})
        marks = slices(self.check(made), 'run', 'preempt')
        self.assertEqual([event['name'] for event in marks], ['run 1', 'preempt 1', 'run 1, to again'])
        self.assertEqual(marks[2]['args']['restarted at'], 'again')

    def test_a_handler(self):
        """A signal between the instruction that says which call comes and the call: the handler returns to the
        call, which is the one that was meant."""
        with tempfile.TemporaryDirectory() as name:
            folder = Path(name)
            elf = assemble(folder, 'li a7, 178\necall\nnop\nhandler: li a7, 64\nret')
            steps = [
                ('0 run 1', START),
                ('0 exec 1', START),
                ('0 signal 1', START + 4),
                ('0 exec 1', START + 12),
                ('0 exec 1', START + 16),
                ('0 exec 1', HANDLER_RETURN),
                ('0 exec 1', HANDLER_RETURN + 4),
                ('0 exec 1', START + 4),
                ('0 exec 1', START + 8),
            ]
            run = folder / 'run'
            run.write_text(output_text([f'{words} {pc:016x}' for words, pc in steps]))
            made = history(run, elf)
        self.assertEqual(made.sent, {3: START + 12})
        marks = slices(self.check(made), 'run', 'signal', 'exec')
        self.assertEqual(
            [event['name'] for event in marks],
            ['run 1', 'signal, to handler', 'call rt_sigreturn', 'call gettid'],
        )
        self.assertEqual(marks[1]['args']['handler'], 'handler')


if __name__ == '__main__':
    unittest.main()
