"""The commands of `monitor` over a kept text, and those that ask the program."""
from __future__ import annotations

import unittest

from lens.gdb_stub import Stub
from lens.machine import Machine
from lens.monitor import HELP
from lens.packets import Link
from lens.recorded import Recorded

from .common import PETERSON, PROGRAM, needs_program
from .recorded_runs import kept_recorded

NEXT = 'before step 72: hart 1 exec thread 1 at take+0x2c, peterson.c:22, of 276'
HARTS = """\
hart 0 thread 2 pc 0000000000010268 id 1
hart 0 store of step 41: other+0x408:8 = &main+0x54, at run_other+0x8, peterson.c:34
hart 0 store of step 54: wants[1] = 1, at take+0x18, peterson.c:19
hart 0 store of step 60: turn = 0, at take+0x20, peterson.c:20
hart 1 thread 1 pc 0000000000010234 id 0
hart 1 store of step 59: wants[0] = 1, at take+0x18, peterson.c:19
hart 1 store of step 67: turn = 1, at take+0x20, peterson.c:20
thread 1 running 1
thread 2 running 0"""
EVENTS = """\
   step 71: hart 0 exec thread 2 at add, peterson.c:31
       x15 a5 0000000000011000
=> step 72: hart 1 exec thread 1 at take+0x2c, peterson.c:22
       read 00000000000112d4 4 0000000000000000 start
       x13 a3 0000000000000000"""
WRITER = """\
in memory: as since the start
waiting on hart 0: wants[1] = 1, by step 54: hart 0 exec thread 2 at take+0x18, peterson.c:19"""
WHY = """\
Thread 1 called exit at _start+0x18, start.S:14 (step 276): the process exited with 1.
The last line on the console is 'count 1: an addition is lost'.
Thread 1 wrote last, at main+0xd4, peterson.c:47 (calls.h:13) (step 266)."""


def asked(words: str, place: int = 71, recorded: Recorded | None = None) -> str:
    """What a command says at a place."""
    stub = Stub(recorded or kept_recorded(), Link(lambda: b'', lambda _: None))
    stub.spot.place = place
    return stub.monitor.answer(words)


class OfTheTimeline(unittest.TestCase):
    maxDiff = None

    def test_where(self) -> None:
        self.assertEqual(asked('step'), NEXT)
        self.assertEqual(asked('step', 276), 'after the last step, 276: exit 1')

    def test_writers(self) -> None:
        self.assertEqual(asked('writer wants[1]'), WRITER)
        entered = 'in memory: count = 1, by step 96: hart 1 exec thread 1 at add+0x10, peterson.c:31; it entered in step 121'
        self.assertEqual(asked('writer count', 276), entered)
        self.assertIn('has no variable \'nobody\'', asked('writer nobody'))

    def test_calls(self) -> None:
        shown = 'step 110: hart 0 exec thread 2 at main+0x5c, peterson.c:42 (threads.h:56): exit(0) = ?'
        self.assertEqual(asked('next-call exit'), shown)
        self.assertIn(': clone(', asked('previous-call'))
        self.assertEqual(asked('previous-call exit'), 'there is no earlier call of exit')
        self.assertEqual(asked('next-call', 276), 'there is no further call')

    def test_next_calls_one_after_another(self) -> None:
        """Each goes on from the place before the last."""
        stub = Stub(kept_recorded(), Link(lambda: b'', lambda _: None))
        found = []
        while not stub.monitor.answer('next-call').startswith('there is no'):
            stub.spot.place = stub.monitor.pending or 0
            found.append(stub.place + 1)
        self.assertEqual(found, [call.line for call in stub.timeline.calls])

    def test_help(self) -> None:
        lines = asked('help').splitlines()
        self.assertEqual(len(lines), len(HELP))
        self.assertEqual(asked(''), asked('help'))
        for name in HELP:
            self.assertTrue(any(line.startswith(f'monitor {name} ') for line in lines), name)

    def test_wrong_words(self) -> None:
        for words, due in {
            'goto': 'monitor goto N|end',
            'goto 0': 'there is no step 0: the run has the steps 1 to 276',
            'watch never': 'monitor watch made|enters|both',
            'view': 'monitor view hart|memory',
            'thread 3': 'the run has no thread 3',
            'writer': 'monitor writer NAME|0xAT[:SIZE]',
        }.items():
            with self.subTest(words=words):
                self.assertEqual(asked(words), due)


@needs_program
class OfTheProgram(unittest.TestCase):
    maxDiff = None

    def recorded(self) -> Recorded:
        kept = kept_recorded()
        machine = Machine(str(PROGRAM), str(PETERSON), ())
        return Recorded(kept.name, kept.program, machine, kept.timeline, kept.console)

    def test_harts(self) -> None:
        self.assertEqual(asked('harts', 71, self.recorded()), HARTS)

    def test_events(self) -> None:
        self.assertEqual(asked('events 1', 71, self.recorded()), EVENTS)
        self.assertTrue(asked('events 1', 276, self.recorded()).startswith('   step 276: hart 0 exec thread 1 '))

    def test_why(self) -> None:
        self.assertEqual(asked('why', 71, self.recorded()), WHY)


if __name__ == '__main__':
    unittest.main()
