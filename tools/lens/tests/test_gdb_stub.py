"""Answers to gdb's packets over a kept text, as bytes: no gdb and no built program is needed.

In the run both threads take a lock without a fence, and both add to `count`: thread 2 stores in step 78, and thread 1
in step 96.
"""
from __future__ import annotations

import unittest

from lens.gdb_stub import Stub
from lens.packets import Link, unescaped

from .recorded_runs import kept_recorded

COUNT, WANTS = 0x112DC, 0x112D0
"""Where the variables are; `test_addresses` compares them with the file."""
STORE_OF_2, STORE_OF_1, LAST = 78, 96, 276
ADD_STORE = 0x10274
"""The store of `count = count + 1`."""


class Gdb:
    """A gdb that has sent some packets: what it gets for one more."""

    def __init__(self) -> None:
        self.sent: list[bytes] = []
        self.stub = Stub(kept_recorded(), Link(lambda: b'', self.take))
        self.stub.link.is_acknowledged = False

    def take(self, packet: bytes) -> None:
        self.sent.append(unescaped(packet[1:-3]))

    def ask(self, text: str) -> str | None:
        """The answer; what is shown to the user is in `shown`."""
        self.sent = []
        return self.stub.answer(text)

    @property
    def shown(self) -> str:
        return ''.join(bytes.fromhex(one[1:].decode()).decode() for one in self.sent if one[:1] == b'O' and one != b'OK')

    def stop(self, text: str) -> tuple[str, int]:
        """A resumption: the beginning of its answer, up to the registers, and the place to which it came."""
        answer = self.ask(text) or ''
        return answer.partition('20:')[0], self.stub.place


class Facts(unittest.TestCase):
    def setUp(self) -> None:
        self.gdb = Gdb()

    def test_addresses(self) -> None:
        variables = {one.name: one.address for one in self.gdb.stub.recorded.program.variables}
        self.assertEqual((variables['count'], variables['wants']), (COUNT, WANTS))

    def test_what_is_supported(self) -> None:
        answer = self.gdb.ask('qSupported:multiprocess+;swbreak+') or ''
        for word in ('ReverseStep+', 'ReverseContinue+', 'ConditionalBreakpoints+', 'QPassSignals+', 'vContSupported+'):
            self.assertIn(word, answer.split(';'))
        self.assertEqual(self.gdb.ask('vCont?'), 'vCont;c;C;s;S;t;r')
        self.assertEqual(self.gdb.ask('qAttached'), '1')

    def test_the_target_has_no_system(self) -> None:
        """With GNU/Linux's ABI gdb would make steps by breakpoints of its own."""
        answer = self.gdb.ask('qXfer:features:read:target.xml:0,2000') or ''
        self.assertTrue(answer.startswith('l<?xml'))
        self.assertIn('<osabi>none</osabi>', answer)
        self.assertIn('<reg name="fp" bitsize="64" type="data_ptr" regnum="8"/>', answer)
        self.assertIn('<reg name="pc" bitsize="64" type="code_ptr" regnum="32"/>', answer)

    def test_texts_in_pieces(self) -> None:
        whole = (self.gdb.ask('qXfer:features:read:target.xml:0,2000') or '')[1:]
        first, second = (self.gdb.ask(f'qXfer:features:read:target.xml:{at:x},{900:x}') or '' for at in (0, 900))
        self.assertEqual((first[0], first[1:] + second[1:]), ('m', whole[:1800]))

    def test_all_threads_from_the_beginning(self) -> None:
        self.assertEqual(self.gdb.ask('qfThreadInfo'), 'm1,2')
        self.assertEqual(self.gdb.ask('qsThreadInfo'), 'l')
        rows = self.gdb.ask('qXfer:threads:read::0,1000') or ''
        self.assertIn('<thread id="2" name="thread 2">not created yet</thread>', rows)
        self.assertEqual(self.gdb.ask('Hg2'), 'OK')
        self.assertEqual(self.gdb.ask('g'), '0' * 16 * 33)
        self.assertEqual(self.gdb.ask('Hg3'), 'E01')
        self.assertEqual(self.gdb.ask('T3'), 'E01')

    def test_memory(self) -> None:
        """As many bytes as are there; nothing can be written."""
        self.assertEqual(self.gdb.ask(f'm{COUNT:x},4'), '00000000')
        end = 0x4000000000
        self.assertEqual(self.gdb.ask(f'm{end - 2:x},4'), 'E14')
        self.assertEqual(len(self.gdb.ask(f'm{0x3FFFF40000 - 2:x},4') or ''), 4)
        for packet in ('M10000,1:00', 'G00', 'P1=00'):
            self.assertEqual(self.gdb.ask(packet), 'E01')

    def test_two_eyes(self) -> None:
        """Memory is what the hart of the thread sees that is looked at."""
        self.gdb.stub.spot.place = 71
        self.assertEqual([self.ask_of(thread) for thread in (1, 2)], ['0100000000000000', '0000000001000000'])
        self.assertEqual(self.gdb.ask(f'qRcmd,{b"view memory".hex()}'), 'OK')
        self.assertEqual([self.ask_of(thread) for thread in (1, 2)], ['0000000000000000', '0000000000000000'])

    def ask_of(self, thread: int) -> str | None:
        self.gdb.ask(f'Hg{thread:x}')
        return self.gdb.ask(f'm{WANTS:x},8')

    def test_wrong_packets(self) -> None:
        for packet, due in {'m1': 'E01', 'mx,1': 'E01', 'p30': 'E01', 'Y': '', 'qNothing': '', 'Z5,0,4': '', 'b?': ''}.items():
            with self.subTest(packet=packet):
                self.assertEqual(self.gdb.ask(packet), due)


class Resumptions(unittest.TestCase):
    def setUp(self) -> None:
        self.gdb = Gdb()

    def test_the_end(self) -> None:
        """It is no exit, so that one can go back; what the run prints is shown."""
        self.assertEqual(self.gdb.stop('vCont;c'), ('T05replaylog:end;thread:1;core:0;', LAST))
        self.assertEqual(self.gdb.shown, 'count 1: an addition is lost\n(The run ends here, after step 276: exit 1)\n')
        self.assertEqual(self.gdb.stop('bc'), ('T05replaylog:begin;thread:1;', 0))

    def test_a_step_of_one_thread(self) -> None:
        """Steps of others between are made."""
        self.gdb.stub.spot.place = STORE_OF_2
        self.assertEqual(self.gdb.stop('vCont;s:2;c')[1], STORE_OF_2 + 1)
        self.gdb.ask('T1')
        self.assertEqual(self.gdb.stop('bs')[0].partition('core')[0], 'T05thread:1;')

    def test_a_breakpoint_where_it_is(self) -> None:
        """It isn't told again where it was told last, and is where another thread's step came there."""
        self.gdb.ask(f'Z0,{ADD_STORE:x},4')
        self.assertEqual(self.gdb.stop('vCont;c'), ('T05swbreak:;thread:2;core:0;', STORE_OF_2 - 1))
        self.assertEqual(self.gdb.stop('vCont;c'), ('T05swbreak:;thread:1;core:1;', STORE_OF_1 - 1))
        self.assertEqual(self.gdb.stop('bc'), ('T05swbreak:;thread:2;core:0;', STORE_OF_2 - 1))
        self.gdb.ask(f'z0,{ADD_STORE:x},4')
        self.assertEqual(self.gdb.stop('bc')[1], 0)

    def test_hardware_breakpoints(self) -> None:
        self.gdb.ask(f'Z1,{ADD_STORE:x},4')
        self.assertEqual(self.gdb.stop('vCont;c')[0], 'T05hwbreak:;thread:2;core:0;')

    def test_conditions(self) -> None:
        """`count == 0` holds the first time, `0` never."""
        holds = f'X8,24{COUNT:08x}190e27'
        self.gdb.ask(f'Z0,{ADD_STORE:x},4;X3,220027')
        self.assertEqual(self.gdb.stop('vCont;c')[0], 'T05replaylog:end;thread:1;core:0;')
        self.gdb.ask(f'Z0,{ADD_STORE:x},4;X3,220027{holds}')
        self.assertEqual(self.gdb.stop('bc')[1], STORE_OF_2 - 1)
        self.assertEqual(self.gdb.ask(f'Z0,{ADD_STORE:x},4;X3,2200'), 'E01')

    def test_a_watchpoint_is_told_before_the_access(self) -> None:
        """gdb then steps over it; backwards it is told where the access isn't undone yet."""
        self.gdb.ask(f'Z2,{COUNT:x},4')
        self.assertEqual(self.gdb.stop('vCont;c'), (f'T05watch:{COUNT:x};thread:2;core:0;', STORE_OF_2 - 1))
        self.assertEqual(self.gdb.shown, '(step 78, hart 0, thread 2: stores count = 1, which enters memory in step 94)\n')
        self.assertEqual(self.gdb.stop('vCont;s:2')[1], STORE_OF_2)
        self.assertEqual(self.gdb.stop('vCont;c')[1], STORE_OF_1 - 1)
        self.gdb.stub.spot.place = STORE_OF_1 + 3
        self.assertEqual(self.gdb.stop('bc'), (f'T05watch:{COUNT:x};thread:1;core:1;', STORE_OF_1))
        self.gdb.ask('Hc1')
        self.assertEqual(self.gdb.stop('bs')[1], STORE_OF_1 - 1)

    def test_where_stores_enter(self) -> None:
        """A drain is told of the thread on the hart, and the step over it is that line alone."""
        self.gdb.ask(f'qRcmd,{b"watch enters".hex()}')
        self.gdb.ask(f'Z2,{COUNT:x},4')
        self.assertEqual(self.gdb.stop('vCont;c'), (f'T05watch:{COUNT:x};thread:2;core:0;', 93))
        self.assertIn('the store of step 78, count = 1, at add+0x10, peterson.c:31, enters memory', self.gdb.shown)
        self.assertEqual(self.gdb.stop('vCont;s:2')[1], 94)

    def test_writes_alone(self) -> None:
        """A watchpoint for accesses of which a command says so passes reads."""
        self.gdb.ask(f'Z4,{COUNT:x},4')
        self.assertLess(self.gdb.stop('vCont;c')[1], STORE_OF_2 - 1)
        self.gdb.ask(f'qRcmd,{f"writes {COUNT:#x}:4".encode().hex()}')
        self.assertEqual(self.gdb.stop('vCont;c')[1], STORE_OF_2 - 1)

    def test_only_a_resumed_thread_stops(self) -> None:
        """gdb steps thread 1 alone: the breakpoint of thread 2 on the way is only said."""
        self.gdb.ask(f'Z0,{ADD_STORE:x},4')
        self.gdb.stub.spot.place = STORE_OF_2 - 4
        answer, _ = self.gdb.stop('vCont;c:1')
        self.assertEqual(answer, 'T05swbreak:;thread:1;core:1;')
        self.assertIn('(The order of the run is fixed: the steps of other threads are made too.)', self.gdb.shown)
        self.assertIn('(On the way step 78: hart 0 exec thread 2', self.gdb.shown)

    def test_the_end_while_one_thread_steps(self) -> None:
        """gdb may be stepping off a breakpoint then, and an end of the history leaves it in that for ever."""
        self.gdb.stub.spot.place = LAST
        self.assertEqual(self.gdb.stop('vCont;s:1'), ('T00thread:1;core:0;', LAST))
        self.assertEqual(self.gdb.stop('vCont;s:1;c')[0], 'T05replaylog:end;thread:1;core:0;')

    def test_a_step_off_a_breakpoint_of_another_thread(self) -> None:
        """The thread is shown a step back, and the place stays."""
        self.gdb.ask(f'Z0,{ADD_STORE:x},4')
        self.gdb.stop('vCont;c')
        place = self.gdb.stub.place
        for packet in ('T1', f'z0,{ADD_STORE:x},4', 'Hc2'):
            self.gdb.ask(packet)
        answer, after = self.gdb.stop('bs')
        self.assertEqual((answer.partition('core')[0], after), ('T05thread:2;', place))
        for packet in ('T1', 'Hc0'):
            self.gdb.ask(packet)
        self.assertEqual(self.gdb.stop('bs')[0].partition('core')[0], 'T05thread:1;')
        self.assertLess(self.gdb.stub.place, place)

    def test_jumps(self) -> None:
        """The next resumption goes there, as a stop without a signal."""
        self.assertEqual(self.gdb.ask(f'qRcmd,{b"goto 72".hex()}'), 'OK')
        self.assertEqual(self.gdb.stub.place, 0)
        self.assertEqual(self.gdb.stop('bc'), ('T00thread:1;core:1;', 71))
        for words, said in {
            'goto 278': 'there is no step 278: the run has the steps 1 to 276\n',
            'goto x': 'monitor goto N|end\n',
            'gotoo': "there is no command 'gotoo'; the nearest is goto (monitor help)\n",
        }.items():
            self.gdb.ask(f'qRcmd,{words.encode().hex()}')
            self.assertEqual(self.gdb.shown, said)

    def test_a_new_start(self) -> None:
        self.gdb.stop('vCont;c')
        self.gdb.ask(f'qRcmd,{b"goto 72".hex()}')
        self.assertEqual(self.gdb.stop('vRun;'), ('T05thread:1;', 0))
        self.assertEqual(self.gdb.stop('vCont;c')[1], LAST)

    def test_a_range(self) -> None:
        """A thread steps on while it is inside of some addresses."""
        self.gdb.stub.spot.place = 1
        place = self.gdb.stop('vCont;r101ec,101fc:1;c')[1]
        self.assertEqual(self.gdb.stub.timeline.pc(1, place), 0x101FC)


if __name__ == '__main__':
    unittest.main()
