"""Reading the text of `trace`: its facts, and texts that are none."""
import unittest

from lens.facts import (
    Answer,
    AreaWord,
    BarrierBegins,
    BarrierReturns,
    Called,
    Faulted,
    Interrupted,
    Killed,
    Lost,
    Other,
    Read,
    Register,
    Reservation,
    SequenceBegins,
    SequenceEnds,
    Signal,
    Taken,
    ThreadState,
    Waits,
    Wrote,
    Zeroed,
    fact_of,
)
from lens.output import Step
from lens.trace_text import NotATrace, parse_trace

from .common import FOUND, PETERSON, TRACES, history

AT, VALUE = 0x2_0008, 0x7
A, V = f'{AT:016x}', f'{VALUE:016x}'

FACTS = {
    f'read {A} 8 {V} start': Read(AT, 8, VALUE, 'start', None),
    f'read {A} 1 {V} memory 12': Read(AT, 1, VALUE, 'memory', 12),
    f'read {A} 4 {V} store 3': Read(AT, 4, VALUE, 'store', 3),
    f'waits {A} 8 {V}': Waits(AT, 8, VALUE),
    f'wrote {A} 8 {V} old {A} line 3': Wrote(AT, 8, VALUE, AT, 3),
    f'wrote {A} 4 {V} line 9': Wrote(AT, 4, VALUE, None, 9),
    f'zeroed {A} 4096': Zeroed(AT, 4096),
    f'reserved {A}': Reservation('reserved', AT),
    f'used {A}': Reservation('used', AT),
    f'failed {A}': Reservation('failed', AT),
    f'ended {A}': Reservation('ended', AT),
    f'lost 1 {A} by {V}': Lost(1, AT, VALUE),
    f'x6 t1 {V}': Register(None, 6, 't1', VALUE),
    f'thread 2 x10 a0 {V}': Register(2, 10, 'a0', VALUE),
    'thread 2 created': ThreadState(2, 'created', None),
    f'thread 2 sleeps {A}': ThreadState(2, 'sleeps', AT),
    f'area rseq_cs {V}': AreaWord('rseq_cs', VALUE),
    f'call futex {A} {V}': Called('futex', (AT, VALUE)),
    'call 500': Called('500', ()),
    f'answer {V}': Answer(VALUE, None, False),
    'answer later': Answer(None, None, True),
    'error EAGAIN': Answer(None, 'EAGAIN', False),
    'no answer': Answer(None, None, False),
    'barrier begins 0 2': BarrierBegins((0, 2)),
    'barrier returns': BarrierReturns(),
    'taken 0 2 restart yes': Taken((0, 2), True),
    'interrupted nothing': Interrupted('nothing', None, None, None),
    'interrupted cleared': Interrupted('cleared', None, None, None),
    f'interrupted aborted {A} {V}': Interrupted('aborted', None, AT, VALUE),
    f'interrupted killed version {A} {V}': Interrupted('killed', 'version', AT, VALUE),
    f'interrupted killed descriptor {A} none': Interrupted('killed', 'descriptor', AT, None),
    'signal 10 posted 1': Signal(10, 'posted', 1, None, None),
    'signal 10 dropped 1': Signal(10, 'dropped', 1, None, None),
    'signal 10 delivered kills': Signal(10, 'delivered', None, None, None),
    f'signal 10 delivered handler {A} frame {V}': Signal(10, 'delivered', None, AT, VALUE),
    f'fault 11 not-readable {A}': Faulted(11, 'not-readable', AT),
    'killed area-words': Killed('area-words'),
    'killed signature': Killed('signature'),
    f'sequence begins {A} 12 {V}': SequenceBegins(AT, 12, VALUE),
    f'sequence ends cut {A} first 3 last 5': SequenceEnds('cut', AT, 3, 5),
    'sequence ends left first 3 last 5': SequenceEnds('left', None, 3, 5),
    'sequence ends cut first 3 last 5': Other('sequence ends cut first 3 last 5'),
    'warmed 3': Other('warmed 3'),
    f'read {A} 8': Other(f'read {A} 8'),
    'thread 2 dreams': Other('thread 2 dreams'),
}

NO_LOG_LINE = 'it is no text of `trace`: a log line "HART KIND THREAD PC" is due in line 1'
NONE = {
    '': 'it is no whole text of `trace`: a line "end REASON" is due where it ends',
    'end open': 'it is no whole text of `trace`: a line "end REASON" is due where it ends',
    'fault script 3\n': 'it is no whole text of `trace`: a line "end REASON" is due where it ends',
    'console 0\n\nlog 0\nend open\n': f"{NO_LOG_LINE}, and 'console 0' came",
    '  line 1\nend open\n': f"{NO_LOG_LINE}, and '  line 1' came",
    f'0 run 1 {A}\n  line 1\n  warmed 3\nrubbish\n  line 2\nend open\n': (
        'it is no text of `trace`: a log line "HART KIND THREAD PC" is due in line 4, and \'rubbish\' came'
    ),
    f'0 run 1 {A}\nend open\n': 'it is no text of `trace`: a line "  line N" is due in line 2, and \'\' came',
}


class Facts(unittest.TestCase):
    def test_each_form(self):
        for line, fact in FACTS.items():
            with self.subTest(line=line):
                self.assertEqual(fact_of(line), fact)
                self.assertIs(type(fact_of(line)), type(fact))


class Texts(unittest.TestCase):
    def test_a_run(self):
        """Its lines are those of the output, and every fact of it is known."""
        trace = parse_trace('found', (TRACES / 'found.trace').read_bytes())
        self.assertEqual([record.step for record in trace.records], history(FOUND, PETERSON).output.steps)
        self.assertEqual((trace.end, trace.waiting), ('exit 1', {}))
        self.assertFalse([fact for record in trace.records for fact in record.of_kind(Other)])

    def test_a_span_and_sleepers(self):
        text = f'0 run 1 {A}\n  line 7\n  warmed 3\nthread 1 waiting {A}\nthread 2 waiting {V}\nend stuck\n'
        trace = parse_trace('span', text.encode())
        self.assertEqual(trace.records, [(Step(7, 0, 'run', 1, AT), '  warmed 3\n')])
        self.assertEqual(trace.records[0].facts, (Other('warmed 3'),))
        self.assertEqual((trace.end, trace.waiting), ('stuck', {1: AT, 2: VALUE}))
        self.assertEqual(parse_trace('none', b'end open\n').records, [])

    def test_texts_that_are_none(self):
        for text, words in NONE.items():
            with self.subTest(text=text), self.assertRaises(NotATrace) as raised:
                parse_trace('it', text.encode())
            self.assertEqual(str(raised.exception), f'it: {words}')


if __name__ == '__main__':
    unittest.main()
