"""`lens races`: the kept text of one run, and what orders two accesses, row by row."""
import re
import tempfile
import unittest
from pathlib import Path

from lens.history import History
from lens.marks import Marks as Marking
from lens.output import parse_output
from lens.program import Program
from lens.races import list_races, races
from lens.trace_text import parse_trace
from lens.values import Values

from .common import EXAMPLES, FOUND, GOLDEN, PETERSON, START, assemble, compile_c, lens, needs_gcc, needs_program, output_text, values

CODE = {
    'store': 'sd a0, 0(a1)',
    'load': 'ld a0, 0(a1)',
    'add': 'amoadd.d a0, a0, (a1)',
    'call': 'ecall',
}
PLACES = {letter: f'{0x20000 + 8 * number:016x}' for number, letter in enumerate('XYZ')}
PLACES['x'] = f'{0x20004:016x}'
ZERO = '0' * 16

PUT = ['0 exec 1 store: waits X 8 V', '0 drain 1: wrote X 8 V old V line 1']
"""Hart 0 stores to X in step 1, and that enters in step 2."""


def stores(hart: int, thread: int, place: str, step: int) -> list[str]:
    """A store in a step, and its drain right behind it."""
    return [
        f'{hart} exec {thread} store: waits {place} 8 V',
        f'{hart} drain {thread}: wrote {place} 8 V old V line {step}',
    ]


CALL = f'call membarrier {8:016x}'

ROWS = {
    'a value that was read': ([*PUT, '1 exec 2 load: read X 8 V memory 2'], []),
    'a value that was read, and what is behind it': (
        [*PUT, *stores(0, 1, 'Y', 3), '1 exec 2 load: read Y 8 V memory 4', *stores(1, 2, 'X', 6)],
        [],
    ),
    'nothing': ([*PUT, *stores(1, 2, 'X', 3)], [(2, 4)]),
    'nothing: a read of an older value': (
        [PUT[0], '1 exec 2 load: read X 8 V start', PUT[1]],
        [(2, 3)],
    ),
    'other bytes of a word': (
        ['0 exec 1 store: waits X 4 V', '0 drain 1: wrote X 4 V old V line 1']
        + ['1 exec 2 load: read x 4 V start'],
        [],
    ),
    'some bytes of a word': ([*PUT, '1 exec 2 load: read x 4 V start'], [(2, 3)]),
    'nothing: both read before either enters': (
        [
            '0 exec 1 store: waits X 8 V',
            '1 exec 2 store: waits Y 8 V',
            '0 exec 1 load: read Y 8 V start',
            '1 exec 2 load: read X 8 V start',
            '0 drain 1: wrote X 8 V old V line 1',
            '1 drain 2: wrote Y 8 V old V line 2',
        ],
        [(4, 5), (3, 6)],
    ),
    'a load before a store in program order': (
        [
            '0 exec 1 load: read X 8 V start',
            *stores(0, 1, 'Y', 2),
            '1 exec 2 load: read Y 8 V memory 3',
            *stores(1, 2, 'X', 5),
        ],
        [],
    ),
    'no load behind a store that waits still': (
        [
            '0 exec 1 store: waits Y 8 V',
            '0 exec 1 load: read X 8 V start',
            '0 drain 1: wrote Y 8 V old V line 1',
            '1 exec 2 load: read Y 8 V memory 3',
            *stores(1, 2, 'X', 5),
        ],
        [(2, 6)],
    ),
    'a lock of AMOs that a store lets go': (
        [
            '0 exec 1 add: read Y 8 V start; wrote Y 8 V old V line 1',
            *stores(0, 1, 'X', 2),
            *stores(0, 1, 'Y', 4),
            '1 exec 2 add: read Y 8 V memory 5; wrote Y 8 V old V line 6',
            *stores(1, 2, 'X', 7),
        ],
        [],
    ),
    'AMOs alone': (
        [
            '0 exec 1 add: read X 8 V start; wrote X 8 V old V line 1',
            '1 exec 2 load: read X 8 V start',
        ],
        [],
    ),
    'a store behind an AMO that did not read it': (
        [*PUT, '1 exec 2 add: read X 8 V start; wrote X 8 V old V line 3'],
        [(2, 3)],
    ),
    'one hart': ([*PUT, '0 preempt 1: thread 1 ready', '0 run 2: thread 2 runs', *stores(0, 2, 'X', 5)], []),
    'a thread that moves': (
        [*PUT, '0 preempt 1: thread 1 ready', '1 run 1: thread 1 runs', *stores(1, 1, 'X', 5)],
        [],
    ),
    'a thread that comes, by itself': (
        [*PUT, '0 preempt 1: thread 1 ready', '1 run 2: thread 2 runs', *stores(1, 2, 'X', 5)],
        [(2, 6)],
    ),
    'clone': (
        [*PUT, '0 exec 1 call: call clone; thread 2 created', '1 run 2: thread 2 runs']
        + stores(1, 2, 'X', 5),
        [],
    ),
    'a wake': (
        [*PUT, '0 exec 1 call: call futex; thread 2 woken', '1 run 2: thread 2 runs', *stores(1, 2, 'X', 5)],
        [],
    ),
    'a signal': (
        [*PUT, '0 exec 1 call: call tkill; signal 10 posted 2', '1 signal 2: signal 10 delivered kills']
        + stores(1, 2, 'X', 5),
        [],
    ),
    'a barrier that is taken': (
        [
            '0 exec 1 load: read X 8 V start',
            f'1 exec 2 call: {CALL}; answer later; barrier begins 0',
            '0 take 1: taken 1 restart no',
            '1 done 2: barrier returns',
            *stores(1, 2, 'X', 5),
        ],
        [],
    ),
    'a barrier, and what comes behind it on the other hart': (
        [
            *stores(1, 2, 'X', 1),
            f'1 exec 2 call: {CALL}; answer later; barrier begins 0',
            '0 take 1: taken 1 restart no',
            *stores(0, 1, 'X', 5),
        ],
        [],
    ),
    'no barrier that is begun after': (
        [
            *stores(1, 2, 'X', 1),
            '0 exec 1 store: waits X 8 V',
            f'1 exec 2 call: {CALL}; answer later; barrier begins 0',
            '0 drain 1: wrote X 8 V old V line 3',
            '0 take 1: taken 1 restart no',
        ],
        [(2, 5)],
    ),
    'a barrier with nobody to wait for, and who left before': (
        [*PUT, '0 preempt 1: thread 1 ready', f'1 exec 2 call: {CALL}; answer V', *stores(1, 2, 'X', 5)],
        [],
    ),
    'a barrier with nobody to wait for, and who comes after': (
        [*PUT, f'0 exec 1 call: {CALL}; answer V', '1 run 2: thread 2 runs', *stores(1, 2, 'X', 5)],
        [],
    ),
    'no registration': (
        [*PUT, f'0 exec 1 call: call membarrier {16:016x}; answer V', '1 run 2: thread 2 runs']
        + stores(1, 2, 'X', 5),
        [(2, 6)],
    ),
    'a write of the kernel': ([*PUT, '1 exec 2 call: call clone; wrote X 4 V line 3'], [(2, 3)]),
}
"""What orders two accesses (or that nothing does): the events, and the steps of the pairs that are found."""


def told(elf: Path, events: list[str]) -> Values:
    """A run of these events, each with its facts behind a colon; an `exec` names its instruction."""
    log, facts = [], []
    for event in events:
        head, _, rest = event.partition(':')
        hart, kind, thread, *name = head.split(' ')
        at = START + 4 * list(CODE).index(name[0]) if name else START
        log.append(f'{hart} {kind} {thread} {at:016x}')
        letters = PLACES | {'V': ZERO}
        words = [[letters.get(word, word) for word in fact.split()] for fact in rest.split(';') if fact]
        facts.append([' '.join(fact) for fact in words])
    output, program = parse_output('made', output_text(log).encode()), Program(str(elf))
    text = ''.join(
        f'{line}\n  line {number}\n' + ''.join(f'  {fact}\n' for fact in own)
        for number, (line, own) in enumerate(zip(log, facts), 1)
    )
    instructions = {step.number: program.instruction(step.pc) for step in output.steps if step.kind == 'exec'}
    return Values(History(output, program, instructions), parse_trace('made', f'{text}end open\n'.encode()))


class Orders(unittest.TestCase):
    def test_rows(self):
        with tempfile.TemporaryDirectory() as folder:
            elf = assemble(Path(folder), '\n'.join(CODE.values()))
            for name, (events, due) in ROWS.items():
                with self.subTest(row=name):
                    found = races(told(elf, events))
                    pairs = [(race.first.step.number, race.second.step.number) for race in found]
                    self.assertEqual(pairs, due)


class Golden(unittest.TestCase):
    maxDiff = None

    def test_golden(self):
        """The variables by which the lock waits, and the counter that it doesn't keep."""
        listed = '\n'.join(list_races(values(FOUND, PETERSON, 'found.trace')))
        self.assertEqual(f'{listed}\n', (GOLDEN / 'found.races').read_text())


MARKED = """#include "threads.h"
#include "calls.h"
static struct thread other;
static struct { int plain, atomic; volatile int often; } cells[2];
static int seen;
static void run(void *own) {
    (void)own;
    cells[1].plain = 1;
    __atomic_store_n(&cells[1].atomic, 1, __ATOMIC_SEQ_CST);
    cells[1].often = 1;
}
int main(void) {
    start_thread(&other, run, 0);
    for (int at = 1; at >= 0; at--) {
        seen += cells[at].plain;
        seen += __atomic_load_n(&cells[at].atomic,
                                __ATOMIC_SEQ_CST);
        seen += cells[at].often;
    }
    join_thread(&other);
    return 0;
}
"""


RACING = """#include "threads.h"
static struct thread other;
static int plain, mixed;
static volatile int often;
static void run(void *own) {
    (void)own;
    plain = 1;
    *(volatile int *)&mixed = 1;
    often = 1;
}
int main(void) {
    start_thread(&other, run, 0);
    plain = 2;
    mixed = 2;
    often = 2;
    join_thread(&other);
    return plain + mixed + often > 99;
}
"""
SEED = 4
"""One in whose run nothing orders the stores of the two threads."""
MARKED_STORES = {
    ('plain', 'made.c:7', ''),
    ('plain', 'made.c:13', ''),
    ('mixed', 'made.c:8', 'volatile'),
    ('mixed', 'made.c:14', ''),
    ('often', 'made.c:9', 'volatile'),
    ('often', 'made.c:15', 'volatile'),
}
"""Of each store its variable, its line, and how it is marked."""
ROW = re.compile(r' +step .*  hart [01]  thread [12]    store   (?P<mark>.{8})  \S+ +(?P<line>made\.c:[0-9]+)  ')


class OfARun(unittest.TestCase):
    """The run of a compiled program, in which the sides of pairs are marked, or one of them, or none."""

    @needs_gcc
    @needs_program
    def test_marks(self) -> None:
        with tempfile.TemporaryDirectory() as name:
            elf = compile_c(Path(name), RACING)
            every, plain = (self.shown(elf, *words) for words in ((), ('--plain',)))
        found = '3 pairs of lines that nothing orders in this run'
        self.assertEqual(every, (MARKED_STORES, f'{found}; end exit 0'))
        left = {store for store in MARKED_STORES if store[0] != 'often'}
        said = f'{found}; 1 of them is on purpose on both sides, and left out; end exit 0'
        self.assertEqual(plain, (left, said))

    def shown(self, elf: Path, *words: str) -> tuple[set[tuple[str, ...]], str]:
        """The stores that `races` shows of a run, as above, and how many pairs it says there are."""
        answer = lens('races', '--seed', SEED, elf, *words)
        self.assertEqual((answer.returncode, answer.stderr), (0, b''))
        stores, variable, lines = set(), '', answer.stdout.decode().splitlines()
        for line in lines[:-2]:
            row = ROW.match(line)
            if row:
                stores.add((variable, row['line'], row['mark'].strip()))
            elif line:
                variable, _, _ = line.partition(',')
        return stores, lines[-2]


class Marks(unittest.TestCase):
    @needs_gcc
    def test_statements(self):
        """A line that reads atomically and stores plainly has both."""
        with tempfile.TemporaryDirectory() as name:
            program = Program(str(compile_c(Path(name), MARKED)))
            marks = Marking(program)
            at = {one.name: one.address for one in program.variables}
            for line, place, due in (
                (8, at['cells'] + 12, ''),
                (9, at['cells'] + 16, 'atomic'),
                (10, at['cells'] + 20, 'volatile'),
                (16, at['cells'] + 4, 'atomic'),
                (16, at['seen'], ''),
            ):
                with self.subTest(line=line, place=place - at['cells']):
                    (pc, *_) = program.addresses(f'made.c:{line}')
                    self.assertEqual(marks.mark(pc, place, 4), due)

    def test_what_nothing_marks_is_kept(self):
        with tempfile.TemporaryDirectory() as folder:
            elf = assemble(Path(folder), '\n'.join(CODE.values()))
            events, due = ROWS['nothing']
            listed = list(list_races(told(elf, events), is_plain=True))
        self.assertEqual((listed[0], len(due)), ('0x20000, once:', 1))
        self.assertEqual(listed[-2], '1 pair of lines that nothing orders in this run; end open')

    @needs_program
    def test_indices_and_members(self):
        text = lens('races', '--seed', 4, EXAMPLES / 'hazard' / 'hazard.elf').stdout.decode()
        self.assertIn('readers[0].hazard, 3 times:', text)

    def test_plain(self):
        """Each variable of this lock is volatile."""
        listed = list(list_races(values(FOUND, PETERSON, 'found.trace'), is_plain=True))
        said = '5 pairs of lines that nothing orders in this run; 5 of them are on purpose on both sides, and left out; end exit 1'
        self.assertEqual(listed[:-1], [said])


if __name__ == '__main__':
    unittest.main()
