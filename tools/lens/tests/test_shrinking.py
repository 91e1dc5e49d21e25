"""`lens shrink`: how stretches are left out and put together, over runs that are made up; which drains are
foreseen; the kept steers of two runs, which lead to the same end; and searches that are stopped."""
import os
import signal
import subprocess
import sys
import tempfile
import unittest
from collections import Counter
from pathlib import Path

from lens.foresight import Foresight
from lens.output import DRAIN, EXEC, PREEMPT, RUN, Outline
from lens.program import Program
from lens.progress import Progress
from lens.reducing import Reducing
from lens.stopping import Stop, Stopped
from lens.stretches import (
    FORESEEN,
    Piece,
    Stretch,
    cost_of,
    in_turn,
    joined,
    script_of,
    split_at,
    stretches_of,
)
from lens.trials import Run, Trials

from .common import (
    EXAMPLES, GOLDEN, LENS, PETERSON, PROGRAM, ROOT, TIMEOUT, assemble, counting_program, found, lens, needs_program,
    toolchain,
)

HAZARD = EXAMPLES / 'hazard_plain'
COMMON = EXAMPLES / 'common'
TRAP = Path(__file__).with_name('trap.c')
SUMS = Path(__file__).with_name('sums.c')
SPIN = Path(__file__).with_name('spin.c')
MOST_CALLS = 250
"""So often the program is called at most to shrink a run of 25,000 steps in which two threads spin. It was some
120 times on 1 December 2026, and 904 before spinning was foreseen."""
COUNTED_CLOCK = f'''
import itertools, sys, time
sys.path[:0] = {[str(ROOT / 'tools' / name) for name in ('runs', 'lens')]!r}
from lens.cli import main
looks = itertools.count()
time.monotonic = lambda: next(looks) / 64
sys.exit(main())
'''
"""`lens` with a clock of its own. What waits for others has taken the other one before."""
OPTIONS = '-g -march=rv64ima -mabi=lp64 -O2 -ffreestanding -msmall-data-limit=0 -nostdlib -static -Wl,-no-pie'


def script(stretches):
    """The lines of a script that makes stretches of threads whose ways aren't known."""
    return script_of(Foresight.__new__(Nothing).pieces(enumerate(stretches))).decode().splitlines()


class Nothing(Foresight):
    """Knows no way, and of no thread who made it."""

    ways = {}
    born = {}


class Stretches(unittest.TestCase):
    def test_events_go_where_their_thread_runs(self):
        stretches = [
            Stretch(0, RUN, 1, 1),
            Stretch(0, EXEC, 1, 1),
            Stretch(0, PREEMPT, 1, 1),
            Stretch(1, RUN, 1, 1),
            Stretch(1, EXEC, 1, 1),
            Stretch(0, PREEMPT, 2, 1),
        ]
        self.assertEqual(script(stretches), ['0 run 1', '0 exec', '0 preempt', '1 run 1', '1 exec'])
        self.assertEqual(script(stretches[:2] + stretches[4:]), ['0 run 1', '0 exec', '0 exec'])
        self.assertEqual(script(stretches[:3] + stretches[4:]), ['0 run 1', '0 exec', '0 preempt'])

    def test_stretches_of_one_thread_are_joined(self):
        first, second, other = Stretch(0, EXEC, 1, 3), Stretch(1, EXEC, 1, 4), Stretch(1, EXEC, 2, 1)
        self.assertEqual(joined((first, second, other)), (Stretch(0, EXEC, 1, 7), other))
        self.assertEqual(in_turn((first, other, second), (2, 1)), (other, Stretch(0, EXEC, 1, 7)))

    def test_pieces_are_split_at_an_event(self):
        pieces = [Piece(0, 0, EXEC, 1, 3), Piece(1, 0, DRAIN, 1, 2)]
        self.assertEqual(split_at(pieces, 2), ([Piece(0, 0, EXEC, 1, 2)], pieces[0]))
        self.assertEqual(split_at(pieces, 3), (pieces[:1], pieces[1]))
        self.assertEqual(split_at(pieces, 4), ([pieces[0], Piece(1, 0, DRAIN, 1, 1)], pieces[1]))

    def test_drains_come_where_they_are_needed(self):
        """Those of a run without its own drains are foreseen: none is early, and each call has its stores
        before it in memory."""
        steps = found().output.steps
        kept = tuple(one for one in stretches_of(steps) if one.kind != DRAIN)
        pieces = Foresight(found()).pieces(enumerate(kept))
        self.assertEqual(cost_of(pieces).drains, sum(step.kind == DRAIN for step in steps))
        others = script_of(piece for piece in pieces if piece.kind != DRAIN).decode().splitlines()
        self.assertEqual(others, [step.short_line() for step in steps if step.kind != DRAIN])

    def test_a_thread_begins_where_it_may(self):
        """Not where it runs already, nor on a hart that has another, nor before it was made; but where the one
        before has ended."""
        foresight, steps = Foresight(found()), found().output.steps
        threads = [step.thread for step in steps if step.kind == RUN]
        for left_out, begins in (
            ({(PREEMPT, 1)}, 'the first alone'),
            ({(EXEC, 1)}, 'none of thread 2'),
            (set(), 'all'),
        ):
            with self.subTest(left_out=left_out):
                kept = [one for one in stretches_of(steps) if (one.kind, one.thread) not in left_out]
                runs = [piece.thread for piece in foresight.pieces(enumerate(kept)) if piece.kind == RUN]
                due = {
                    'all': threads,
                    'the first alone': [1, *(thread for thread in threads if thread == 2)],
                    'none of thread 2': [thread for thread in threads if thread == 1],
                }
                self.assertEqual(runs, due[begins])

    def test_no_more_stores_enter_than_wait(self):
        foresight, steps = Foresight(found()), found().output.steps
        drains = [one._replace(count=8) if one.kind == DRAIN else one for one in stretches_of(steps)]
        pieces = foresight.pieces(enumerate(drains))
        self.assertLessEqual(cost_of(pieces).drains, sum(step.kind == DRAIN for step in steps))
        waiting = Counter()
        for piece in pieces:
            waiting[piece.hart] -= piece.count if piece.kind == DRAIN else 0
            if piece.kind == EXEC:
                pcs = foresight.ways[piece.thread].pcs[piece.at : piece.at + piece.count]
                waiting[piece.hart] += sum(foresight.instruction(pc).is_plain_store for pc in pcs)
            self.assertGreaterEqual(waiting[piece.hart], 0)

    def test_a_thread_that_spins_needs_no_drains(self):
        """In the loop that looks at the lock a thread spins; at the store before it, and in a loop with a store, it
        doesn't."""
        with tempfile.TemporaryDirectory() as name:
            program = Program(str(assemble(Path(name), SPINNING)))
        foresight = Nothing.__new__(Nothing)
        foresight.program = program
        spins = {at: foresight.spins_at(program.addresses(f'_start+{4 * at:#x}')[0]) for at in range(8)}
        self.assertEqual(spins, {0: False, 1: False, 2: True, 3: True, 4: True, 5: False, 6: False, 7: False})

    def test_early_drains_are_found(self):
        """Step 12 comes after a store whose thread is preempted next, and step 74 before a load."""
        steps = found().output.steps
        lines = [step.line().encode() for step in steps]
        pieces = [Piece(step.number, step.hart, step.kind, step.thread) for step in steps]
        for step, is_early in ((12, False), (74, True)):
            at = step - 1
            changed = pieces[:at] + [pieces[at]._replace(origin=FORESEEN)] + pieces[at + 1 :]
            with self.subTest(step=step):
                self.assertEqual(Foresight(found()).first_early(changed, lines), at if is_early else None)

    def test_a_way_that_goes_elsewhere_is_found_again(self):
        """The nearest instruction with an address is taken, before or after."""
        way = Foresight(found()).ways[1]
        pc = way.pcs[5]
        visits = way.visits[pc]
        self.assertEqual(way.nearest(pc, visits[0]), visits[0])
        self.assertEqual(way.nearest(pc, visits[-1] + 3), visits[-1])
        self.assertEqual(way.nearest(b'0' * 16, 0), -1)


SPINNING = """
    nop
    sw a0, 0(a1)
1:  lw a2, 0(a1)
    addi a2, a2, 1
    bnez a2, 1b
2:  sw a2, 0(a1)
    bnez a2, 2b
    ecall
"""


def steps_of(text):
    """Stretches of one instruction each: a letter is a thread."""
    return tuple(Stretch(0, EXEC, ord(letter), 1) for letter in text)


def text_of(stretches):
    return ''.join(chr(stretch.thread) * stretch.count for stretch in stretches)


class Reduced(unittest.TestCase):
    """Searches over runs that are made up: what holds is a matter of the letters."""

    def trials(self, is_wanted, stop=None, at_once=1):
        def attempt(stretches):
            if not is_wanted(text_of(stretches)):
                return None
            return Run(stretches, [Piece(0, *one) for one in stretches], Outline('it', b'', b'', 'exit 1'))

        return Trials(attempt, stop or Stop(), Progress(None), at_once)

    def shrunk(self, text, is_wanted, at_once=1):
        trials = self.trials(is_wanted, at_once=at_once)
        return text_of(Reducing(trials).shrink(steps_of(text))), trials

    def test_what_does_not_matter_is_left_out(self):
        text, trials = self.shrunk('abcdefgh' * 40, lambda text: 'c' in text and 'f' in text[text.find('c') :])
        self.assertEqual(text, 'cf')
        self.assertLess(trials.count, 60)

    def test_a_long_run_takes_few_trials(self):
        """Three of 30,000 stretches matter."""
        run = list('ab' * 15_000)
        run[9_000] = run[15_000] = run[29_000] = 'c'
        text, trials = self.shrunk(''.join(run), lambda text: text.count('c') == 3)
        self.assertEqual(text, 'ccc')
        self.assertLess(trials.count, 120)

    def test_switches_are_taken_out_before_instructions(self):
        """Each thread has to make all that it makes, and b begins before the last a."""
        run = 'ab' * 64

        def is_wanted(text):
            return text.count('a') == 64 == text.count('b') and text.find('b') < text.rfind('a')

        text, trials = self.shrunk(run, is_wanted)
        self.assertIn(len(stretches_in(text)), (2, 3))
        self.assertLess(trials.count, 150)

    def test_how_many_are_tried_at_once_changes_nothing(self):
        def is_wanted(text):
            return text.count('a') >= 3 and 'ba' in text

        answers = [self.shrunk('abcd' * 30, is_wanted, at_once) for at_once in (1, 2, 4)]
        self.assertEqual(len({text for text, _ in answers}), 1)
        self.assertEqual(len({trials.count for _, trials in answers}), 1)

    def test_the_best_is_kept_where_the_search_is_stopped(self):
        trials = self.trials(lambda text: 'c' in text, Stop(tries=5))
        with self.assertRaises(Stopped):
            Reducing(trials).shrink(steps_of('abcdefgh' * 40))
        self.assertLess(len(trials.best.stretches), 320)
        self.assertIn('c', text_of(trials.best.stretches))
        self.assertEqual((trials.stop.reason, trials.stop.status), ('the limit of 5 trials', 0))


def stretches_in(text):
    return joined(steps_of(text))


def on_one_processor():
    os.sched_setaffinity(0, {min(os.sched_getaffinity(0))})


def by_a_counted_clock(*words):
    """What `lens` answers to some words where each look at the clock finds it later by the same."""
    return subprocess.run([sys.executable, '-c', COUNTED_CLOCK, *map(str, words)], capture_output=True, timeout=TIMEOUT)


def slow_program(folder):
    """A program that does what the built one does, and waits before."""
    program = folder / 'slow'
    program.write_text(f'#!/bin/sh\nsleep 0.2\nexec {PROGRAM} "$@"\n')
    program.chmod(0o755)
    return program


def failing(elf, seeds):
    """The seeds of runs that end by a trap."""
    ends = {
        seed: subprocess.run([PROGRAM, 'draw', elf, f'--seed={seed}'], capture_output=True).stdout.splitlines()[-1]
        for seed in range(1, seeds + 1)
    }
    return [seed for seed, end in ends.items() if end == b'end killed 5']


@needs_program
class Shrunk(unittest.TestCase):
    def check(self, run, elf):
        """The steer is the kept one, and its script has the console and the end of the run."""
        with tempfile.TemporaryDirectory() as name:
            steer, script = Path(name, 'made.steer'), Path(name, 'made.script')
            answer = lens('shrink', run, elf, '-o', steer)
            self.assertEqual(answer.returncode, 0, answer.stderr)
            self.assertEqual(steer.read_text(), (GOLDEN / f'{run.stem}.shrunk').read_text())
            self.assertEqual(lens('steer', steer, elf).returncode, 0)
            played = lens('play', script, elf).stdout
            self.assertEqual(played.split(b'\nlog ')[0], run.read_bytes().split(b'\nlog ')[0])
            self.assertEqual(played.splitlines()[-1], run.read_bytes().splitlines()[-1])

    def test_a_lock(self):
        self.check(EXAMPLES / 'peterson' / 'both_inside.output', PETERSON)

    def test_the_store_that_has_to_wait(self):
        self.check(HAZARD / 'freed.output', HAZARD / 'hazard_plain.elf')

    def test_another_thread_ends_the_process_first(self):
        """Thread 1 stands between two instructions where thread 2 meets the trap: no later step of its hart
        says where."""
        with tempfile.TemporaryDirectory() as name:
            elf, steer = Path(name, 'trap.elf'), Path(name, 'made.steer')
            toolchain('gcc', *OPTIONS.split(), '-o', elf, COMMON / 'start.S', TRAP)
            for seed in failing(elf, 9):
                with self.subTest(seed=seed):
                    answer = lens('shrink', '--seed', seed, elf, '-o', steer)
                    self.assertEqual(answer.returncode, 0, answer.stderr)
                    self.assertIn(' go until ', steer.read_text())
                    self.assertEqual(lens('steer', steer, elf).returncode, 0)
                    played = lens('play', Path(name, 'made.script'), elf).stdout
                    self.assertEqual(played.splitlines()[-1], b'end killed 5')

    def test_a_long_run_of_threads_that_spin(self):
        """It takes few calls of the program: one that counts them is called, on one processor, so that no trial is
        begun that isn't needed."""
        with tempfile.TemporaryDirectory() as name:
            elf, (counting, calls) = Path(name, 'spin.elf'), counting_program(Path(name))
            toolchain('gcc', *OPTIONS.split(), '-o', elf, f'-I{COMMON}', COMMON / 'start.S', SPIN)
            words = [LENS, 'shrink', '--seed', '1', elf, '-o', Path(name, 'made.steer'), '--program', counting]
            answer = subprocess.run(words, capture_output=True, text=True, preexec_fn=on_one_processor, timeout=TIMEOUT)
            self.assertEqual(answer.returncode, 0, answer.stderr)
            steps = int(answer.stderr.split()[1])
            self.assertGreater(steps, 20_000)
            self.assertNotIn('may be shortened', answer.stderr)
            self.assertLess(calls.read_text().count('\n'), MOST_CALLS)

    def test_a_search_of_some_seconds(self):
        """It stops, says so, and gives the best so far; meanwhile it says how far it is. The clock goes on with
        each look at it, so that as much is done by then on a fast machine as on a slow one."""
        with tempfile.TemporaryDirectory() as name:
            elf, run = Path(name, 'sums.elf'), Path(name, 'sums.output')
            toolchain('gcc', *OPTIONS.split(), '-o', elf, f'-I{COMMON}', COMMON / 'start.S', SUMS)
            run.write_bytes(subprocess.run([PROGRAM, 'draw', elf, '--seed=60'], capture_output=True).stdout)
            answer = by_a_counted_clock('shrink', run, elf, '--seconds', 4, '--progress')
        self.assertEqual(answer.returncode, 0, answer.stderr)
        told = '--seconds 4 came after [0-9]+ trials'
        self.assertRegex(answer.stderr.decode(), f'It may be shortened further: {told}\n$')
        self.assertRegex(answer.stdout.decode(), f'\n# It may be shortened further: {told}')
        self.assertRegex(answer.stderr.decode(), '[0-9] s, [0-9]+ trials; the best so far: [0-9]+ steps, ')
        self.assertTrue(answer.stdout.splitlines()[-1].startswith(b'finish'))

    def test_a_signal_loses_nothing(self):
        """The program takes its time, so that the search isn't over when the signal comes."""
        for number, status in ((signal.SIGINT, 130), (signal.SIGTERM, 143)):
            with self.subTest(number=number), tempfile.TemporaryDirectory() as name:
                words = ['shrink', HAZARD / 'freed.output', HAZARD / 'hazard_plain.elf', '--progress']
                words += ['--program', slow_program(Path(name))]
                with subprocess.Popen([LENS, *words], stdout=subprocess.PIPE, stderr=subprocess.PIPE) as running:
                    shown = running.stderr.readline()
                    while b'the best so far: none' in shown:
                        shown = running.stderr.readline()
                    running.send_signal(number)
                    steer, said = running.communicate(timeout=TIMEOUT)
                self.assertNotIn(b'Traceback', said)
                self.assertEqual(running.returncode, status, said)
                self.assertIn(b'# It may be shortened further: ', steer)
                self.assertTrue(steer.splitlines()[-1].startswith(b'finish'))

    def test_a_run_that_was_left_open(self):
        answer = lens('shrink', EXAMPLES / 'threads' / 'sleeps.output', EXAMPLES / 'threads' / 'threads.elf')
        self.assertEqual(answer.returncode, 2)
        self.assertIn(b'has no end', answer.stderr)


if __name__ == '__main__':
    unittest.main()
