"""The listing, against one that was read line by line and kept; and the lines of a run as a script."""
import tempfile
import unittest
from pathlib import Path

from lens.listing import Selection, list_run
from lens.subjects import steps_about

from .common import (
    EXAMPLES,
    FOUND,
    GOLDEN,
    PETERSON,
    TRACES,
    assemble,
    found,
    history,
    lens,
    needs_objdump,
    output_text,
    values,
)


class Listing(unittest.TestCase):
    maxDiff = None

    @needs_objdump
    def test_golden(self):
        self.assertEqual(
            lens('list', FOUND, PETERSON).stdout.decode(), (GOLDEN / 'found.listing').read_text()
        )

    @needs_objdump
    def test_golden_of_calls(self):
        answer = lens('list', EXAMPLES / 'threads' / 'sleeps.output', EXAMPLES / 'threads' / 'threads.elf')
        self.assertEqual(answer.stdout.decode(), (GOLDEN / 'sleeps.listing').read_text())

    @needs_objdump
    def test_golden_of_a_restart(self):
        folder = EXAMPLES / 'percpu_counter'
        run, elf = folder / 'preempted.output', folder / 'percpu_counter.elf'
        answer = lens('list', run, elf, '--around', 152, '--context', 20)
        self.assertEqual(answer.stdout.decode(), (GOLDEN / 'preempted.listing').read_text())

    @needs_objdump
    def test_golden_of_a_handler(self):
        folder = EXAMPLES / 'signal_in_sequence'
        run, elf = folder / 'inside.output', folder / 'signal_in_sequence.elf'
        answer = lens('list', run, elf, '--around', 167, '--context', 28)
        self.assertEqual(answer.stdout.decode(), (GOLDEN / 'inside.listing').read_text())

    @needs_objdump
    def test_golden_of_values(self):
        told = values(FOUND, PETERSON, 'found.trace')
        listed = '\n'.join(list_run(told.history, Selection(first=70, last=128), told))
        self.assertEqual(f'{listed}\n', (GOLDEN / 'found.values').read_text())

    @needs_objdump
    def test_golden_of_an_area(self):
        folder = EXAMPLES / 'percpu_counter'
        told = values(TRACES / 'restarted.output', folder / 'percpu_counter.elf', 'restarted.trace')
        listed = '\n'.join(list_run(told.history, Selection(first=100, last=160), told))
        self.assertEqual(f'{listed}\n', (GOLDEN / 'restarted.values').read_text())

    def rows(self, **chosen):
        return list(list_run(found(), Selection(**chosen)))[1:-2]

    def test_choosing(self):
        every = self.rows()
        self.assertEqual(len(every), 276)
        self.assertEqual(
            [row.split()[0] for row in self.rows(around=60, context=3)], list(map(str, range(57, 64)))
        )
        one, other = self.rows(thread=1), self.rows(thread=2)
        self.assertEqual(len(one) + len(other), 276)
        self.assertTrue(all(row.split()[1] == '2' for row in other))
        self.assertEqual(len(self.rows(hart=0)) + len(self.rows(hart=1)), 276)

    def test_a_span(self):
        listed = lens('list', FOUND, PETERSON, '--from', 60, '--to', 64).stdout.decode().splitlines()
        self.assertEqual([row.split()[0] for row in listed[1:-2]], list(map(str, range(60, 65))))

    def test_subjects(self):
        """Each subject has the steps that its kinds of events are."""
        made = found()
        kinds = {
            'switches': lambda step, before: step.kind in ('run', 'preempt') or step.hart != before,
            'drains': lambda step, before: step.kind == 'drain',
            'calls': lambda step, before: step.number in made.calls,
        }
        befores = [None, *(step.hart for step in made.output.steps)]
        for word, is_due in kinds.items():
            due = [step.number for step, before in zip(made.output.steps, befores) if is_due(step, before)]
            with self.subTest(word=word):
                self.assertEqual(sorted(steps_about(made, [word], [])), due)

    def test_a_word_that_is_no_subject(self):
        answer = lens('list', FOUND, PETERSON, '--only', 'drains,switch')
        self.assertEqual(answer.returncode, 2)
        self.assertIn(b"there is no word 'switch'; the nearest is switches", answer.stderr)

    def test_a_step_that_is_not_there(self):
        answer = lens('list', FOUND, PETERSON, '--around', 277)
        self.assertEqual(
            (answer.returncode, answer.stderr.decode()),
            (2, f'lens: {FOUND} has 276 steps, and no step 277\n'),
        )

    def test_standard_input(self):
        answer = lens('list', '-', PETERSON, '--around', 1, stdin=FOUND.read_bytes())
        self.assertIn('_start', answer.stdout.decode())


class Drains(unittest.TestCase):
    def test_drains_enter_stores_in_order(self):
        made = found()
        pairs = [(store.hart, store.number, drain) for drain, store in made.drained.items()]
        for hart in (0, 1):
            stores = [store for at, store, _ in pairs if at == hart]
            self.assertEqual(stores, sorted(stores))
        self.assertTrue(all(store < drain for _, store, drain in pairs))
        self.assertEqual(made.waiting, [])

    def test_a_store_that_faults_waits_nowhere(self):
        with tempfile.TemporaryDirectory() as name:
            folder = Path(name)
            elf = assemble(folder, 'sd a0, 0(sp)\nsd a0, 0(zero)')
            lines = [
                f'0 {what} 1 {pc:016x}'
                for what, pc in (('run', 0x10078), ('exec', 0x10078), ('exec', 0x1007C))
            ]
            run = folder / 'run'
            run.write_text(output_text(lines, 'killed 11'))
            self.assertEqual([store.number for store in history(run, elf).waiting], [2])


class Seeds(unittest.TestCase):
    """In place of a run `list` takes a seed: the run is what `draw` prints under the limits."""

    def test_seed(self):
        with tempfile.TemporaryDirectory() as folder:
            program = Path(folder) / 'program'
            program.write_text(
                f'#!/bin/sh\n[ "$*" = "draw {PETERSON} --seed=57 --harts=2" ] && cat {FOUND} && exit\n'
                'echo "rseq_run: no such words" >&2; exit 2\n'
            )
            program.chmod(0o755)
            drawn = lens('list', '--seed', 57, PETERSON, '--harts', 2, '--program', program, '--hart', 1)
            self.assertEqual((drawn.returncode, drawn.stderr), (0, b''))
            self.assertEqual(drawn.stdout, lens('list', FOUND, PETERSON, '--hart', 1).stdout)
            other = lens('list', PETERSON, '--seed', 58, '--program', program)
            self.assertIn("can't draw", other.stderr.decode())

    def test_a_run_or_a_seed(self):
        for words in ([PETERSON], [FOUND, PETERSON, '--seed', 57]):
            with self.subTest(words=words):
                answer = lens('list', *words)
                self.assertEqual(
                    (answer.returncode, answer.stderr), (2, b'lens: either RUN or --seed is wanted\n')
                )


class Cutting(unittest.TestCase):
    def test_first_lines(self):
        log = FOUND.with_suffix('.script').read_bytes().splitlines(keepends=True)
        self.assertEqual(lens('cut', FOUND, '--to', 40).stdout, b''.join(log[:40]))
        self.assertEqual(lens('cut', FOUND, '--to', 276).stdout, b''.join(log))
        self.assertEqual(lens('cut', FOUND, '--to', 0).stdout, b'')

    def test_short(self):
        cut = lens('cut', FOUND, '--to', 34, '--short').stdout.decode().splitlines()
        self.assertEqual(cut[32:], ['0 run 2', '1 preempt'])

    def test_more_than_there_are(self):
        answer = lens('cut', FOUND, '--to', 277)
        self.assertEqual(
            (answer.returncode, answer.stderr.decode()),
            (2, f'lens: {FOUND} has 276 lines, and 277 are wanted\n'),
        )


if __name__ == '__main__':
    unittest.main()
