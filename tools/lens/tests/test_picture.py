"""The picture: well formed, with each step in its place, and with what it left out."""
import tempfile
import unittest
import xml.etree.ElementTree as xml
from pathlib import Path

from lens.faults import LensFault
from lens.picture import CELL, NAMESPACE, PER_ROW, choose_span, draw_run
from lens.program import Program

from .common import FOUND, PETERSON, ROOT, found, history, kept_runs, lens

TAG = f'{{{NAMESPACE}}}'


def classes(root, name):
    return [element for element in root.iter() if name in element.get('class', '').split()]


class Pictures(unittest.TestCase):
    def test_well_formed(self):
        root = xml.fromstring(draw_run(found(), 31, 130))
        self.assertEqual(root.tag, f'{TAG}svg')
        words = [element.text for element in root.iter(f'{TAG}text')]
        self.assertTrue(
            words[0].endswith('steps 31 to 130 of 276; 176 left out (--from and --to choose others)')
        )
        self.assertTrue(
            {'hart 0', 'hart 1', 'thread 1', 'thread 2', 'take', 'run_other', 'clone'} <= set(words)
        )

    def test_shapes_are_as_many_as_steps(self):
        made = found()
        root = xml.fromstring(draw_run(made, 31, 130))
        legend = 1
        kinds = [step.kind for step in made.output.steps[30:130]]
        self.assertEqual(len(classes(root, 'drain')), kinds.count('drain') + legend)
        shown = [
            made.instructions[step.number] for step in made.output.steps[30:130] if step.kind == 'exec'
        ]
        self.assertEqual(len(classes(root, 'store')), sum(it.is_plain_store for it in shown) + legend)

    def test_nothing_is_outside(self):
        root = xml.fromstring(draw_run(found()))
        width, height = float(root.get('width')), float(root.get('height'))
        for element in root.iter(f'{TAG}rect'):
            self.assertLessEqual(float(element.get('x', 0)) + float(element.get('width')), width)
            self.assertLessEqual(float(element.get('y', 0)) + float(element.get('height')), height)
        self.assertGreaterEqual(width, PER_ROW * CELL)

    def test_what_is_left_out(self):
        self.assertEqual(choose_span(150, None, None).words(), 'steps 1 to 150 of 150')
        self.assertEqual(
            choose_span(201, None, None).words(),
            'steps 1 to 200 of 201; 1 left out (--from and --to choose others)',
        )
        self.assertEqual(
            choose_span(900, 300, None).words(),
            'steps 300 to 499 of 900; 700 left out (--from and --to choose others)',
        )

    def test_spans_that_are_none(self):
        for first, last in ((10, 9), (277, None)):
            with self.subTest(first=first), self.assertRaisesRegex(LensFault, 'nothing to show'):
                choose_span(276, first, last)
        with self.assertRaisesRegex(LensFault, 'too many for a picture'):
            choose_span(100_000, 1, 100_000)

    def test_every_example_has_a_picture(self):
        for run, elf in kept_runs():
            with self.subTest(run=run.name):
                xml.fromstring(draw_run(history(run, elf)))

    def test_the_picture_of_the_page(self):
        with tempfile.TemporaryDirectory() as folder:
            made = Path(folder) / 'made.svg'
            answer = lens(
                'svg',
                FOUND.relative_to(ROOT),
                PETERSON.relative_to(ROOT),
                '--from',
                31,
                '--to',
                130,
                '-o',
                made,
            )
            self.assertEqual((answer.returncode, answer.stderr), (0, b''))
            self.assertEqual(made.read_text(), (ROOT / 'docs' / 'lost_addition.svg').read_text())

    def test_a_run_of_nothing(self):
        with tempfile.TemporaryDirectory() as folder:
            run = Path(folder) / 'run'
            run.write_text('console 0\n\nlog 0\nend open\n')
            root = xml.fromstring(draw_run(history(run, PETERSON)))
            self.assertIn('none of 0 steps', ' '.join(element.text for element in root.iter(f'{TAG}text')))
        self.assertTrue(Program(str(PETERSON)).symbols)


if __name__ == '__main__':
    unittest.main()
