"""A page about a run: each value that it has is what `inspect` says, and it stands alone."""
from __future__ import annotations

import math
import re
import tempfile
import unittest
from dataclasses import replace
from functools import cache
from html.parser import HTMLParser
from pathlib import Path

from lens.program import Program
from lens.report import CONSOLE, beside, digest, sentence, shown_console
from lens.report_changes import hart_words, reservation_words, signal_words
from lens.report_data import shape_of
from lens.report_steps import MOST, around, named_steps

from .common import EXAMPLES, FENCED, FOUND, PETERSON, found, lens, needs_program, output_text
from .reports import RUNS, Case, Data, case, data_in, numbers_of, page_of, some_places, with_data

LARGEST = 2_000_000
"""So many bytes has a page of 2,000 steps at most."""
LEAST_CONTRAST, LEAST_OF_SHAPES = 4.5, 3.0
"""WCAG 2.1, 1.4.3 for text and 1.4.11 for shapes."""


@cache
def kept(name: str) -> Case:
    return case(name, RUNS[name])


@cache
def page(name: str) -> str:
    return page_of(kept(name))


def state_at(data: Data, index: int) -> dict[str, str]:
    """All values of a place, as the page makes them."""
    state: dict[str, str] = {}
    for change in data['changes'][: index + 1]:
        state.update(change)
    return state


def waiting_at(data: Data, place: int) -> dict[int, list[str]]:
    """The stores that wait at a place, as the page finds them."""
    waiting: dict[int, list[str]] = {}
    for hart, executed, entered, _, bytes_, _ in data['stores']:
        if executed <= place and (not entered or entered > place):
            waiting.setdefault(hart, []).append(bytes_)
    return waiting


@needs_program
class Values(unittest.TestCase):
    def test_they_are_those_of_inspect(self) -> None:
        for seed, name in enumerate(RUNS):
            data = data_in(page(name))
            numbers = numbers_of(data)
            for index in some_places(data, seed):
                with self.subTest(run=name, place=numbers[index]):
                    waiting = waiting_at(data, numbers[index])
                    self.assertEqual(kept(name).wrong(numbers[index], state_at(data, index), waiting, data['harts']), [])

    def test_a_wrong_value_is_found(self) -> None:
        data = data_in(page('peterson/found'))
        index = numbers_of(data).index(77)
        for key, value in (('t2.x14', '0x3'), ('h0.requests', '1'), ('m.wants[1]', '0'), ('v1.wants[1]', '0')):
            with self.subTest(key=key):
                state = {**state_at(data, index), key: value}
                wrong = kept('peterson/found').wrong(77, state, waiting_at(data, 77), data['harts'])
                self.assertEqual([(one.key, one.shown) for one in wrong], [(key, value)])

    def test_a_store_that_lacks_is_found(self) -> None:
        data = data_in(page('peterson/found'))
        index = numbers_of(data).index(71)
        wrong = kept('peterson/found').wrong(71, state_at(data, index), {1: waiting_at(data, 71)[1]}, data['harts'])
        self.assertEqual([one.key for one in wrong], ['buffer 0'])

    def test_changes_are_only_what_changes(self) -> None:
        data = data_in(page('rcu/taken'))
        for index, change in enumerate(data['changes'][1:], 1):
            before = state_at(data, index - 1)
            self.assertEqual([key for key, value in change.items() if before.get(key) == value], [])

    def test_what_is_between_harts(self) -> None:
        barriers = data_in(page('rcu/taken'))['barriers']
        steps = kept('rcu/taken').reported.history.output.steps
        kinds = {steps[take - 1].kind for _, takes, _ in barriers for take in takes}
        self.assertEqual(kinds, {'take'})
        self.assertEqual({steps[done - 1].kind for _, _, done in barriers if done}, {'done'})
        signals = data_in(page('signal_in_sequence/inside'))['signals']
        steps = kept('signal_in_sequence/inside').reported.history.output.steps
        self.assertTrue(signals)
        self.assertTrue(all(steps[delivered - 1].kind == 'signal' for _, delivered, _, _ in signals if delivered))

    def test_sequences(self) -> None:
        sequences = data_in(page('percpu_counter/preempted'))['sequences']
        cut = next(one for one in sequences if one[4] == 'cut')
        self.assertEqual(cut[:4], [104, 108, 0, 2])
        self.assertIn('goes on at addv+0x28', cut[5])


class Links(HTMLParser):
    """What the elements of a page name."""

    def __init__(self) -> None:
        super().__init__()
        self.named: list[tuple[str, str]] = []
        self.tags: list[str] = []
        self.ids: list[str] = []
        self.labelled: list[str] = []

    def handle_starttag(self, tag: str, attributes: list[tuple[str, str | None]]) -> None:
        self.tags.append(tag)
        for name, value in attributes:
            if name in ('src', 'href', 'action', 'data', 'srcset', 'poster'):
                self.named.append((name, value or ''))
            if name == 'id':
                self.ids.append(value or '')
            if name in ('aria-labelledby', 'for'):
                self.labelled.append(value or '')


def links(text: str) -> Links:
    parser = Links()
    parser.feed(text)
    return parser


@needs_program
class Pages(unittest.TestCase):
    def test_it_asks_nothing_of_a_network(self) -> None:
        for name in RUNS:
            with self.subTest(run=name):
                found = links(page(name))
                self.assertEqual([one for one in found.named if not re.fullmatch(r'#\w+', one[1])], [])
                self.assertFalse({'link', 'img', 'iframe', 'base', 'object', 'embed'} & set(found.tags))
                self.assertIn("default-src 'none'", page(name))

    def test_its_own_script_and_style_are_allowed(self) -> None:
        for name, tag in (('report.js', 'script'), ('report.css', 'style')):
            inside = page('peterson/found').split(f'<{tag}>')[1].split(f'</{tag}>')[0]
            self.assertEqual(inside, beside(name))
            self.assertIn(f"{tag}-src '{digest(inside)}'", page('peterson/found'))

    def test_sizes(self) -> None:
        for name in RUNS:
            data = data_in(page(name))
            self.assertLess(len(page(name).encode()), LARGEST)
            self.assertEqual(len(data['steps']), min(data['size'], MOST))

    def test_landmarks_and_labels(self) -> None:
        found = links(page('peterson/found'))
        self.assertTrue({'header', 'nav', 'main', 'footer', 'section', 'h1', 'noscript'} <= set(found.tags))
        self.assertEqual(len(set(found.ids)), len(found.ids))
        self.assertEqual(set(found.labelled) - set(found.ids), set())

    def test_a_long_run_is_cut(self) -> None:
        data = data_in(page('percpu_counter/preempted'))
        numbers = numbers_of(data)
        self.assertEqual((data['size'], len(numbers) - 1, numbers[-1]), (2151, MOST, 2151))
        self.assertTrue(set(range(104, 110)) <= set(numbers), 'the sequence that was cut is shown')
        self.assertIn('2000 of 2151 steps are shown', page('percpu_counter/preempted'))

    def test_no_text_ends_its_element(self) -> None:
        one = kept('peterson/found')
        nasty = '</script><script>alert(1)</script>'
        reported = replace(one.reported, why=[f'{nasty} (step 7)'])
        text = page_of(Case(reported, one.machine))
        self.assertNotIn(nasty, text)
        self.assertIn('(<a href="#7">step 7</a>)', text)
        data = data_in(text)
        data['words'][0] = nasty
        again = with_data(text, data)
        self.assertNotIn(nasty, again)
        self.assertEqual(data_in(again)['words'][0], nasty)


class Words(unittest.TestCase):
    def test_sentences(self) -> None:
        self.assertEqual(sentence('  more & more'), '<p class="more">more &amp; more</p>\n')
        self.assertEqual(list(named_steps(['at a (step 12).', 'in step 3, 4 steps before'])), [12, 3])
        self.assertEqual(list(around([5], 1)), [4, 5, 6])

    def test_a_long_console(self) -> None:
        self.assertEqual(shown_console(b'short'), 'short')
        text = shown_console(b'x' * 10 + b'y' * CONSOLE)
        self.assertEqual(text, '(the first 10 characters are left out)\n' + 'y' * CONSOLE)

    def test_masks(self) -> None:
        self.assertEqual((hart_words(0b101), hart_words(0)), ('0 2', 'none'))
        self.assertEqual((signal_words(1 << 9 | 1), signal_words(0)), ('SIGHUP SIGUSR1', 'none'))
        self.assertEqual((reservation_words(0x11641), reservation_words(0)), ('0x11640', 'none'))

    def test_shapes(self) -> None:
        made = found()
        shapes = [shape_of(made, step) for step in made.output.steps]
        self.assertEqual(shapes.count('drain'), len(made.drained))
        self.assertEqual(shapes.count('call'), len(made.calls))
        self.assertEqual(shapes.count('store'), len(made.drained) + len(made.waiting))


def colours(style: str) -> list[dict[str, str]]:
    """The colours of each theme."""
    blocks = re.findall(r':root \{(.*?)\}', style, re.DOTALL)
    return [dict(re.findall(r'--([a-z0-9]+): (#[0-9a-f]{6});', block)) for block in blocks]


def luminance(colour: str) -> float:
    """The relative luminance of a colour (WCAG 2.1)."""
    parts = [int(colour[at : at + 2], 16) / 255 for at in (1, 3, 5)]
    red, green, blue = [part / 12.92 if part <= 0.03928 else math.pow((part + 0.055) / 1.055, 2.4) for part in parts]
    return 0.2126 * red + 0.7152 * green + 0.0722 * blue


def contrast(one: str, other: str) -> float:
    light, dark = sorted((luminance(one), luminance(other)), reverse=True)
    return (light + 0.05) / (dark + 0.05)


class Colours(unittest.TestCase):
    def test_contrast(self) -> None:
        themes = colours(beside('report.css'))
        self.assertEqual(len(themes), 2)
        for theme in themes:
            for text in ('text', 'soft', 'link', 'wrong', 'right'):
                for ground in ('ground', 'raised', 'marked', 'found'):
                    with self.subTest(text=text, ground=ground):
                        self.assertGreaterEqual(contrast(theme[text], theme[ground]), LEAST_CONTRAST)
            for thread in range(8):
                with self.subTest(thread=thread):
                    self.assertGreaterEqual(contrast(theme[f'thread{thread}'], theme['ground']), LEAST_OF_SHAPES)


@needs_program
class Command(unittest.TestCase):
    def said(self, *words: object) -> str:
        answer = lens('report', *words)
        self.assertEqual(answer.returncode, 2)
        self.assertEqual(answer.stderr.count(b'\n'), 1, answer.stderr)
        self.assertEqual(answer.stdout, b'')
        return str(answer.stderr.decode())

    def test_what_is_wrong_is_one_line(self) -> None:
        self.assertIn('has no variable \'nothing\'', self.said(FOUND, PETERSON, '--watch', 'nothing'))
        self.assertIn('1024 at most can be watched', self.said(FOUND, PETERSON, '--watch', 'other'))
        self.assertIn('isn\'t a run of', self.said(FOUND, FENCED))
        self.assertIn('No such file', self.said(EXAMPLES / 'no.output', PETERSON))
        self.assertIn('No such file', self.said(FOUND, PETERSON, '-o', '/nowhere/run.html'))
        self.assertIn('the nearest is --watch', self.said(FOUND, PETERSON, '--wacth', 'count'))

    def test_a_run_of_nothing(self) -> None:
        with tempfile.TemporaryDirectory() as folder:
            run = Path(folder) / 'run'
            run.write_text(output_text([]))
            self.assertIn('has no steps', self.said(run, PETERSON))

    def test_a_page_is_written(self) -> None:
        with tempfile.TemporaryDirectory() as folder:
            made = Path(folder) / 'run.html'
            answer = lens('report', FOUND, PETERSON, '--watch', 'count', '--watch', 'wants[1]', '-o', made)
            self.assertEqual((answer.returncode, answer.stdout, answer.stderr), (0, b'', b''))
            data = data_in(made.read_text())
            self.assertEqual(data['watched'], [['count', ['count']], ['wants[1]', ['wants[1]']]])
            self.assertEqual(data['size'], 276)

    def test_a_long_run(self) -> None:
        answer = lens('report', EXAMPLES / 'real' / 'param_test.elf', '--seed', 2, '--steps', 200_000)
        self.assertEqual((answer.returncode, answer.stderr), (0, b''))
        self.assertLess(len(answer.stdout), LARGEST)
        data = data_in(answer.stdout.decode())
        self.assertGreater(data['size'], 10 * MOST)
        self.assertEqual(len(data['steps']), MOST)

    def test_a_seed(self) -> None:
        answer = lens('report', PETERSON, '--seed', 7)
        self.assertEqual((answer.returncode, answer.stderr), (0, b''))
        self.assertEqual(data_in(answer.stdout.decode())['threads'], [1, 2])
        self.assertTrue(Program(str(PETERSON)).symbols)


if __name__ == '__main__':
    unittest.main()
