"""A page about a run in a browser: it opens without an error, and shows what `inspect` says of each place."""
from __future__ import annotations

import tempfile
import unittest
from pathlib import Path

from lens.report import beside, digest

from .browser import Browser, needs_chromium
from .common import needs_program
from .report_checks import Difference
from .reports import RUNS, Case, Data, case, data_in, numbers_of, page_of, some_places, with_data

SHOWN = """Object.fromEntries([...document.querySelectorAll('[data-key]')]
    .filter(one => one.textContent).map(one => [one.dataset.key, one.textContent]))"""
WAITING = """Object.fromEntries([...document.querySelectorAll('ol.buffer')]
    .map(list => [list.id.replace('buffer-', ''), [...list.children].map(one => one.dataset.bytes)]))"""
PLACE = "Number(document.getElementById('number').value)"
TOLD = "document.getElementById('told').textContent"
TRIED = ('peterson/found', 'rcu/taken', 'signal_in_sequence/inside', 'percpu_counter/preempted')
PICTURES = (('light', 1400, 1300, 'light'), ('dark', 1400, 1300, 'dark'), ('narrow', 480, 1400, 'light'))


def slide(page: Browser, index: int) -> None:
    """Moves the slider."""
    page.run(f'(() => {{ slider.value = {index}; slider.dispatchEvent(new Event("input")) }})()')


def wrong_at(page: Browser, one: Case, data: Data, index: int) -> list[Difference]:
    """Where the page shows something else than `inspect` says, with the slider at an index."""
    slide(page, index)
    place = numbers_of(data)[index]
    if page.run(PLACE) != place:
        return [Difference('place', str(page.run(PLACE)), str(place))]
    waiting = {int(hart): stores for hart, stores in page.run(WAITING).items()}
    return one.wrong(place, page.run(SHOWN), waiting, data['harts'])


@needs_program
@needs_chromium
class InABrowser(unittest.TestCase):
    folder: Path
    page: Browser
    cases: dict[str, Case] = {}

    @classmethod
    def setUpClass(cls) -> None:
        cls.folder = Path(tempfile.mkdtemp(prefix='lens-report-'))
        cls.page = Browser()
        cls.addClassCleanup(cls.page.__exit__, None, None, None)

    def kept(self, name: str) -> Case:
        if name not in self.cases:
            self.cases[name] = case(name, RUNS[name])
        return self.cases[name]

    def open(self, name: str, where: str = '') -> tuple[Case, Data]:
        """Opens the page of a kept run."""
        one = self.kept(name)
        text = page_of(one)
        self.open_text(text, where)
        return one, data_in(text)

    def open_text(self, text: str, where: str = '') -> None:
        file = self.folder / 'run.html'
        file.write_text(text, encoding='utf-8')
        self.page.open(file, where)
        self.assertEqual(self.page.errors, [])

    def test_the_slider_shows_what_inspect_says(self) -> None:
        for seed, name in enumerate(TRIED):
            one, data = self.open(name)
            for index in some_places(data, seed + 50):
                with self.subTest(run=name, index=index):
                    self.assertEqual(wrong_at(self.page, one, data, index), [])
            self.assertEqual(self.page.errors, [])

    def test_a_page_with_a_wrong_value_is_refused(self) -> None:
        one = self.kept('peterson/found')
        text = page_of(one)
        data = data_in(text)
        data['changes'][54]['t2.x13'] = '0x2'  # (li a3,1)
        self.open_text(with_data(text, data))
        wrong = [found for index in (53, 54, 55) for found in wrong_at(self.page, one, data, index)]
        self.assertIn(Difference('t2.x13', '0x2', '0x1'), wrong)

    def test_a_page_with_a_wrong_store_is_refused(self) -> None:
        one = self.kept('peterson/found')
        text = page_of(one)
        data = data_in(text)
        store = next(store for store in data['stores'] if store[1] == 54)
        store[2] -= 1
        self.open_text(with_data(text, data))
        self.assertEqual([found.key for found in wrong_at(self.page, one, data, 76)], ['buffer 0'])

    def test_a_script_that_stays_behind_is_refused(self) -> None:
        one = self.kept('peterson/found')
        script = beside('report.js')
        changed = script.replace('slice(0, index + 1)', 'slice(0, index)')
        text = page_of(one).replace(script, changed).replace(digest(script), digest(changed))
        self.open_text(text)
        data = data_in(text)
        self.assertTrue(wrong_at(self.page, one, data, 77))

    def test_keys(self) -> None:
        self.open('peterson/found', '#71')
        self.assertEqual(self.page.run(PLACE), 71)
        for key, shift, place in (
            ('ArrowRight', False, 72),
            ('ArrowLeft', False, 71),
            ('ArrowRight', True, 73),
            ('Home', False, 0),
            ('ArrowLeft', False, 0),
            ('End', False, 276),
            ('ArrowRight', False, 276),
        ):
            self.page.press(key, shift)
            self.assertEqual(self.page.run(PLACE), place, key)

    def test_a_click_on_an_arc_goes_to_its_drain(self) -> None:
        self.open('peterson/found', '#54')
        self.page.size(1400, 1300)
        spot = self.page.run("""(() => {
            const path = document.querySelector('.arc[data-executed="54"] .hit'), svg = path.ownerSVGElement;
            svg.scrollIntoView({ block: 'center' });
            const at = path.getPointAtLength(path.getTotalLength() / 12), box = svg.getBoundingClientRect();
            return [at.x + box.left, at.y + box.top] })()""")
        self.page.click(*spot)
        self.assertEqual(self.page.run(PLACE), 77)
        self.assertIn('drain sw a3,0(a5)', self.page.run(TOLD))

    def test_a_waiting_store_goes_to_its_drain(self) -> None:
        self.open('peterson/found', '#71')
        self.page.run("document.querySelectorAll('#buffer-0 button')[1].click()")
        self.assertEqual(self.page.run(PLACE), 77)

    def test_search(self) -> None:
        one, data = self.open('peterson/found', '#1')
        for words in ('give', 'peterson.c:31', 'wants[1]'):
            found = self.page.run(f"""(() => {{ query.value = {words!r}; query.dispatchEvent(new Event('input'));
                document.getElementById('search').requestSubmit();
                return [...document.querySelectorAll('tr.match')].map(one => one.textContent) }})()""")
            self.assertTrue(found)
            self.assertTrue(all(words in text for text in found), words)
            self.assertRegex(self.page.run('matches.textContent'), f'^[0-9]+ of {len(found)}$')
        self.assertEqual(self.page.run("has('file.c:121 x', 'file.c:12')"), False)
        self.assertEqual(data['size'], len(one.reported.history.output.steps))

    def test_each_control_has_a_name(self) -> None:
        self.open('percpu_counter/preempted')
        nameless = self.page.run("""[...document.querySelectorAll('button, input, [role=group], table, section')].filter(one =>
            !one.textContent.trim() && !one.getAttribute('aria-label') && !(one.labels && one.labels.length)).map(one => one.outerHTML)""")
        self.assertEqual(nameless, [])
        self.assertEqual(self.page.run("document.querySelectorAll('h1').length"), 1)
        self.assertEqual(self.page.run("slider.getAttribute('aria-valuetext')"), self.page.run(TOLD))

    def test_a_link_of_a_sentence(self) -> None:
        self.open('peterson/found', '#1')
        self.page.run("document.querySelector('.why a').click()")
        self.page.run('new Promise(done => setTimeout(done, 50))')
        self.assertEqual(self.page.run(PLACE), 276)

    def test_pictures(self) -> None:
        self.open('peterson/found', '#77')
        for name, width, height, theme in PICTURES:
            file = self.folder / f'{name}.png'
            self.page.picture(file, width, height, theme)
            self.assertTrue(file.read_bytes().startswith(b'\x89PNG'))
            print(f'tools/lens: a picture of a page: {file}')
        ground = self.page.run('getComputedStyle(document.body).backgroundColor')
        self.assertEqual(ground, 'rgb(255, 255, 255)')
        wide = self.page.run('document.documentElement.scrollWidth <= innerWidth')
        self.assertTrue(wide, 'a narrow page needs no scrolling to the side')


if __name__ == '__main__':
    unittest.main()
