"""Each link between the pages leads to a page and a heading that are there, and docs/index.md names every page."""
from __future__ import annotations

import re
import unittest
from pathlib import Path

ROOT = Path(__file__).resolve().parents[3]
LINK = re.compile(r'\[[^\]]*\]\(([^)\s]+)\)')
HEADING = re.compile(r'^#{1,6} (.*)$', re.M)
ANCHOR = re.compile(r'<a id="([^"]+)">')
MOST_LINES = 180
"""How many lines README has at most."""


def pages() -> list[Path]:
    """All pages, but for those of crates."""
    parts = (ROOT / name for name in ('docs', 'tools', 'examples', 'bench'))
    return sorted([*ROOT.glob('*.md'), *(page for part in parts for page in part.rglob('*.md'))])


def prose(page: Path) -> str:
    """A page without its indented blocks of commands."""
    lines = page.read_text().split('\n')
    return '\n'.join(line for line in lines if not line.startswith('    ') or line.lstrip().startswith(('-', '*')))


def anchor_of(heading: str) -> str:
    """The anchor that a heading gets, as code hosts make it."""
    return re.sub(r'[^\w\- ]', '', heading.lower()).strip().replace(' ', '-')


def anchors(page: Path) -> set[str]:
    """The anchors of a page."""
    text = prose(page)
    return {anchor_of(heading) for heading in HEADING.findall(text)} | set(ANCHOR.findall(text))


def links(page: Path) -> list[tuple[Path, str]]:
    """Where the links of a page lead that stay in this repository: a file, and an anchor or nothing."""
    found = (target.partition('#') for target in LINK.findall(prose(page)) if not re.match(r'[a-z]+:', target))
    return [((page.parent / path).resolve() if path else page, anchor) for path, _, anchor in found]


class Links(unittest.TestCase):
    def test_each_link_leads_somewhere(self) -> None:
        for page in pages():
            for target, anchor in links(page):
                with self.subTest(page=page.relative_to(ROOT), target=target, anchor=anchor):
                    self.assertTrue(target.exists())
                    self.assertTrue(not anchor or target.suffix != '.md' or anchor in anchors(target))

    def test_the_index_names_each_page(self) -> None:
        index = ROOT / 'docs' / 'index.md'
        due = {page for page in (ROOT / 'docs').rglob('*.md')} - {index}
        self.assertEqual(due - {target for target, _ in links(index)}, set())

    def test_readme_is_short(self) -> None:
        self.assertLessEqual(len((ROOT / 'README.md').read_text().splitlines()), MOST_LINES)


if __name__ == '__main__':
    unittest.main()
