"""README and the pages of docs/tutorial and docs/how-to are easy to read: no paragraph is over 600 characters, and no sentence over 40
words."""
from __future__ import annotations

import re
import unittest
from collections.abc import Iterator
from pathlib import Path

ROOT = Path(__file__).resolve().parents[3]
MOST_CHARACTERS, MOST_WORDS = 600, 40
LINK = re.compile(r'\[([^\]]*)\]\([^)]*\)')
CODE = re.compile(r'`[^`]*`')
AVOIDED = re.compile(r'\b(?:told|anew)\b')
"""Words that a reader stumbles over; "said" and "again" are what is meant."""
SENTENCE = re.compile(r'(?<=[.!?:])\s+')


def pages() -> list[Path]:
    """The pages for somebody new."""
    parts = (ROOT / 'docs' / name for name in ('tutorial', 'how-to'))
    return [ROOT / 'README.md', *sorted(page for part in parts for page in part.glob('*.md'))]


def paragraphs(page: Path) -> Iterator[str]:
    """The paragraphs and list items of a page, as a reader sees them: no commands, tables, headings or addresses of links."""
    for block in re.split(r'\n\s*\n|\n(?=\s*- )|\n(?=\s*\d+\. )', page.read_text()):
        if not block.startswith(('    ', '|', '#', '\n    ')):
            yield LINK.sub(r'\1', block).strip()


def sentences(paragraph: str) -> Iterator[str]:
    """The sentences of a paragraph; code counts as one word."""
    yield from SENTENCE.split(CODE.sub('code', paragraph))


class Prose(unittest.TestCase):
    def test_paragraphs_are_short(self) -> None:
        for page in pages():
            for paragraph in paragraphs(page):
                with self.subTest(page=page.name, paragraph=paragraph[:60]):
                    self.assertLessEqual(len(paragraph), MOST_CHARACTERS)

    def test_sentences_are_short(self) -> None:
        for page in pages():
            for paragraph in paragraphs(page):
                for sentence in sentences(paragraph):
                    with self.subTest(page=page.name, sentence=sentence[:60]):
                        self.assertLessEqual(len(sentence.split()), MOST_WORDS)

    def test_words(self) -> None:
        for page in pages():
            for paragraph in paragraphs(page):
                with self.subTest(page=page.name, paragraph=paragraph[:60]):
                    self.assertEqual(AVOIDED.findall(CODE.sub('', paragraph)), [])


if __name__ == '__main__':
    unittest.main()
