"""docs/explanation/DECISIONS.md is a list of records: each has a heading, mostly a line with its day and its source, and what was chosen."""
from __future__ import annotations

import re
import unittest
from pathlib import Path

PAGE = Path(__file__).resolve().parents[3] / 'docs' / 'explanation' / 'DECISIONS.md'
RECORD = re.compile(r'\n### (.*)\n')
META = re.compile(r'^\*(?:\d{1,2} [A-Z][a-z]+ \d{4}(?: · .+)?|[^\d*].*)\*$')
MOST_WITHOUT_A_DAY = 8
"""Records whose headings the history doesn't know."""


def records() -> dict[str, list[str]]:
    """The paragraphs of each record, by its heading."""
    parts = RECORD.split(re.sub(r'\n## .*\n', '\n', PAGE.read_text()))
    return {title: body.strip().split('\n\n') for title, body in zip(parts[1::2], parts[2::2])}


class Decisions(unittest.TestCase):
    def test_no_decision_is_a_list_item(self) -> None:
        self.assertEqual([line for line in PAGE.read_text().splitlines() if line.startswith('- ')], [])

    def test_each_record_says_what_was_chosen(self) -> None:
        for title, paragraphs in records().items():
            with self.subTest(record=title):
                chosen = paragraphs[1:] if META.match(paragraphs[0]) else paragraphs
                self.assertTrue(chosen and not chosen[0].startswith('**Refused.**'), paragraphs)

    def test_most_have_a_day(self) -> None:
        without = [title for title, paragraphs in records().items() if not re.match(r'\*\d', paragraphs[0])]
        self.assertLessEqual(len(without), MOST_WITHOUT_A_DAY, without)

    def test_no_two_have_one_heading(self) -> None:
        titles = RECORD.findall(PAGE.read_text())
        self.assertEqual(len(titles), len(set(titles)))


if __name__ == '__main__':
    unittest.main()
