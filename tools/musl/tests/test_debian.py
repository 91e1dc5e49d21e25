"""Lists of sources that are made of a machine's lists of packages."""
from __future__ import annotations

import unittest

from musl.debian import lines_of_sources, stanzas_of_sources

LINES = '''# a remark
deb [signed-by=/a/key.gpg] place one main
deb-src [signed-by=/a/key.gpg] place one main

  deb place two main contrib  # behind it
debug place three main
'''
STANZAS = '''# a remark
Types: deb
URIs: place
Suites: one one-updates
# another
Components: main
Signed-By: /a/key.gpg

Types: deb deb-src
URIs: place
Suites: two
Components: main


Enabled: no
Types: deb
URIs: other
Suites: three
Components: main
'''


class Lists(unittest.TestCase):
    def test_lines(self) -> None:
        self.assertEqual(
            lines_of_sources(LINES).splitlines(),
            ['deb-src [signed-by=/a/key.gpg] place one main', 'deb-src place two main contrib  # behind it'],
        )
        self.assertEqual(lines_of_sources('# nothing\n'), '')

    def test_stanzas(self) -> None:
        made = stanzas_of_sources(STANZAS)
        self.assertEqual(made.count('Types: deb-src\n'), 2)
        self.assertEqual(made.count('Types:'), 2)
        self.assertIn('Suites: one one-updates\nComponents: main\nSigned-By: /a/key.gpg\n\nTypes', made)
        self.assertNotIn('three', made)
        self.assertEqual(stanzas_of_sources('\n'), '')


if __name__ == '__main__':
    unittest.main()
