"""The man pages: man and mandoc find nothing to say against them, and they have each command and option."""
from __future__ import annotations

import re
import shutil
import subprocess
import tempfile
import unittest
from pathlib import Path

from lens.command_line import VERSION

from manual.markup import inline, page_text, sentences, usage
from manual.page import Release, page
from manual.reference import PageFault
from manual.release import release
from manual.tools import NAMES, tool

MAN, MANDOC = 'man', 'mandoc'
DAY = Release('1.2.3', '2026-01-31')
TAG = re.compile(r'^\.TP\n(.*)$', re.MULTILINE)


def bare(text: str) -> str:
    """A text without what makes it bold or slanted."""
    return re.sub(r'\\f[BIR]', '', text).replace('\\-', '-')


class Markup(unittest.TestCase):
    def test_inline(self) -> None:
        self.assertEqual(inline('a [link](page.md#x) of `--by end`'), 'a link of \\fB\\-\\-by end\\fR')
        self.assertEqual(inline('**every** 2^64'), '\\fBevery\\fR 2\\(ha64')
        self.assertEqual(inline('a \\ b'), 'a \\e b')

    def test_a_line_is_no_request(self) -> None:
        self.assertEqual(sentences('.TH is a word. It ends.'), ['\\&.TH is a word.', 'It ends.'])

    def test_usage(self) -> None:
        self.assertEqual(usage('solo FILE [--by B]'), ['\\fBsolo\\fR \\fIFILE\\fR [\\fB\\-\\-by\\fR\\~\\fIB\\fR]'])

    def test_blocks(self) -> None:
        self.assertEqual(page_text('- one\n- two'), ['.IP \\(bu 2', 'one', '.IP \\(bu 2', 'two'])
        self.assertEqual(page_text('    ls -l'), ['.PP', '.RS 4', '.EX', 'ls \\-l', '.EE', '.RE'])
        self.assertEqual(page_text('| a | N |\n|---|---|\n| x | 3 |'), ['.TP', 'x', 'N: 3'])


class Pages(unittest.TestCase):
    def setUp(self) -> None:
        folder = tempfile.TemporaryDirectory()
        self.addCleanup(folder.cleanup)
        self.files = {name: Path(folder.name) / f'{name}.1' for name in NAMES}
        for name, file in self.files.items():
            file.write_text(page(tool(name), DAY))

    def test_each_command_and_option_is_there(self) -> None:
        for name, file in self.files.items():
            text = file.read_text()
            tags = {word for tag in TAG.findall(text) for word in bare(tag).replace(',', '').split()}
            for command in tool(name).commands:
                with self.subTest(tool=name, command=command.word):
                    self.assertTrue(not command.word or f'\n.SS {command.word}\n' in text)
                    due = {option_name for option in command.options for option_name in option.names}
                    self.assertLessEqual(due, tags)

    def test_the_version_and_the_day(self) -> None:
        for name, file in self.files.items():
            head = f'.TH {name.upper()} 1 2026-01-31 "rseq_run 1.2.3" "User Commands"'
            self.assertIn(head, file.read_text().splitlines())

    @unittest.skipUnless(shutil.which(MANDOC), f'there is no {MANDOC}')
    def test_mandoc_has_nothing_to_say(self) -> None:
        for file in self.files.values():
            ran = subprocess.run([MANDOC, '-T', 'lint', file], capture_output=True, text=True)
            self.assertEqual((ran.stdout, ran.stderr, ran.returncode), ('', '', 0))

    @unittest.skipUnless(shutil.which(MAN), f'there is no {MAN}')
    def test_man_has_no_warnings(self) -> None:
        for file in self.files.values():
            call = [MAN, '--warnings', '--encoding=UTF-8', '--local-file', '--troff-device=utf8', '--ditroff', str(file)]
            ran = subprocess.run(call, stdout=subprocess.DEVNULL, stderr=subprocess.PIPE, text=True)
            self.assertEqual((ran.stderr, ran.returncode), ('', 0))


class Releases(unittest.TestCase):
    def test_the_first_version_that_is_named(self) -> None:
        with tempfile.TemporaryDirectory() as name:
            file = Path(name) / 'CHANGELOG.md'
            file.write_text('# Changelog\n\n## [Unreleased]\n\n## [1.2.3] - 2026-01-31\n\n## [1.2.2] - 2026-01-01\n')
            self.assertEqual(release(Path(name)), DAY)
            file.write_text('# Changelog\n\n## [Unreleased]\n')
            with self.assertRaises(PageFault):
                release(Path(name))

    def test_the_tools_have_the_version_of_the_changelog(self) -> None:
        self.assertEqual(release().version, VERSION)

    def test_the_changelog_is_in_the_form_of_keep_a_changelog(self) -> None:
        text = (Path(__file__).resolve().parents[3] / 'CHANGELOG.md').read_text()
        heads = re.findall(r'^## (.*)$', text, re.MULTILINE)
        self.assertEqual(heads[0], '[Unreleased]')
        for head in heads[1:]:
            self.assertRegex(head, r'^\[\d+\.\d+\.\d+\] - \d{4}-\d{2}-\d{2}$')
        kinds = set(re.findall(r'^### (.*)$', text, re.MULTILINE))
        self.assertLessEqual(kinds, {'Added', 'Changed', 'Deprecated', 'Removed', 'Fixed', 'Security'})
        self.assertEqual(release(), Release(*re.findall(r'\[([\d.]+)\] - ([\d-]+)', text)[0]))


if __name__ == '__main__':
    unittest.main()
