"""The pages, the usage of the program and the parsers of the tools say the same."""
from __future__ import annotations

import re
import subprocess
import unittest

from manual import reference
from manual.parsers import PARSERS, subparsers
from manual.reference import REFERENCE, ROOT
from manual.table import Option
from manual.tools import NAMES, tool

COMMANDS = (REFERENCE / 'COMMANDS.md').read_text()
TOLD = ROOT / 'crates' / 'worked_runs' / 'data' / 'commands' / 'usage' / 'stderr'
"""What the program says where it has no words: examples/check.py compares it with that file."""
USAGE = re.compile(r'^(?:usage:|      ) rseq_run (.*)$', re.MULTILINE)
OPTION = re.compile(r'^  (--[a-z-]+) (\S+) +(.*)$', re.MULTILINE)
RANGE = re.compile(r'^([\d,]+) to ([\d,]+|2\^64 - 1)$')
SHOWN = re.compile(r'^ {4}tools/bin/(\w+) (.*)$', re.MULTILINE)
NAMED = re.compile(r'(?<![\w-])--?[a-z][a-z-]*')


def number(words: str) -> int:
    """A number as a page has it."""
    return (1 << 64) - 1 if words == '2^64 - 1' else int(words.replace(',', ''))


def rows() -> dict[str, list[str]]:
    """The table of options of the page."""
    found = reference.table(COMMANDS, 'option', 'of', 'range', 'default', 'says')
    return {row[0].strip('`').split()[0]: row for row in found}


class Program(unittest.TestCase):
    """docs/reference/COMMANDS.md and what the program says."""

    said = TOLD.read_text()

    def test_usage(self) -> None:
        self.assertEqual(list(reference.usages(COMMANDS).values()), USAGE.findall(self.said))

    def test_commands(self) -> None:
        words = [usage.split()[0] for usage in USAGE.findall(self.said)]
        self.assertEqual([command.word for command in tool('rseq_run').commands], words)

    def test_options(self) -> None:
        said = {(name, value) for name, value, _ in OPTION.findall(self.said)}
        page = {(option.names[0], option.value.name) for option in reference.options(COMMANDS).values() if option.value}
        self.assertEqual(page, said)

    def test_what_is_asked_in_the_place_of_a_command(self) -> None:
        below = COMMANDS.rpartition('\n|')[2]
        for option in tool('rseq_run').options:
            for name in option.names:
                self.assertRegex(below, rf'[` ]{name}`')

    def test_ranges_and_defaults(self) -> None:
        for name, _, said in OPTION.findall(self.said):
            taken, default = rows()[name][2:4]
            with self.subTest(option=name):
                if found := RANGE.match(taken):
                    self.assertIn(f'{number(found[1])} to {number(found[2])}', said)
                for word in words_of(reference.option_of(rows()[name])):
                    self.assertRegex(said, rf'\b{word}\b')
                if re.fullmatch(r'[\d,]+', default):
                    self.assertIn(f'(default {number(default)})', said)

    def test_of_which_commands_an_option_is(self) -> None:
        words = {command.word for command in tool('rseq_run').commands}
        for name, row in rows().items():
            named = set(re.findall(r'`(\w+)`', row[1]))
            due = words - named if row[1].startswith('all but') else named
            taking = {command.word for command in tool('rseq_run').commands if has(command.options, name)}
            with self.subTest(option=name):
                self.assertEqual(taking, due - {'solo'} if name == '--harts' else due)


def words_of(option: Option) -> tuple[str, ...]:
    """The words of which one is the value of an option, where they are few."""
    return option.value.words if option.value else ()


def has(options: tuple[Option, ...], name: str) -> bool:
    return any(name in option.names for option in options)


class Parsers(unittest.TestCase):
    """The tables of the tools in Python, their --help, and their own pages."""

    def test_commands(self) -> None:
        for name, make_parser in PARSERS.items():
            words = [word for word, _, _ in subparsers(make_parser())]
            self.assertEqual([command.word for command in tool(name).commands], words or [''])

    def test_help_names_each_option(self) -> None:
        for name in PARSERS:
            for command in tool(name).commands:
                words = [word for word in (command.word, '--help') if word]
                call = [str(ROOT / 'tools' / 'bin' / name), *words]
                said = subprocess.run(call, capture_output=True, text=True, check=True).stdout
                named = set(NAMED.findall(said.partition('\noptions:')[0]))
                with self.subTest(tool=name, command=command.word):
                    due = {option.names[0] for option in command.options}
                    self.assertEqual(named & {one for option in command.options for one in option.names}, due)

    def test_their_pages(self) -> None:
        """What the pages of lens and sweep show is taken."""
        for name in ('lens', 'sweep'):
            page = (ROOT / 'tools' / name / 'README.md').read_text()
            block = page.partition('\n    tools/bin/')[1:]
            tables = {command.word: command for command in tool(name).commands}
            shown = SHOWN.findall(''.join(block).partition('\n\n')[0])
            self.assertGreater(len(shown), 0)
            for _, usage in shown:
                command = tables['' if '' in tables else usage.split()[0]]
                with self.subTest(tool=name, usage=usage):
                    for option in NAMED.findall(usage.partition('[-- ')[0]):
                        self.assertTrue(has(command.options, option), option)


class Tables(unittest.TestCase):
    def test_the_options_of_rvcc(self) -> None:
        """The script has an arm for each of its own options."""
        script = (ROOT / 'examples' / 'common' / 'rvcc').read_text()
        own = [option.names[0] for option in tool('rvcc').commands[0].options if option.names[0].startswith('--')]
        self.assertEqual(sorted(own), sorted(re.findall(r'^(--[a-z]+)\)$', script, re.MULTILINE)))

    def test_each_tool(self) -> None:
        for name in NAMES:
            with self.subTest(tool=name):
                self.assertTrue(all((tool(name).line, tool(name).description, tool(name).statuses)))
                self.assertEqual(tool(name).see, tuple(other for other in NAMES if other != name))

    def test_values(self) -> None:
        options = reference.options(COMMANDS)
        after = options['--after'].value
        self.assertTrue(after and after.is_file)
        self.assertEqual(words_of(options['--by']), ('text', 'end'))
        self.assertEqual(words_of(options['--memory']), ())
        guests = next(command for command in tool('rseq_run').commands if command.word == 'make').names[0]
        self.assertEqual(len(guests.words), 8)


if __name__ == '__main__':
    unittest.main()
