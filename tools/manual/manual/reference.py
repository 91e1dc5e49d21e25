"""The table of `rseq_run`, from docs/reference/COMMANDS.md and docs/reference/STATUSES.md: the pages are the source, and a test compares
them with the usage that the program prints."""
from __future__ import annotations

import re
from dataclasses import replace
from pathlib import Path

from .markup import LINK
from .table import Command, Option, Tool, Value, value_of

ROOT = Path(__file__).resolve().parents[3]
REFERENCE = ROOT / 'docs' / 'reference'
PROGRAM = 'rseq_run'
CODE = re.compile(r'`([^`]+)`')
WORD = re.compile(r'[a-z][a-z-]*')
USAGE_LINE = re.compile(rf'^ {{4}}{PROGRAM} (.*)$', re.MULTILINE)
TAKEN = re.compile(r'\[(--[a-z-]+) [^\]]*\]')

HELP = Option(('-h', '--help'), None, 'Print the usage, what each command does, and what the options are; after a command, of that one alone.')
VERSION = Option(('-V', '--version'), None, 'Print the version.')
"""What is asked of the program in the place of a command, and the first of a command too. COMMANDS says it below its tables."""


class PageFault(Exception):
    """A page lacks what is read from it."""


def cells(line: str) -> list[str]:
    """The cells of a row of a table."""
    return [cell.strip() for cell in line.strip().strip('|').split('|')]


def table(page: str, *head: str) -> list[list[str]]:
    """The rows of the table whose first columns have these heads."""
    lines = page.splitlines()
    for at, line in enumerate(lines):
        if line.startswith('|') and cells(line)[: len(head)] == list(head):
            rows = lines[at + 2 :]
            end = next((row for row, text in enumerate(rows) if not text.startswith('|')), len(rows))
            return [cells(row) for row in rows[:end]]
    raise PageFault(f'no table has the columns {", ".join(head)}')


def usages(page: str) -> dict[str, str]:
    """What the usage has after the name of the program, by the command."""
    block = page.partition('\n    ')[1:]
    first = ''.join(block).partition('\n\n')[0]
    return {usage.split()[0]: usage for usage in USAGE_LINE.findall(first)}


def option_of(row: list[str]) -> Option:
    """The option of a row: its name and value, of which commands it is, its range, its default, and what it says."""
    name, value = CODE.findall(row[0])[0].split(' ')
    taken, default, about = row[2:]
    words = tuple(word for word in CODE.findall(taken) if WORD.fullmatch(word))
    shown = replace(value_of(value, words), is_file=taken.startswith('a file'))
    return Option((name,), shown, f'{sentence(about)} Values: {taken}. Default: {default}.')


def sentence(text: str) -> str:
    """A text as a sentence, without addresses of links."""
    bare = LINK.sub(r'\1', text)
    whole = bare[:1].upper() + bare[1:]
    return whole if whole.endswith('.') else f'{whole}.'


def options(page: str) -> dict[str, Option]:
    found = (option_of(row) for row in table(page, 'option', 'of', 'range', 'default', 'says'))
    return {option.names[0]: option for option in found}


def guests(page: str) -> tuple[str, ...]:
    return tuple(CODE.findall(row[0])[0] for row in table(page, 'guest'))


def names_of(usage: str, page: str) -> tuple[Value, ...]:
    """The names that a command takes."""
    words = usage.partition(' [')[0].split()[1:]
    return tuple(value_of(word, guests(page) if word == 'NAME' else ()) for word in words)


def abouts(page: str) -> dict[str, str]:
    """What each command does. A row that has several says it of all of them."""
    rows = table(page, 'command', 'does')
    return {word: sentence(row[1]) for row in rows for word in CODE.findall(row[0])}


def more_of(page: str) -> dict[str, str]:
    """What the page says of a command below the tables: from the paragraph that begins with it to the next one."""
    found = re.split(r'^\*\*`(\w+)`\.?\*\* ?', page, flags=re.MULTILINE)
    bodies = dict(zip(found[1::2], found[2::2]))
    return {word: until_options(body).strip() for word, body in bodies.items()}


def until_options(text: str) -> str:
    return text.partition('\n| option | of |')[0]


def command_of(usage: str, page: str) -> Command:
    word = usage.split()[0]
    rows = options(page)
    taken = tuple(rows[name] for name in TAKEN.findall(usage))
    text = more_of(page).get(word, '')
    more = f'`{word}` {text}' if text[:1].islower() else text
    return Command(word, usage, abouts(page)[word], names_of(usage, page), (*taken, HELP), more)


def statuses(page: str) -> tuple[tuple[str, str], ...]:
    return tuple((row[0], sentence(row[1])) for row in table(page, 'status', 'meaning'))


def program(reference: Path = REFERENCE) -> Tool:
    """The table of `rseq_run`."""
    page = (reference / 'COMMANDS.md').read_text()
    return Tool(
        PROGRAM,
        '',
        '',
        tuple(command_of(usage, page) for usage in usages(page).values()),
        statuses=statuses((reference / 'STATUSES.md').read_text()),
        options=(HELP, VERSION),
    )
