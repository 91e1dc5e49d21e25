"""Writes the man page of a tool (man(7))."""
from __future__ import annotations

from dataclasses import dataclass

from .markup import escaped, inline, page_text, sentences, usage
from .table import Command, Option, Tool

SECTION = '1'
TITLE = 'User Commands'
NOTE = '.\\" Made by `tools/bin/manual page`; what it says comes from docs/reference and the parsers of the tools.'
DOCUMENTS = 'The documents begin with README.md and docs/index.md, in /usr/share/rseq-run or in the unpacked folder.'


@dataclass(frozen=True)
class Release:
    """Of which version a page is, and of which day (2026-12-01)."""

    version: str
    day: str


def page(tool: Tool, release: Release) -> str:
    """The man page of a tool."""
    rows = [
        NOTE,
        f'.TH {tool.name.upper()} {SECTION} {release.day} "rseq_run {release.version}" "{TITLE}"',
        '.SH NAME',
        f'{tool.name} \\- {tool.line}',
        '.SH SYNOPSIS',
        *(row for command in tool.commands for row in synopsis(tool, command)),
        '.SH DESCRIPTION',
        *page_text(tool.description)[1:],
        *commands_text(tool),
        *options_text(tool),
        *statuses_text(tool),
        *pairs_text('ENVIRONMENT', tool.environment),
        *examples_text(tool),
        '.SH SEE ALSO',
        *see_text(tool),
    ]
    return '\n'.join(rows) + '\n'


def synopsis(tool: Tool, command: Command) -> list[str]:
    return [f'.SY {tool.name}', *usage(command.usage), '.YS']


def commands_text(tool: Tool) -> list[str]:
    """What each command does, with the options that it alone takes."""
    if not tool.has_commands():
        return []
    shared = tool.shared_options()
    found = ['.SH COMMANDS']
    for command in tool.commands:
        own = [option for option in command.options if option not in shared]
        found += [f'.SS {command.word}', *sentences(command.about), *page_text_after(command.more)]
        found += [row for option in own for row in option_text(option)]
    return found


def page_text_after(more: str) -> list[str]:
    return page_text(more) if more else []


def options_text(tool: Tool) -> list[str]:
    """The options that several commands take; or all, where the tool has one command."""
    chosen = tool.shared_options() if tool.has_commands() else list(tool.commands[0].options)
    if tool.has_commands():
        chosen += [option for option in tool.options if option not in chosen]
    return ['.SH OPTIONS', *(row for option in chosen for row in option_text(option))]


def option_text(option: Option) -> list[str]:
    value = f' \\fI{escaped(option.value.name)}\\fR' if option.value else ''
    names = ', '.join(f'\\fB{escaped(name)}\\fR' for name in option.names)
    return ['.TP', f'{names}{value}', *sentences(option.about)]


def statuses_text(tool: Tool) -> list[str]:
    return pairs_text('EXIT STATUS', tool.statuses)


def pairs_text(head: str, pairs: tuple[tuple[str, str], ...]) -> list[str]:
    """A section of words, each with what it says."""
    rows = [row for word, about in pairs for row in ('.TP', f'\\fB{escaped(word)}\\fR', *sentences(about))]
    return [f'.SH {head}', *rows] if rows else []


def examples_text(tool: Tool) -> list[str]:
    rows = []
    for command, about in tool.examples:
        rows += ['.PP', inline(about), '.PP', '.RS 4', '.EX', escaped(command), '.EE', '.RE']
    return ['.SH EXAMPLES', *rows[1:]] if rows else []


def see_text(tool: Tool) -> list[str]:
    """The other pages, and where the documents are."""
    ends = [','] * (len(tool.see) - 1) + ['.']
    pages = [f'.BR {name} ({SECTION}){end}' for name, end in zip(tool.see, ends)]
    return [*pages, '.PP', *sentences(DOCUMENTS)]
