"""The completion of a tool in fish."""
from __future__ import annotations

import re

from .markup import LINK
from .table import Command, Option, Tool, Value

HEAD = '# Completes the words of {name} in fish. Made by `tools/bin/manual completion fish {name}`.\n'
CLAUSE = re.compile(r'[.:;] ')
NO_COMMAND = '__fish_use_subcommand'
AFTER = '__fish_seen_subcommand_from'


def completion(tool: Tool) -> str:
    """The script for fish."""
    rows = [f'complete -c {tool.name} -f']
    if tool.has_commands():
        rows += [command_row(tool, command) for command in tool.commands]
        rows += [option_row(tool, option, NO_COMMAND) for option in tool.options]
    for command in tool.commands:
        condition = f'{AFTER} {command.word}' if command.word else ''
        rows += [option_row(tool, option, condition) for option in command.options]
        rows += names_rows(tool, command, condition)
    return HEAD.format(name=tool.name) + ''.join(f'{row}\n' for row in rows)


def command_row(tool: Tool, command: Command) -> str:
    return f'complete -c {tool.name} -n {NO_COMMAND} -a {command.word} -d {quoted(short(command.about))}'


def option_row(tool: Tool, option: Option, condition: str) -> str:
    """An option, in which places, with its value and what it says."""
    words = [f'complete -c {tool.name}', where(condition)]
    words += [f'-l {name[2:]}' if name.startswith('--') else f'-s {name[1:]}' for name in option.names]
    words += [value_words(option.value) if option.value else '', f'-d {quoted(short(option.about))}']
    return ' '.join(filter(None, words))


def names_rows(tool: Tool, command: Command, condition: str) -> list[str]:
    """The names that a command takes: words, where there are few, or files."""
    words = [word for name in command.names for word in name.words]
    head = ' '.join(filter(None, [f'complete -c {tool.name}', where(condition)]))
    if words:
        return [f'{head} -a {quoted(" ".join(words))}']
    return [f'{head} -F'] if any(name.is_file for name in command.names) else []


def where(condition: str) -> str:
    return f'-n {quoted(condition)}' if condition else ''


def value_words(value: Value) -> str:
    if value.words:
        return f'-x -a {quoted(" ".join(value.words))}'
    return '-r -F' if value.is_file else '-x'


def short(text: str) -> str:
    """How a text begins, without marks of Markdown: what fits beside a word that is offered."""
    bare = LINK.sub(r'\1', text).replace('`', '').replace('**', '')
    return CLAUSE.split(bare)[0].rstrip('.')


def quoted(text: str) -> str:
    return "'" + text.replace('\\', '\\\\').replace("'", "\\'") + "'"
