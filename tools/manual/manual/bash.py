"""The completion of a tool in bash."""
from __future__ import annotations

from collections.abc import Iterable

from .table import Command, Option, Tool, Value

HEAD = """\
# Completes the words of {name} in bash. Made by `tools/bin/manual completion bash {name}`.
_{name}_words() {{
    mapfile -t COMPREPLY < <(compgen -W "$1" -- "$word")
}}
_{name}_files() {{
    compopt -o filenames 2>/dev/null
    mapfile -t COMPREPLY < <(compgen -f -- "$word")
}}
_{name}() {{
    local word=${{COMP_WORDS[COMP_CWORD]}} before=${{COMP_WORDS[COMP_CWORD - 1]}}
    if [ "$word" = '=' ]; then
        word=
    elif [ "$before" = '=' ]; then
        before=${{COMP_WORDS[COMP_CWORD - 2]}}
    fi
    COMPREPLY=()
"""
TAIL = """\
}}
complete -F _{name} {name}
"""


def completion(tool: Tool) -> str:
    """The script for bash."""
    body = by_command(tool) if tool.has_commands() else of_command(tool, tool.commands[0], 1)
    rows = [f'    {row}' if row else '' for row in body]
    return HEAD.format(name=tool.name) + ''.join(f'{row}\n' for row in rows) + TAIL.format(name=tool.name)


def by_command(tool: Tool) -> list[str]:
    """Completes the command, and after it what that command takes."""
    words = [command.word for command in tool.commands] + [name for option in tool.options for name in option.names]
    rows = ['if [ "$COMP_CWORD" -eq 1 ]; then', f'    {offer(tool, words)}', '    return', 'fi', 'case ${COMP_WORDS[1]} in']
    for command in tool.commands:
        rows += [f'{command.word})', *(f'    {row}' for row in of_command(tool, command, 2)), '    ;;']
    return [*rows, 'esac']


def of_command(tool: Tool, command: Command, first: int) -> list[str]:
    """Completes what a command takes: the value of the option before it, an option, or a name. Its words begin at the first."""
    offers: dict[str, list[str]] = {}
    for option in command.options:
        if option.value:
            offers.setdefault(of_value(tool, option.value), []).extend(option.names)
    values = [f'{"|".join(names)}) {offered}; return ;;' for offered, names in offers.items()]
    own = [f'-*) {offer(tool, option_words(command.options))} ;;', f'*) {of_names(tool, command, first)} ;;']
    return ['case $before in', *values, 'esac', 'case $word in', *own, 'esac']


def of_names(tool: Tool, command: Command, first: int) -> str:
    """Completes a name: the words of the first name, where there are few; else files, where the command takes some."""
    if not command.names:
        return ':'
    first_name = command.names[0]
    if first_name.words:
        return f'[ "$COMP_CWORD" -eq {first} ] && {of_value(tool, first_name)}'
    return f'_{tool.name}_files'


def of_value(tool: Tool, value: Value) -> str:
    if value.words:
        return offer(tool, value.words)
    return f'_{tool.name}_files' if value.is_file else ':'


def option_words(options: Iterable[Option]) -> list[str]:
    return [name for option in options for name in option.names]


def offer(tool: Tool, words: Iterable[str]) -> str:
    return f"_{tool.name}_words '{' '.join(words)}'"
