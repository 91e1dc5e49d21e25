"""The completion of a tool in zsh."""
from __future__ import annotations

from .fish import short
from .table import Command, Option, Tool, Value

HEAD = '#compdef {name}\n# Completes the words of {name} in zsh. Made by `tools/bin/manual completion zsh {name}`.\n'
COMMANDS = """\
_{name}() {{
    local line state
    local -a commands=(
{commands}
    )
    _arguments -C{options} '1:command:->command' '*::word:->word'
    case $state in
    command) _describe command commands ;;
    word)
        case $line[1] in
{cases}
        esac
        ;;
    esac
}}
"""
ONE = """\
_{name}() {{
    {arguments}
}}
"""
TAIL = """\
if [ "$funcstack[1]" = _{name} ]; then
    _{name} "$@"
else
    compdef _{name} {name}
fi
"""


def completion(tool: Tool) -> str:
    """The script for zsh."""
    body = of_commands(tool) if tool.has_commands() else ONE.format(name=tool.name, arguments=arguments(tool.commands[0]))
    return HEAD.format(name=tool.name) + body + TAIL.format(name=tool.name)


def of_commands(tool: Tool) -> str:
    rows = [f'        {quoted(described(command.word, command.about))}' for command in tool.commands]
    cases = [f'        {command.word}) {arguments(command)} ;;' for command in tool.commands]
    options = ''.join(f' {spec}' for option in tool.options for spec in specs(option))
    return COMMANDS.format(name=tool.name, commands='\n'.join(rows), options=options, cases='\n'.join(cases))


def arguments(command: Command) -> str:
    """Completes what a command takes."""
    options = [spec for option in command.options for spec in specs(option)]
    names = [quoted(f'{at}:{name.name}:{action(name)}') for at, name in enumerate(command.names, 1)]
    return ' '.join(['_arguments', *options, *names])


def specs(option: Option) -> list[str]:
    """An option, once for each of its names, with its value and what it says. A long name takes its value after `=` too."""
    about = bracketed(short(option.about))
    value = f':{option.value.name.replace(":", " ")}:{action(option.value)}' if option.value else ''
    again = '*' if option.may_be_repeated else ''
    return [quoted(f'{again}{name}{joining(name, value)}[{about}]{value}') for name in option.names]


def joining(name: str, value: str) -> str:
    """What stands between a name and its value, where both are one word."""
    return '=' if value and name.startswith('--') else ''


def action(value: Value) -> str:
    if value.words:
        return f'({" ".join(value.words)})'
    return '_files' if value.is_file else ' '


def described(word: str, about: str) -> str:
    """A word and what it says, for `_describe`."""
    return f'{word}:{short(about)}'


def bracketed(text: str) -> str:
    return text.replace('[', '\\[').replace(']', '\\]').replace(':', '\\:')


def quoted(text: str) -> str:
    return "'" + text.replace("'", "'\\''") + "'"
