"""The tables of the tools in Python, from the parsers by which they read their words."""
from __future__ import annotations

import argparse
import os
from collections.abc import Callable, Iterator

from lens.cli import make_parser as lens_parser
from litmus.cli import make_parser as litmus_parser
from sweep.words import make_parser as sweep_parser

from .reference import sentence
from .table import Command, Option, Tool, Value, value_of

PARSERS: dict[str, Callable[[], argparse.ArgumentParser]] = {
    'lens': lens_parser,
    'sweep': sweep_parser,
    'litmus': litmus_parser,
}
"""The parser of each tool that has a man page."""
WIDE = '10000'
"""So many columns has the usage of a command, so that it is one line."""


def tool(name: str) -> Tool:
    """The table of a tool in Python."""
    parser = PARSERS[name]()
    found = subparsers(parser)
    commands = tuple(command_of(word, about, of, parser.prog) for word, about, of in found)
    own = command_of('', '', parser, parser.prog)
    return Tool(
        name,
        '',
        parser.description or '',
        commands or (own,),
        options=own.options if commands else (),
    )


def subparsers(parser: argparse.ArgumentParser) -> Iterator[tuple[str, str, argparse.ArgumentParser]]:
    """The commands of a parser: the word, what it does, and its own parser."""
    for action in parser._actions:
        if isinstance(action, argparse._SubParsersAction):
            abouts = {choice.dest: choice.help or '' for choice in action._choices_actions}
            for word, of in action.choices.items():
                yield word, abouts.get(word, ''), of


def command_of(word: str, about: str, parser: argparse.ArgumentParser, name: str) -> Command:
    actions = [action for action in parser._actions if not isinstance(action, argparse._SubParsersAction)]
    return Command(
        word,
        usage(parser).removeprefix(f'{name} '),
        sentence(plain(about)) if about else '',
        tuple(value(action) for action in actions if not action.option_strings),
        tuple(option(action) for action in actions if action.option_strings),
        ' '.join(filter(None, [parser.description if word else '', parser.epilog])),
    )


def usage(parser: argparse.ArgumentParser) -> str:
    """The usage of a command, on one line."""
    before = os.environ.get('COLUMNS')
    os.environ['COLUMNS'] = WIDE
    try:
        return ' '.join(parser.format_usage().removeprefix('usage: ').split())
    finally:
        if before is None:
            del os.environ['COLUMNS']
        else:
            os.environ['COLUMNS'] = before


def option(action: argparse.Action) -> Option:
    """An option. Its help is plain text, and has the default in brackets."""
    return Option(
        tuple(action.option_strings),
        None if action.nargs == 0 else value(action),
        sentence(plain(action.help or '')),
        isinstance(action, argparse._AppendAction),
    )


def value(action: argparse.Action) -> Value:
    words = tuple(str(choice) for choice in action.choices or ())
    name = action.metavar or ('|'.join(words) if words else action.dest.upper())
    return value_of(str(name), words)


def plain(text: str) -> str:
    """A text of argparse: what stands for a per cent sign there."""
    return text.replace('%%', '%')
