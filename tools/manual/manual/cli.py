"""The command `manual`."""
from __future__ import annotations

import argparse
from collections.abc import Callable
from pathlib import Path

from lens.command_line import Parser, add_version, end
from lens.faults import LensFault

from . import bash, fish, zsh
from .page import page
from .reference import PageFault
from .release import release
from .table import Tool
from .tools import NAMES, tool

SHELLS: dict[str, Callable[[Tool], str]] = {'bash': bash.completion, 'zsh': zsh.completion, 'fish': fish.completion}
FILES = {'bash': '{name}', 'zsh': '_{name}', 'fish': '{name}.fish'}
"""How the file is named in which a shell looks for the completion of a command."""


def make_parser() -> argparse.ArgumentParser:
    parser = Parser(
        prog='manual',
        description='Makes the man pages and the completions of rseq_run and its tools, from docs/reference and the parsers of the tools.',
    )
    add_version(parser)
    commands = parser.add_subparsers(metavar='COMMAND', required=True)
    one = commands.add_parser('page', help='the man page of a tool')
    one.add_argument('tool', choices=NAMES, metavar='TOOL', help=', '.join(NAMES))
    one.set_defaults(act=print_page)
    completion = commands.add_parser('completion', help='the completion of a tool in a shell')
    completion.add_argument('shell', choices=tuple(SHELLS), metavar='SHELL', help=', '.join(SHELLS))
    completion.add_argument('tool', choices=NAMES, metavar='TOOL', help=', '.join(NAMES))
    completion.set_defaults(act=print_completion)
    all_ = commands.add_parser('all', help='all of them, in FOLDER/man1, FOLDER/bash, FOLDER/zsh and FOLDER/fish')
    all_.add_argument('folder', metavar='FOLDER')
    all_.set_defaults(act=write_all)
    return parser


def print_page(arguments: argparse.Namespace) -> int:
    print(page(tool(arguments.tool), release()), end='')
    return 0


def print_completion(arguments: argparse.Namespace) -> int:
    print(SHELLS[arguments.shell](tool(arguments.tool)), end='')
    return 0


def write_all(arguments: argparse.Namespace) -> int:
    for path, text in all_files().items():
        file = Path(arguments.folder) / path
        file.parent.mkdir(parents=True, exist_ok=True)
        file.write_text(text)
    return 0


def all_files() -> dict[str, str]:
    """All pages and completions, each by its path."""
    day, tables = release(), {name: tool(name) for name in NAMES}
    found = {f'man1/{name}.1': page(table, day) for name, table in tables.items()}
    for shell, completion in SHELLS.items():
        found |= {f'{shell}/{FILES[shell].format(name=name)}': completion(table) for name, table in tables.items()}
    return found


def act(words: list[str] | None) -> int:
    arguments = make_parser().parse_args(words)
    try:
        return int(arguments.act(arguments))
    except PageFault as fault:
        raise LensFault(str(fault)) from None


def main(words: list[str] | None = None) -> int:
    """Does what the words ask; 2 and one line on standard error where it can't."""
    return end('manual', lambda: act(words))
