"""The command `reductions`."""
from __future__ import annotations

import argparse
import os
from collections.abc import Callable, Iterator
from math import inf

from lens.command_line import Parser, add_version, end, natural, positive
from lens.faults import LensFault
from lens.machine import BUILT
from litmus.building import NoToolchain
from litmus.cli import harts_named
from litmus.searching import Searcher

from .comparing import Comparison
from .generator import random_program
from .named import NAMED
from .program import Program, assembler

DIFFERENT_STATUS = 1
PLACES = 20_000


def make_parser() -> argparse.ArgumentParser:
    parser = Parser(
        prog='reductions',
        description='Makes small programs of two threads, by their seeds or names, and compares the outcomes '
        'that rseq_run finds with its reduction and without it. Ends with 1 where they differ.',
    )
    add_version(parser)
    commands = parser.add_subparsers(dest='command', metavar='COMMAND', required=True)
    show = commands.add_parser('show', help='the assembler of a program')
    show.add_argument('program', metavar='SEED|NAME', help=f'a number; or a name: {", ".join(NAMED)}')
    show.set_defaults(act=show_program)
    compare = commands.add_parser('compare', help='compares the two searches of each program')
    compare.add_argument('--tests', type=positive, default=50, metavar='N', help='how many seeds (50)')
    compare.add_argument('--first', type=natural, default=0, metavar='SEED', help='the first of them (0)')
    compare.add_argument('--named', action='store_true', help='the programs with names, and no seeds')
    compare.add_argument(
        '--places', type=positive, default=PLACES, metavar='N', help=f'how many places at most ({PLACES})'
    )
    compare.add_argument(
        '--harts', type=harts_named, default='1,2', metavar='N,..', help='on how many harts each (1,2)'
    )
    compare.add_argument(
        '--seconds', type=positive, metavar='T', help='after so many seconds no further program is searched'
    )
    compare.add_argument(
        '--program', default=str(BUILT), help='the built rseq_run (RSEQ_RUN, or that of this repository)'
    )
    compare.set_defaults(act=compare_programs)
    return parser


def asked_program(word: str) -> Program:
    """The program of a seed or of a name."""
    if word in NAMED:
        return NAMED[word]
    if not word.isdecimal():
        raise LensFault(f'{word}: there is no such program; there are seeds, and {", ".join(NAMED)}')
    return random_program(int(word))


def programs_of(arguments: argparse.Namespace) -> Iterator[Program]:
    """The programs that are asked for, each made where it comes to its turn."""
    if arguments.named:
        yield from NAMED.values()
    else:
        yield from map(random_program, range(arguments.first, arguments.first + arguments.tests))


def show_program(arguments: argparse.Namespace) -> int:
    print(assembler(asked_program(arguments.program)), end='')
    return 0


def compare_programs(arguments: argparse.Namespace) -> int:
    if not os.access(arguments.program, os.X_OK):
        raise LensFault(f'{arguments.program}: no program is there')
    comparison = Comparison(Searcher(arguments.program, arguments.places), print, arguments.seconds or inf)
    return DIFFERENT_STATUS if comparison.compare(programs_of(arguments), arguments.harts) else 0


def asked(arguments: argparse.Namespace) -> int:
    act: Callable[[argparse.Namespace], int] = arguments.act
    try:
        return act(arguments)
    except NoToolchain as missing:
        raise LensFault(str(missing)) from None


def main(words: list[str] | None = None) -> int:
    return end('reductions', lambda: asked(make_parser().parse_args(words)))
