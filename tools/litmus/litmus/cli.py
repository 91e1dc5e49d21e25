"""The command `litmus`."""
from __future__ import annotations

import argparse
import os
import sys
from collections.abc import Callable
from math import inf

from lens.command_line import Parser, add_version, end, natural, positive
from lens.faults import LensFault
from lens.machine import BUILT

from .building import NoToolchain
from .comparing import Explorer, explore_all
from .enumeration import outcomes
from .files.cli import COMMAND, SUFFIX, add_run, with_command
from .generator import random_litmus
from .instructions import described
from .listing import assembler
from .searching import Comparison, Searcher
from .showing import told

DIFFERENT_STATUS = 1
COMMANDS = (COMMAND, 'show', 'explore', 'compare')
PLACES = 20_000


def make_parser() -> argparse.ArgumentParser:
    parser = Parser(
        prog='litmus',
        description='Runs litmus files of herd7\'s format; or makes small random tests of memory and threads '
        'from seeds, and compares the outcomes that rseq_run finds of each with all that Ztso allows. Ends '
        'with 1 where they differ.',
    )
    add_version(parser)
    commands = parser.add_subparsers(dest='command', metavar='COMMAND', required=True)
    run = commands.add_parser(
        COMMAND,
        help=f'runs litmus files, and prints what herd7 prints (short: litmus NAME{SUFFIX})',
        description='Each thread of a test has a hart of its own. All of its runs are looked at (outcomes), or '
        'with --runs some (explore).',
    )
    add_run(run)
    show = commands.add_parser('show', help='the program of a seed, and its outcomes')
    show.add_argument('seed', type=natural, metavar='SEED')
    show.add_argument('--harts', type=positive, metavar='N', help='how many harts (as many as threads)')
    show.set_defaults(act=show_test)
    explore = commands.add_parser('explore', help='compares with what explore finds, which may be less')
    add_seeds(explore)
    explore.add_argument(
        '--runs', type=positive, default=3000, metavar='N', help='how many runs of each (3000)'
    )
    explore.set_defaults(act=explore_tests)
    compare = commands.add_parser('compare', help='compares with what outcomes finds, which is the same')
    add_seeds(compare)
    compare.add_argument(
        '--places', type=positive, default=PLACES, metavar='N', help=f'how many places at most ({PLACES})'
    )
    compare.add_argument(
        '--harts', type=harts_named, default='1,2', metavar='N,..', help='on how many harts each (1,2)'
    )
    compare.add_argument(
        '--seconds', type=positive, metavar='T', help='after so many seconds no further seed is looked at'
    )
    compare.set_defaults(act=compare_tests)
    return parser


def harts_named(words: str) -> list[int]:
    """Numbers with a comma between them."""
    return [positive(word) for word in words.split(',')]


def add_seeds(parser: argparse.ArgumentParser) -> None:
    parser.add_argument('--tests', type=positive, default=50, metavar='N', help='how many seeds (50)')
    parser.add_argument('--first', type=natural, default=0, metavar='SEED', help='the first of them (0)')
    parser.add_argument(
        '--program', default=str(BUILT), help='the built rseq_run (RSEQ_RUN, or that of this repository)'
    )


def seeds_of(arguments: argparse.Namespace) -> range:
    if not os.access(arguments.program, os.X_OK):
        raise LensFault(f'{arguments.program}: no program is there')
    return range(arguments.first, arguments.first + arguments.tests)


def show_test(arguments: argparse.Namespace) -> int:
    litmus = random_litmus(arguments.seed)
    harts = arguments.harts or len(litmus.threads)
    found = sorted(outcomes(litmus, harts))
    print(described(litmus))
    print(f'outcomes {len(found)} on {harts} harts:')
    for outcome in found:
        print(f'    {told(outcome)}')
    print(assembler(litmus), end='')
    return 0


def explore_tests(arguments: argparse.Namespace) -> int:
    explorer = Explorer(arguments.program, arguments.runs)
    return DIFFERENT_STATUS if explore_all(explorer, seeds_of(arguments), print) else 0


def compare_tests(arguments: argparse.Namespace) -> int:
    searcher = Searcher(arguments.program, arguments.places)
    comparison = Comparison(searcher, print, arguments.seconds or inf)
    return DIFFERENT_STATUS if comparison.compare(seeds_of(arguments), arguments.harts) else 0


def asked(words: list[str]) -> int:
    """Does what a command says."""
    try:
        arguments = make_parser().parse_args(with_command(words, COMMANDS))
        act: Callable[[argparse.Namespace], int] = arguments.act
        return act(arguments)
    except NoToolchain as missing:
        raise LensFault(str(missing)) from None


def main(words: list[str] | None = None) -> int:
    return end('litmus', lambda: asked(sys.argv[1:] if words is None else words))
